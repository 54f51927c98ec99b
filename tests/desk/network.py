"""What boxd and desk do with wrong arguments and on a network that is not kind.

Usage: network.py FOLDER, the one that has the two programs.
"""

import random
import resource
import socket
import subprocess
import sys
import threading
import time

from packets import options
from programs import Programs

NO_REPLY = "no reply within a second"
HERE = "127.0.0.1"

# What the desk prints about 10.0.0.8.
ASKED = "address 10.0.0.8\n"
HOLDER = "  10.0.0.8 is held by hardware 02:00:00:00:00:08\n"
HEARD = "  last heard of 50 s ago\n"
HELD = "  held for another 8 min 20 s\n"


def opened():
    """A UDP socket at a free port."""
    made = socket.socket(socket.AF_INET, socket.SOCK_DGRAM)
    made.bind((HERE, 0))
    made.settimeout(10)
    return made


def wrong_arguments(programs):
    """What is wrong, with the argument that is, and the usage on standard error, status 2."""
    missing, many, port = "the port is missing", "too many arguments", "not a port: "
    option, asked, question = "no such option: ", "not a port that can be asked: ", "not a question: "
    wrong = {
        "boxd": [([], missing), (["x"], port + "x"), ([""], "not a port"), (["-1"], port + "-1"),
                 (["65536"], port + "65536"), (["0x10"], port + "0x10"),
                 (["--what", "0"], option + "--what"), (["0", "0"], option + "0"),
                 (["--mute"], port + "--mute"), (["--mute", "--mute", "0"], many)],
        "desk": [([], missing), (["0"], asked + "0"), (["x"], asked + "x"),
                 (["65536"], asked + "65536")],
    }
    for key in ["oboe", "client", "name=oboe", "hardware=0", "hardware=02:", "hardware=02:0g",
                "hardware=0200", "hardware=" + ":".join(["02"] * 33), "address=10.0.0",
                "address=10.0.0.256"]:
        wrong["desk"].append((["9", "client=oboe", key], question + key))
    for name, lists in wrong.items():
        for arguments, said in lists:
            status, out, err = programs.run(name, *arguments)
            assert (status, out) == (2, ""), (name, arguments, status, out)
            assert err.startswith(f"{name}: {said}\nusage: {name} "), (name, arguments, err)


def system_errors(programs):
    """The text of errno, status 1."""
    with opened() as taken:
        status, _, err = programs.run("boxd", taken.getsockname()[1])
    assert (status, err) == (1, "boxd: bind: Address already in use\n"), (status, err)
    for name, arguments in [("boxd", ["0"]), ("desk", ["9", "client=o"])]:
        with open("/dev/full", "w", encoding="ascii") as full:
            command = [f"{programs.folder}/{name}", *arguments]
            ended = subprocess.run(command, stdout=full, stderr=subprocess.PIPE, text=True,
                                   timeout=20, check=False)
        expected = f"{name}: standard output: No space left on device\n"
        assert (ended.returncode, ended.stderr) == (1, expected), (name, ended)


def keys_refused(programs):
    """What no server takes is refused by the library, not by the arguments."""
    keys = ["client=", "client=o", "client=" + 256 * "o", "hardware=", "address=0.0.0.0",
            "hardware=" + ":".join(["02"] * 17)]
    status, out, err = programs.desk(9, *keys)
    assert (status, out.count("refused 19"), err) == (1, len(keys), ""), (status, out, err)


def sound_query(further=b""):
    """A query by the address 10.0.0.8, with further options."""
    query = bytearray(236)
    query[0], query[12:16], query[24] = 1, bytes([10, 0, 0, 8]), 127
    return bytes(query) + bytes([99, 130, 83, 99, 53, 1, 10]) + further + b"\xff"


def request_list(*codes):
    """Option 55."""
    return bytes([55, len(codes), *codes])


def packets_that_are_none(programs):
    """Each is dropped with a line on standard error, and the box answers the query behind it."""
    chance = random.Random(4388)
    packets = [b"", b"\1", bytes(240), bytes(1500), bytes(1501), bytes(9000)]
    packets += [chance.randbytes(chance.randrange(1600)) for _ in range(200)]
    with programs.boxd() as box, opened() as sender:
        for packet in packets:
            sender.sendto(packet, (HERE, box.port))
            sender.sendto(sound_query(), (HERE, box.port))
            assert sender.recv(2000)[12:16] == bytes([10, 0, 0, 8]), packet
        status, out, _ = programs.desk(box.port)
        assert (status, out.count("is held by")) == (0, 3), (status, out)
    lines = box.said.splitlines()
    assert len(lines) == len(packets), (len(lines), len(packets))
    assert all(" is dropped: refused " in line for line in lines), lines
    assert "a packet of 1501 octets is dropped: refused 1," in box.said


def request_lists(programs):
    """Of 51, 61, 82 and 91 the box sends what a query lists, and all to one that has no list. A list
    that is empty, or there twice, is dropped."""
    sent = {b"": [51, 61, 82, 91], request_list(51): [51], request_list(91, 82): [82, 91],
            request_list(91, 61, 82, 51, 51): [51, 61, 82, 91], request_list(1, 92): []}
    dropped = [request_list(), request_list(51) + request_list(51)]
    with programs.boxd() as box, opened() as sender:
        for further, codes in sent.items():
            sender.sendto(sound_query(further), (HERE, box.port))
            told = [code for code, _ in options(sender.recv(2000))]
            assert told == [53, 54, *codes, 255], (further, told)
        for further in dropped:
            sender.sendto(sound_query(further), (HERE, box.port))
        status, out, _ = programs.desk(box.port, "address=10.0.0.8")
        assert status == 0 and HEARD in out and HELD in out, (status, out)
    assert box.said.count(" is dropped: refused 3, ") == len(dropped), box.said


def few_descriptors(programs):
    """Many questions with room for few descriptors: each is given back."""
    def limit():
        resource.setrlimit(resource.RLIMIT_NOFILE, (12, 12))
    with programs.boxd(preexec_fn=limit) as box:
        status, out, err = programs.desk(box.port, *["client=oboe"] * 60, preexec_fn=limit)
    assert (status, out.count("is held by"), err) == (0, 60, ""), (status, out, err)


class Replies:
    """The reply of a box, which is made to fit any query for the same."""

    def __init__(self, programs, further=b""):
        with programs.boxd() as box, opened() as asker:
            asker.sendto(sound_query(further), (HERE, box.port))
            self.sound = asker.recv(2000)

    def to(self, query):
        return self.sound[:4] + query[4:8] + self.sound[8:]

    def to_another(self, query):
        other = bytes([query[4] ^ 1]) + query[5:8]
        return self.sound[:4] + other + self.sound[8:]

    def send(self, port, query, desk, _):
        port.sendto(self.to(query), desk)


def asked(programs, answer):
    """What the desk prints at a port where `answer` is called with the socket, the query, the
    desk's address and an event that says that the desk has ended; and the seconds that it took."""
    with opened() as port:
        ended = threading.Event()

        def serve():
            query, desk = port.recvfrom(2000)
            answer(port, query, desk, ended)
        thread = threading.Thread(target=serve)
        thread.start()
        began = time.monotonic()
        status, out, err = programs.desk(port.getsockname()[1], "address=10.0.0.8")
        took = time.monotonic() - began
        ended.set()
        thread.join(20)
    assert err == "", err
    return status, out, took


def the_reply(programs):
    """What follows is about replies that the desk takes, were they the right ones."""
    status, out, _ = asked(programs, Replies(programs).send)
    assert status == 0 and "10.0.0.8 is held by" in out, (status, out)


def replies_without_times(programs):
    """The desk prints the times that are there, and no others."""
    for code, line in [(51, HELD), (91, HEARD), (61, "")]:
        reply = Replies(programs, request_list(code))
        status, out, _ = asked(programs, reply.send)
        assert (status, out) == (0, ASKED + HOLDER + line), (code, status, out)


def patience(programs):
    """No packet that is not the reply makes the desk wait longer than a second."""
    reply = Replies(programs)

    def flood(port, query, desk, ended):
        until = time.monotonic() + 8
        while time.monotonic() < until and not ended.wait(0.02):
            port.sendto(reply.to_another(query), desk)
    status, out, took = asked(programs, flood)
    assert status == 1 and NO_REPLY in out, status
    assert out.count("refused 21") > 5 and 1 <= took < 6, took


def replies_from_elsewhere(programs):
    """The right reply from another port, or too late, is none."""
    reply = Replies(programs)

    def elsewhere(_, query, desk, ended):
        with opened() as other:
            other.sendto(reply.to(query), desk)
            ended.wait(10)

    def late(port, query, desk, ended):
        ended.wait(10)
        port.sendto(reply.to(query), desk)
    for answer in (elsewhere, late):
        status, out, took = asked(programs, answer)
        assert status == 1 and NO_REPLY in out, (answer, status, out)
        assert "dropped" not in out and took >= 1, (answer, out, took)


def main():
    programs = Programs(sys.argv[1])
    tests = [wrong_arguments, system_errors, keys_refused, packets_that_are_none, request_lists,
             few_descriptors, the_reply, replies_without_times, patience, replies_from_elsewhere]
    for test in tests:
        test(programs)
    print(f"desk: {len(tests)} kinds of trouble are borne")


main()
