"""Records the packets between a desk and a box, holds them to the rule, and writes them to a file
that tshark and others read. Prints how many there are.

Usage: record.py FOLDER FILE
"""

import queue
import socket
import sys
import threading

from packets import fields, options
from pcap import write
from programs import Programs

HERE = "127.0.0.1"

# Each question with the options of its query, the kind of the reply and the options of that. No query
# of the desk has a request list, so the reply has all that the lease has.
QUESTIONS = {
    "client=oboe": ([53, 61], 13, [53, 54, 51, 61, 82, 91]),
    "client=" + 255 * "o": ([53, 61], 12, [53, 54]),
    "hardware=02:00:00:00:00:07": ([53], 13, [53, 54, 51, 61, 91, 92]),
    "address=10.0.0.8": ([53], 13, [53, 54, 51, 61, 82, 91]),
    "address=10.0.0.10": ([53], 11, [53, 54]),
    "address=10.0.0.99": ([53], 12, [53, 54]),
}


class Relay:
    """Stands between the desk and the box, and keeps what passes."""

    def __init__(self, port):
        self.desk_side = socket.socket(socket.AF_INET, socket.SOCK_DGRAM)
        self.desk_side.bind((HERE, 0))
        self.port = self.desk_side.getsockname()[1]
        self.box_side = socket.socket(socket.AF_INET, socket.SOCK_DGRAM)
        self.box_side.connect((HERE, port))
        self.box_side.settimeout(10)
        self.passed = queue.Queue()

    def pass_on(self, count):
        """So many queries, each with its reply."""
        self.desk_side.settimeout(10)
        for _ in range(count):
            query, desk = self.desk_side.recvfrom(2000)
            self.box_side.send(query)
            reply = self.box_side.recv(2000)
            self.desk_side.sendto(reply, desk)
            self.passed.put((query, reply))


def record(programs):
    """The queries of a run, each with its reply."""
    with programs.boxd() as box:
        relay = Relay(box.port)
        thread = threading.Thread(target=relay.pass_on, args=(len(QUESTIONS),))
        thread.start()
        status, out, err = programs.desk(relay.port, *QUESTIONS)
        thread.join(20)
    assert (status, err) == (0, ""), (status, out, err)
    return [relay.passed.get(timeout=1) for _ in QUESTIONS]


def check_query(query, codes):
    """Op 1, an xid, the giaddr, one key; all else zero; the options in their order."""
    field = fields(query)
    assert (field["op"], field["giaddr"]) == (1, b"\x7f\0\0\1"), field
    keys = [any(field["ciaddr"]), any(field["chaddr"]), 61 in codes]
    assert keys.count(True) == 1, field
    assert not any(field[name] for name in ("hops", "secs", "flags", "yiaddr", "siaddr")), field
    assert not any(field["sname"]) and not any(field["file"]), field
    assert [code for code, _ in options(query)] == codes + [255], query
    assert dict(options(query))[53] == b"\x0a", query


def check_reply(query, reply, kind, codes):
    """Op 2, the xid and the giaddr of the query, the kind, the options in their order."""
    asked, told = fields(query), fields(reply)
    assert told["op"] == 2 and told["xid"] == asked["xid"], told
    assert told["giaddr"] == asked["giaddr"], told
    assert [code for code, _ in options(reply)] == codes + [255], reply
    found = dict(options(reply))
    assert (found[53], len(found[54])) == (bytes([kind]), 4), found


def main():
    passed = record(Programs(sys.argv[1]))
    xids = {fields(query)["xid"] for query, _ in passed}
    assert len(xids) == len(passed), "two queries have one xid"
    for (query, reply), (asked, kind, told) in zip(passed, QUESTIONS.values()):
        check_query(query, asked)
        check_reply(query, reply, kind, told)
    packets = [packet for pair in passed for packet in pair]
    write(sys.argv[2], packets)
    print(len(packets))


main()
