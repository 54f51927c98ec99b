"""Listens on an interface for router advertisements and prints the DNS server options of two of them:
the first one of a router that is there, and the first one by which a router says goodbye.

Usage: listen.py INTERFACE SECONDS
A line is `running` or `stopping` and the options in hexadecimal, in the order of the advertisement.
It asks for an advertisement each second and ends after the goodbye, or with status 1 when the time is
over.
"""
import socket
import sys
import time

SOLICITATION = bytes([133, 0, 0, 0, 0, 0, 0, 0])
ADVERTISEMENT = 134
HEAD = 16  # the octets of an advertisement ahead of its options
DNS_SERVERS = 25
ALL_ROUTERS = "ff02::2"


def open_socket(index, interface):
    """A socket for ICMPv6 on this interface alone. Routers drop what came over more than one hop."""
    found = socket.socket(socket.AF_INET6, socket.SOCK_RAW, socket.IPPROTO_ICMPV6)
    found.setsockopt(socket.SOL_SOCKET, socket.SO_BINDTODEVICE, interface.encode())
    found.setsockopt(socket.IPPROTO_IPV6, socket.IPV6_MULTICAST_IF, index)
    found.setsockopt(socket.IPPROTO_IPV6, socket.IPV6_MULTICAST_HOPS, 255)
    found.settimeout(1)
    return found


def options_of(packet):
    """The options of an advertisement, each as its octets."""
    at = HEAD
    while at < len(packet):
        length = 8 * packet[at + 1]
        if length == 0 or at + length > len(packet):
            sys.exit("listen: an option of no length, or past the end")
        yield packet[at:at + length]
        at += length


def advertisements(listener, index, seconds):
    """What comes in until the time is over, an advertisement being asked for each second."""
    end = time.monotonic() + seconds
    while time.monotonic() < end:
        listener.sendto(SOLICITATION, (ALL_ROUTERS, 0, 0, index))
        try:
            packet = listener.recv(65536)
        except TimeoutError:
            continue
        if len(packet) >= HEAD and packet[0] == ADVERTISEMENT:
            yield packet
        time.sleep(0.2)


def main(interface, seconds):
    index = socket.if_nametoindex(interface)
    heard = set()
    for packet in advertisements(open_socket(index, interface), index, float(seconds)):
        state = "running" if packet[6] or packet[7] else "stopping"
        if state not in heard:
            found = [option.hex() for option in options_of(packet) if option[0] == DNS_SERVERS]
            print(state, *found, flush=True)
        heard.add(state)
        if state == "stopping":
            return
    sys.exit("listen: the time is over")


main(*sys.argv[1:])
