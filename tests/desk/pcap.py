"""Writes packets as a capture file: each as UDP from port 67 to port 67, in IPv4."""

import struct

LINKTYPE_RAW = 101  # an IP packet without a frame around it
MAGIC = 0xA1B2C3D4
HERE = bytes([127, 0, 0, 1])


def checksum(octets):
    """The checksum of an IPv4 header (RFC 791)."""
    total = sum(struct.unpack(f"!{len(octets) // 2}H", octets))
    while total > 0xFFFF:
        total = (total & 0xFFFF) + (total >> 16)
    return ~total & 0xFFFF


def in_ip(payload):
    """The payload in UDP, which here has no checksum, in IPv4."""
    udp = struct.pack("!HHHH", 67, 67, 8 + len(payload), 0) + payload
    start = struct.pack("!BBHHHBB", 0x45, 0, 20 + len(udp), 0, 0, 64, 17)
    total = checksum(start + b"\0\0" + HERE + HERE)
    return start + struct.pack("!H", total) + HERE + HERE + udp


def write(file, payloads):
    with open(file, "wb") as out:
        out.write(struct.pack("=IHHiIII", MAGIC, 2, 4, 0, 0, 65535, LINKTYPE_RAW))
        for second, payload in enumerate(payloads):
            packet = in_ip(payload)
            out.write(struct.pack("=IIII", second, 0, len(packet), len(packet)))
            out.write(packet)
