"""A lease query or reply taken apart, by RFC 2131."""

import struct

FIELDS = [("op", "B"), ("htype", "B"), ("hlen", "B"), ("hops", "B"), ("xid", "I"), ("secs", "H"),
          ("flags", "H"), ("ciaddr", "4s"), ("yiaddr", "4s"), ("siaddr", "4s"), ("giaddr", "4s"),
          ("chaddr", "16s"), ("sname", "64s"), ("file", "128s"), ("cookie", "4s")]
FIXED = struct.Struct("!" + "".join(form for _, form in FIELDS))


def fields(packet):
    """The fixed fields by their names. Addresses that are zero count as false."""
    found = dict(zip([name for name, _ in FIELDS], FIXED.unpack_from(packet)))
    assert found["cookie"] == bytes([99, 130, 83, 99]), found
    for name in ("yiaddr", "siaddr"):
        found[name] = found[name].strip(b"\0")
    return found


def options(packet):
    """The options, each a code and a value, the end option last, which must end the packet."""
    found, at = [], FIXED.size
    while packet[at] != 255:
        length = packet[at + 1]
        found.append((packet[at], packet[at + 2:at + 2 + length]))
        at += 2 + length
    assert at + 1 == len(packet), "octets behind the end option"
    return found + [(255, b"")]
