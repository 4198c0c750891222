#!/usr/bin/env python3
"""Makes the captures of this folder: what comes in, and in wanted/ what leaves, and what is on the link from
middle to right. It takes no words."""

import pathlib
import sys

HERE = pathlib.Path(__file__).resolve().parent
sys.path.insert(0, str(HERE.parent))

from frames import IPV4, VLAN, ethernet, ipv4, udp, vlan, write_capture
from packets import Packet, write_packets

# Hosts: MAC address and IPv4 address.
PLAIN = ("02:00:00:00:00:01", "10.0.1.1")  # left, port 1, without tags
TAGGED = ("02:00:00:00:00:02", "10.0.1.2")  # left, port 2, with tags
THIRD = ("02:00:00:00:00:03", "10.0.1.3")  # right, port 1, without tags, VLAN 10
FOURTH = ("02:00:00:00:00:04", "10.0.1.4")  # right, port 2, without tags, VLAN 20
UNKNOWN = ("02:00:00:00:00:09", "10.0.1.9")


def frame(source, target, length, tag):
    """Returns the frame of one host to another that has `length` bytes without a tag, of which 42 are headers; with a tag, where
    there is one, it has 4 more."""
    content = ipv4(source[1], target[1], udp(4000, 9, bytes(length - 42)))
    if tag is None:
        return ethernet(target[0], source[0], IPV4, content)
    return ethernet(target[0], source[0], VLAN, vlan(tag, IPV4, content))


def packet(capture, source, target, length, tag=None, out=None, tag_out=None):
    """Returns a packet: with which tag it comes, and, where it leaves, (switch, port) and with which tag."""
    return Packet(capture, frame(source, target, length, tag), out, frame(source, target, length, tag_out))


PACKETS = [
    # 0: left puts on the tag of VLAN 10, and right takes it off: 60, 64 and 64 bytes come
    packet("plain", PLAIN, THIRD, 60, out=("right", 1)),
    # 1: 100, 104 and 104 bytes: just what middle allows, though on the link its telemetry of 13 bytes stands in front
    packet("plain", PLAIN, THIRD, 100, out=("right", 1)),
    # 2: 101, 105 and 105 bytes: a byte too long for middle, by the tag alone
    packet("plain", PLAIN, THIRD, 101),
    # 3: comes with a tag of VLAN 20: 104 bytes at each switch; it leaves without the tag, with 100
    packet("tagged", TAGGED, FOURTH, 100, tag=20, out=("right", 2)),
    # 4: one switch, which takes the tag off: 64 bytes come and 60 leave
    packet("tagged", TAGGED, PLAIN, 60, tag=10, out=("left", 1)),
    # 5: to an address that is not known in VLAN 20: the program drops it and tells so
    packet("tagged", TAGGED, UNKNOWN, 60, tag=20),
    # 6: comes without a tag and leaves with one, longer than it came: 60, 64 and 64 bytes come, and 64 leave
    packet("back", THIRD, TAGGED, 60, out=("left", 2), tag_out=10),
]


def telemetry(first, second, long=False):
    """Returns the 13 bytes in front of a frame that has left middle: a mark, then 89 bits and 7 zero bits. The bits are how many
    lengths there are, four places of 16 bits, whether the frame was too long, and where, which is switch 1."""
    places = first << 48 | second << 32
    bits = 2 << 81 | places << 17 | long << 16 | (1 if long else 0)
    return b"\x48" + (bits << 7).to_bytes(12, "big")


# On the link from middle to right: each frame with its tag, behind its telemetry.
LINK = [
    (0, 0, telemetry(60, 64) + frame(PLAIN, THIRD, 60, 10)),
    (1, 0, telemetry(100, 104) + frame(PLAIN, THIRD, 100, 10)),
    (2, 0, telemetry(101, 105, long=True) + frame(PLAIN, THIRD, 101, 10)),
    (3, 0, telemetry(104, 104) + frame(TAGGED, FOURTH, 100, 20)),
]

write_packets(__file__, PACKETS)
write_capture(HERE / "wanted" / "wire.middle.2.pcap", LINK)
