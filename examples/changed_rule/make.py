#!/usr/bin/env python3
"""Makes the captures of this folder: what comes in, and in wanted/ what leaves. It takes no words."""

import pathlib
import sys

sys.path.insert(0, str(pathlib.Path(__file__).resolve().parent.parent))

from frames import IPV4, ethernet, ipv4, udp
from packets import Packet, write_packets

# Hosts: capture, switch, port, MAC address and IPv4 address.
FIRST = ("first", "left", 1, "02:00:00:00:00:01", "10.0.1.1")
THIRD = ("third", "right", 1, "02:00:00:00:00:03", "10.0.1.3")
FOURTH = ("fourth", "right", 2, "02:00:00:00:00:04", "10.0.1.4")


def packet(source, target, content, leaves=False):
    """Returns a packet of one host to another, which leaves as it came: the tag is put on and taken off between."""
    capture, _, _, mac, address = source
    _, switch, port, target_mac, target_address = target
    frame = ethernet(target_mac, mac, IPV4, ipv4(address, target_address, udp(4000, 9, content)))
    return Packet(capture, frame, (switch, port) if leaves else None, frame)


PACKETS = [
    # 0: before the rule changes, nothing is wrong with the first host
    packet(FIRST, THIRD, b"before", leaves=True),
    # 1: behind the change at right
    packet(FIRST, THIRD, b"behind"),
    # 2: on the link while right changes: what right holds when it comes there counts
    packet(FIRST, THIRD, b"between"),
    # 3: when right has let everyone out
    packet(FIRST, THIRD, b"at last", leaves=True),
    # 4: the fourth host is in quarantine from the start, by control.json
    packet(THIRD, FOURTH, b"too early"),
    # 5: to the first host, and so out by left, which the change at right does not touch
    packet(THIRD, FIRST, b"by left", leaves=True),
    # 6: the same behind the change at left
    packet(THIRD, FIRST, b"by left no more"),
    # 7: behind the second change at right, which does not name the fourth host
    packet(THIRD, FOURTH, b"let out", leaves=True),
]

write_packets(__file__, PACKETS)
