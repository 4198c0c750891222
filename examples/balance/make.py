#!/usr/bin/env python3
"""Makes the captures of this folder: what comes in, and in wanted/ what leaves. It takes no words."""

import pathlib
import sys

sys.path.insert(0, str(pathlib.Path(__file__).resolve().parent.parent))

from frames import IPV4, ethernet, ipv4, udp
from packets import Packet, write_packets

# Hosts: capture, leaf, port, MAC address and IPv4 address.
FIRST = ("first", "leaf1", 1, "02:00:00:00:00:01", "10.0.1.1")
SECOND = ("second", "leaf1", 2, "02:00:00:00:00:02", "10.0.1.2")
THIRD = ("third", "leaf2", 1, "02:00:00:00:00:03", "10.0.2.1")
LEAVES = {"leaf1": "02:00:00:00:01:01", "leaf2": "02:00:00:00:01:02"}


def packet(source, target, ports, length, ttl=64, left=None):
    """Returns a packet of one host to another, whose frame has `length` bytes, of which 42 are headers. `left` is the time to
    live where it leaves, which is 1 less behind each switch."""
    capture, leaf, _, mac, address = source
    _, last, port, target_mac, target_address = target
    content = udp(*ports, bytes(length - 42))
    came = ethernet(LEAVES[leaf], mac, IPV4, ipv4(address, target_address, content, ttl=ttl))
    if left is None:
        return Packet(capture, came)
    gone = ethernet(target_mac, LEAVES[last], IPV4, ipv4(address, target_address, content, ttl=left))
    return Packet(capture, came, (last, port), gone)


PACKETS = [
    # 0: the first flow of leaf1, cell (4000 ^ 9) & 15 = 9: uplink 1. 100 and 0 differ by 100, which is allowed
    packet(FIRST, THIRD, (4000, 9), 100, left=61),
    # 1: the second flow, cell 8: uplink 2. 100 and 60
    packet(FIRST, THIRD, (4001, 9), 60, left=61),
    # 2: the first flow keeps uplink 1. 160 and 60 differ by 100
    packet(FIRST, THIRD, (4000, 9), 60, left=61),
    # 3: the third flow, cell 11: uplink 1 again. 202 and 60: too heavy
    packet(FIRST, THIRD, (4002, 9), 42),
    # 4: the second flow. 202 and 160: the other uplink has caught up
    packet(FIRST, THIRD, (4001, 9), 100, left=61),
    # 5: the first flow goes on. 244 and 160
    packet(FIRST, THIRD, (4000, 9), 42, left=61),
    # 6: to a host of the same leaf, however long: the program exits before it chooses an uplink, and nothing is counted
    packet(FIRST, SECOND, (4004, 9), 442, left=63),
    # 7: its time to live is at its end: the program drops it and exits
    packet(FIRST, THIRD, (4000, 9), 142, ttl=1),
    # 8: the first flow of leaf2, cell 9 there: uplink 1. 42 and 0, since each leaf counts by itself
    packet(THIRD, FIRST, (9, 4000), 42, left=61),
    # 9: its second flow, cell (9 ^ 4005) & 15 = 12: uplink 2. 42 and 143: too heavy
    packet(THIRD, SECOND, (9, 4005), 143),
]

write_packets(__file__, PACKETS)
