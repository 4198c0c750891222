#!/usr/bin/env python3
"""Makes the captures of this folder: what comes in, and in wanted/ what leaves. It takes no words."""

import pathlib
import sys

sys.path.insert(0, str(pathlib.Path(__file__).resolve().parent.parent))

from frames import IPV4, ethernet, ipv4, udp
from packets import Packet, write_packets

# The one who sends and the one who gets all packets: MAC address and IPv4 address. The leaves have a MAC address each.
FIRST = ("02:00:00:00:00:01", "10.0.1.1")
THIRD = ("02:00:00:00:00:03", "10.0.2.1")
LEAVES = {"leaf1": "02:00:00:00:01:01", "leaf2": "02:00:00:00:01:02"}


def packet(port, content, ttl=64, leaves=True):
    """Returns a packet of the flow from this port to port 9. Where it leaves, its time to live is 2 less."""
    segment = udp(port, 9, content)
    came = ethernet(LEAVES["leaf1"], FIRST[0], IPV4, ipv4(FIRST[1], THIRD[1], segment, ttl=ttl))
    if not leaves:
        return Packet("first", came)
    left = ethernet(THIRD[0], LEAVES["leaf2"], IPV4, ipv4(FIRST[1], THIRD[1], segment, ttl=ttl - 2))
    return Packet("first", came, ("leaf2", 1), left)


PACKETS = [
    # 0: all of its way before any change, a first flow, cell (4000 ^ 9) & 15 = 9: uplink 1
    packet(4000, b"version 1"),
    # 1: waits at leaf1 between its halves when leaf1 changes; a second flow, cell 8: uplink 2
    packet(4001, b"between", leaves=False),
    # 2: passes leaf1 whole while packet 1 waits there; it waits at leaf2 when leaf2 changes. A third flow, cell 11: uplink 1
    packet(4002, b"overtaken", leaves=False),
    # 3: comes when leaf1 has changed, and reaches leaf2 before it has
    packet(4000, b"too fast", leaves=False),
    # 4: comes when leaf1 has changed, and waits at leaf2 when leaf2 does
    packet(4001, b"just in time"),
    # 5: leaf1 changes there and back between its halves
    packet(4002, b"there and back"),
    # 6: its time to live is at its end, so that the entry half drops it, and there is no exit half
    packet(4000, b"the end", ttl=1, leaves=False),
    # 7: all of its way behind the changes; a fourth flow, cell 10: uplink 2
    packet(4003, b"version 2"),
]

write_packets(__file__, PACKETS)
