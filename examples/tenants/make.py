#!/usr/bin/env python3
"""Writes the captures of this case: those that come in, and in wanted/ those that leave."""

import os
import sys

HERE = os.path.dirname(os.path.realpath(__file__))
sys.path.insert(0, os.path.dirname(HERE))
from routed import Host, Packet, write_captures

SWITCHES = {"leaf1": "02:00:00:00:01:00", "leaf2": "02:00:00:00:01:01"}
HOSTS = {
    "red1": Host("leaf1", 1, "02:00:00:00:00:11", "10.0.1.1"),
    "blue1": Host("leaf1", 2, "02:00:00:00:00:12", "10.0.1.2"),
    "free1": Host("leaf1", 5, "02:00:00:00:00:15", "10.0.1.5"),
    "red2": Host("leaf2", 1, "02:00:00:00:00:21", "10.0.2.1"),
    "blue2": Host("leaf2", 2, "02:00:00:00:00:22", "10.0.2.2"),
    "free2": Host("leaf2", 5, "02:00:00:00:00:25", "10.0.2.5"),
    "gone": Host("leaf2", 9, "02:00:00:00:00:29", "10.0.2.9"),  # leaf2 has no route to it
}
PACKETS = [
    # 0: within tenant 1, over spine1, by the prefix of leaf2: it passes, and three switches took 1 each of its time to live.
    Packet("red1", "red2", leaves=61),
    # 1: to another tenant, over spine2, by the longer prefix of one host: stopped at leaf2.
    Packet("red1", "blue2"),
    # 2: to another tenant at the same switch, which is its first and its last: stopped at leaf1.
    Packet("red1", "blue1"),
    # 3: to an address without a route: forwarding drops it at leaf2 and tells so, and nothing judges it.
    Packet("red1", "gone"),
    # 4: to a port that no tenant has: stopped at leaf2.
    Packet("red1", "free2"),
    # 5: within tenant 2, over spine2: it passes.
    Packet("blue1", "blue2", leaves=61),
    # 6: from a port that no tenant has to another one: both lookups give 0, and the guards stop it at leaf2.
    Packet("free1", "free2"),
    # 7: within tenant 1, the other way: it passes.
    Packet("red2", "red1", leaves=61),
    # 8: the same, but its header checksum is wrong: forwarding drops it at leaf2.
    Packet("red2", "red1", broken=True),
    # 9: from a port that no tenant has to one of tenant 1: stopped at leaf1.
    Packet("free2", "red1"),
]

write_captures(HERE, SWITCHES, HOSTS, PACKETS)
