#!/usr/bin/env python3
"""Writes the captures of this case: those that come in, and in wanted/ those that leave."""

import os
import sys

HERE = os.path.dirname(os.path.realpath(__file__))
sys.path.insert(0, os.path.dirname(HERE))
from routed import Host, Packet, write_captures

SWITCHES = {"gate": "02:00:00:00:01:00", "left": "02:00:00:00:01:01", "barn": "02:00:00:00:01:04"}
HOSTS = {
    "user": Host("gate", 1, "02:00:00:00:00:11", "10.1.0.1"),
    "store1": Host("barn", 2, "02:00:00:00:00:21", "10.2.0.1"),
    "store2": Host("barn", 3, "02:00:00:00:00:22", "10.2.0.2"),
    "shed1": Host("left", 4, "02:00:00:00:00:31", "10.3.0.1"),
    "shed2": Host("left", 5, "02:00:00:00:00:32", "10.3.0.2"),
    "moved": Host("barn", 9, "02:00:00:00:00:91", "10.9.0.1"),  # the routes to it have a loop
}
PACKETS = [
    # 0: over four switches, as many as the list has places: it passes.
    Packet("user", "store1", leaves=60),
    # 1: over five, none of them twice: too long to be told, and stopped at barn.
    Packet("user", "store2"),
    # 2: in a loop, gate, left, right: the network loses it behind twelve switches, and nothing judges it.
    Packet("user", "moved"),
    # 3: the same with a time to live of 4, which ends when it comes to gate again: forwarding drops it there.
    Packet("user", "moved", comes=4),
    # 4: steered by its port from left to right, and back to left by the routes, where it comes by another port: it leaves
    # at gate, and is stopped there.
    Packet("shed1", "user"),
    # 5: the same, but it would leave at left, when it passes it again: stopped there.
    Packet("shed1", "shed2"),
    # 6: over four switches, the other way: it passes.
    Packet("store1", "user", leaves=60),
]

write_captures(HERE, SWITCHES, HOSTS, PACKETS)
