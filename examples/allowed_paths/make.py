#!/usr/bin/env python3
"""Writes the captures of this case: those that come in, and in wanted/ those that leave."""

import os
import sys

HERE = os.path.dirname(os.path.realpath(__file__))
sys.path.insert(0, os.path.dirname(HERE))
from bridged import PLAIN, Packet, Station, write_captures

STATIONS = {
    "far1": Station("far", 1, "02:00:00:00:00:11", "10.0.0.11"),
    "far3": Station("far", 3, "02:00:00:00:00:13", "10.0.0.13"),
    "west4": Station("west", 4, "02:00:00:00:00:21", "10.0.0.21"),
    "west5": Station("west", 5, "02:00:00:00:00:22", "10.0.0.22"),
    "east1": Station("east", 1, "02:00:00:00:00:51", "10.0.0.51"),
    "gone": Station("east", 9, "02:00:00:00:00:59", "10.0.0.59"),  # no switch knows it
}
PACKETS = [
    # 0: in network 10 by way of north, which is on the list of east: it passes, and east takes the tag off.
    Packet("west4", "east1", comes=10, leaves=PLAIN),
    # 1: in network 20 by way of south, which is not on the list: stopped at east.
    Packet("west4", "east1", comes=20),
    # 2: in network 30 by way of north and south, four switches, on the list: it passes.
    Packet("west4", "east1", comes=30, leaves=PLAIN),
    # 3: to a station at the same switch, whose list has it alone: it passes, with its tag.
    Packet("west4", "west5", comes=10, leaves=10),
    # 4: to a station that no switch knows: forwarding drops it at west, and nothing judges it.
    Packet("west4", "gone", comes=10),
    # 5: as 1. It has come to east before the list gets its path, and leaves behind that: it passes.
    Packet("west4", "east1", comes=20, leaves=PLAIN),
    # 6: from far in network 10, four switches, on the list: it passes. It comes without a tag.
    Packet("far1", "east1", leaves=PLAIN),
    # 7: from far in network 30, five switches, of which the last four are those of 2: too long, and stopped at east.
    Packet("far3", "east1"),
    # 8: from east in network 10, on the list of west: it passes, with the tag that east gave it.
    Packet("east1", "west4", leaves=10),
]

write_captures(HERE, STATIONS, PACKETS)
