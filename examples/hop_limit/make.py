#!/usr/bin/env python3
"""Writes the captures of this case: those that come in, and in wanted/ those that leave."""

import os
import sys

HERE = os.path.dirname(os.path.realpath(__file__))
sys.path.insert(0, os.path.dirname(HERE))
from bridged import PLAIN, Packet, Station, write_captures

STATIONS = {
    "depot3": Station("depot", 3, "02:00:00:00:00:11", "10.0.0.11"),
    "depot4": Station("depot", 4, "02:00:00:00:00:12", "10.0.0.12"),
    "river3": Station("river", 3, "02:00:00:00:00:31", "10.0.0.31"),
    "hill3": Station("hill", 3, "02:00:00:00:00:41", "10.0.0.41"),
    "mill3": Station("mill", 3, "02:00:00:00:00:51", "10.0.0.51"),
    "moved": Station("mill", 9, "02:00:00:00:00:61", "10.0.0.61"),  # in network 10 each switch sends it to the next
    "gone": Station("mill", 9, "02:00:00:00:00:69", "10.0.0.69"),  # no switch knows it
}
PACKETS = [
    # 0: in network 10 over three switches, as many as the limit: it passes.
    Packet("depot3", "river3", comes=10, leaves=PLAIN),
    # 1: in network 10 over four switches: stopped at hill.
    Packet("depot3", "hill3", comes=10),
    # 2: the same in network 20, the other way round the ring, over three switches: it passes.
    Packet("depot3", "hill3", comes=20, leaves=PLAIN),
    # 3: as 0, the other way round, over four switches: stopped at river.
    Packet("depot3", "river3", comes=20),
    # 4: over one switch, the first and the last: it passes.
    Packet("depot3", "depot4", comes=10, leaves=PLAIN),
    # 5: to mill, for which nobody has set a limit, so that it is 0: stopped there behind two switches.
    Packet("depot3", "mill3", comes=20),
    # 6: round and round: the network loses it behind eight switches, and nothing judges it.
    Packet("depot3", "moved", comes=10),
    # 7: to a station that no switch knows: forwarding drops it at depot, and nothing judges it.
    Packet("depot3", "gone", comes=10),
    # 8: from river in network 20 over three switches: it passes.
    Packet("river3", "depot4", leaves=PLAIN),
]

write_captures(HERE, STATIONS, PACKETS)
