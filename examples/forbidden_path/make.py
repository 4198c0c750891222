#!/usr/bin/env python3
"""Writes the captures of this case: those that come in, and in wanted/ those that leave."""

import os
import sys

HERE = os.path.dirname(os.path.realpath(__file__))
sys.path.insert(0, os.path.dirname(HERE))
from routed import Host, Packet, write_captures

SWITCHES = {
    "lab": "02:00:00:00:01:00",
    "core": "02:00:00:00:01:01",
    "vault": "02:00:00:00:01:02",
    "office": "02:00:00:00:01:03",
}
HOSTS = {
    "bench1": Host("lab", 1, "02:00:00:00:00:11", "10.1.0.1"),
    "bench2": Host("lab", 3, "02:00:00:00:00:12", "10.1.0.2"),
    "printer": Host("core", 4, "02:00:00:00:00:21", "10.2.0.1"),
    "store": Host("vault", 3, "02:00:00:00:00:31", "10.3.0.1"),
    "gone": Host("vault", 9, "02:00:00:00:00:39", "10.3.0.9"),  # vault has no route to it
    "desk1": Host("office", 3, "02:00:00:00:00:41", "10.4.0.1"),
    "desk2": Host("office", 4, "02:00:00:00:00:42", "10.4.0.2"),
}
PACKETS = [
    # 0: from the lab to the office, by the core: it passes, behind three switches.
    Packet("bench1", "desk1", leaves=61),
    # 1: to a desk that the core reaches by a longer prefix over the vault: stopped at office.
    Packet("bench1", "desk2"),
    # 2: to a host at the vault, which is its last switch: stopped there.
    Packet("bench1", "store"),
    # 3: to a host at the lab's own switch: it passes.
    Packet("bench1", "bench2", leaves=63),
    # 4: to an address that the vault has no route for: forwarding drops it there, and nothing judges it.
    Packet("bench1", "gone"),
    # 5: from the office to the vault: it passes, since it did not come through the lab.
    Packet("desk1", "store", leaves=62),
    # 6: from the office over the vault to the lab: it passes, since the vault comes first.
    Packet("desk1", "bench1", leaves=60),
    # 7: from the core over the vault, as 1: it passes, since it did not come through the lab.
    Packet("printer", "desk2", leaves=61),
]

write_captures(HERE, SWITCHES, HOSTS, PACKETS)
