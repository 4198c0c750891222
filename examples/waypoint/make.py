#!/usr/bin/env python3
"""Writes the captures of this case: those that come in, and in wanted/ those that leave."""

import os
import sys

HERE = os.path.dirname(os.path.realpath(__file__))
sys.path.insert(0, os.path.dirname(HERE))
from routed import Host, Packet, write_captures

SWITCHES = {"border": "02:00:00:00:01:00", "firewall": "02:00:00:00:01:01", "leaf": "02:00:00:00:01:03"}
HOSTS = {
    "outside": Host("border", 1, "02:00:00:00:00:01", "198.51.100.7"),
    "liar": Host("border", 1, "02:00:00:00:00:01", "10.0.9.1"),  # it is outside, with the address of `inside`
    "inside": Host("border", 4, "02:00:00:00:00:91", "10.0.9.1"),
    "server1": Host("leaf", 1, "02:00:00:00:00:21", "10.0.2.1"),
    "server2": Host("leaf", 2, "02:00:00:00:00:22", "10.0.2.2"),
    "server3": Host("leaf", 5, "02:00:00:00:00:23", "10.0.2.3"),
    "server4": Host("firewall", 4, "02:00:00:00:00:41", "10.0.4.1"),
    "staff": Host("leaf", 4, "02:00:00:00:00:31", "10.0.3.1"),
}
PACKETS = [
    # 0: to a server, steered to the firewall: it passes, behind four switches.
    Packet("outside", "server1", leaves=60),
    # 1: to a server for which the border has a way of its own, past the firewall: stopped at leaf.
    Packet("outside", "server2"),
    # 2: to no server, past the firewall: it passes.
    Packet("outside", "staff", leaves=61),
    # 3: to a server at the firewall switch, which is the last one: it passes.
    Packet("outside", "server4", leaves=62),
    # 4: to a server that the firewall lets nothing through to: forwarding drops it there, and nothing judges it.
    Packet("outside", "server3"),
    # 5: as 1, with a source address from inside: the port counts, and it is stopped at leaf.
    Packet("liar", "server2"),
    # 6: from inside to a server, past the firewall: it passes.
    Packet("inside", "server2", leaves=61),
    # 7: from a server to outside, past the firewall: it passes.
    Packet("server2", "outside", leaves=61),
]

write_captures(HERE, SWITCHES, HOSTS, PACKETS)
