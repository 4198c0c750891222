#!/usr/bin/env python3
"""Makes the captures of this folder: what comes in, and in wanted/ what leaves. It takes no words."""

import pathlib
import sys

sys.path.insert(0, str(pathlib.Path(__file__).resolve().parent.parent))

from frames import ACK, IPV4, SYN, TCP, ethernet, ipv4, tcp
from packets import Packet, write_packets

# Hosts: MAC address and IPv4 address. The switches have a MAC address each.
STAFF = ("02:00:00:00:00:01", "10.0.1.1")
GUEST = ("02:00:00:00:00:02", "10.0.2.1")
PRINTER = ("02:00:00:00:00:09", "10.0.9.1")
SERVER = ("02:00:00:00:00:03", "10.0.3.1")
INTERNET = ("02:00:00:00:00:07", "198.51.100.7")
SWITCHES = {"access": "02:00:00:00:01:00", "core": "02:00:00:00:02:00"}


def frame(target, sender, source, destination, segment, ttl):
    """Returns the frame from one MAC address to another, of a TCP segment from one host to another."""
    return ethernet(target, sender, IPV4, ipv4(source[1], destination[1], segment, protocol=TCP, ttl=ttl))


def packet(capture, switch, source, destination, segment, out=None):
    """Returns a packet: its capture, its frame as it comes to the switch, and, where it leaves, (switch, port) and the frame
    that leaves. `out` is switch, port and the time to live, which is 1 less behind each switch."""
    came = frame(SWITCHES[switch], source[0], source, destination, segment, 64)
    if out is None:
        return Packet(capture, came)
    last, port, ttl = out
    return Packet(capture, came, (last, port), frame(destination[0], SWITCHES[last], source, destination, segment, ttl))


PACKETS = [
    # 0: staff uses the server, (1, 3): it passes access and core, and leaves there by port 2
    packet("staff", "access", STAFF, SERVER, tcp(4000, 443, SYN, b""), ("core", 2, 62)),
    # 1: staff uses the internet, (1, 4): it leaves core by port 3
    packet("staff", "access", STAFF, INTERNET, tcp(4001, 443, SYN, b""), ("core", 3, 62)),
    # 2: staff reaches for a guest, (1, 2): access has a way, but the roles do not fit
    packet("staff", "access", STAFF, GUEST, tcp(4002, 22, SYN, b"")),
    # 3: a guest uses the internet, (2, 4)
    packet("guest", "access", GUEST, INTERNET, tcp(4003, 443, SYN, b""), ("core", 3, 62)),
    # 4: a guest reaches for the server, (2, 3): the filter's rule for 10.0.0.0/16 is too wide, the property stops it
    packet("guest", "access", GUEST, SERVER, tcp(4004, 443, SYN, b"")),
    # 5: the same by telnet: the filter denies port 23, so the property has nothing to judge
    packet("guest", "access", GUEST, SERVER, tcp(4005, 23, SYN, b"")),
    # 6: the printer's port has no role, (0, 4)
    packet("printer", "access", PRINTER, INTERNET, tcp(4006, 443, SYN, b"")),
    # 7: the server answers packet 0, (3, 1)
    packet("server", "core", SERVER, STAFF, tcp(443, 4000, SYN | ACK, b""), ("access", 1, 62)),
    # 8: the internet answers packet 1, (4, 1)
    packet("internet", "core", INTERNET, STAFF, tcp(443, 4001, SYN | ACK, b"welcome"), ("access", 1, 62)),
]

write_packets(__file__, PACKETS)
