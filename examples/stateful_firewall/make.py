#!/usr/bin/env python3
"""Makes the captures of this folder: what comes in, and in wanted/ what leaves. It takes no words."""

import pathlib
import sys

sys.path.insert(0, str(pathlib.Path(__file__).resolve().parent.parent))

from frames import ACK, IPV4, SYN, TCP, UDP, ethernet, ipv4, tcp, udp
from packets import Packet, write_packets

# Hosts: MAC address and IPv4 address. What is outside has the MAC address of the router there.
FIRST = ("02:00:00:00:00:01", "10.0.1.1")
SECOND = ("02:00:00:00:00:02", "10.0.1.2")
SERVER = ("02:00:00:00:00:07", "198.51.100.7")
STRANGER = ("02:00:00:00:00:07", "203.0.113.9")
SWITCHES = {"inside": "02:00:00:00:01:00", "edge": "02:00:00:00:02:00"}


def frame(target, sender, source, destination, protocol, segment, ttl):
    """Returns the frame from one MAC address to another, of a segment from one host to another."""
    return ethernet(target, sender, IPV4, ipv4(source[1], destination[1], segment, protocol=protocol, ttl=ttl))


def packet(capture, switch, source, destination, protocol, segment, out=None):
    """Returns a packet: its capture, its frame as it comes to the switch, and, where it leaves, (switch, port) and the frame
    that leaves. `out` is switch, port and the time to live, which is 1 less behind each switch."""
    came = frame(SWITCHES[switch], source[0], source, destination, protocol, segment, 64)
    if out is None:
        return Packet(capture, came)
    last, port, ttl = out
    return Packet(capture, came, (last, port), frame(destination[0], SWITCHES[last], source, destination, protocol, segment, ttl))


PACKETS = [
    # 0: opens a connection by TCP. Its number is (4000 ^ 443) & 15 = 11, so cell 11 keeps it
    packet("first", "inside", FIRST, SERVER, TCP, tcp(4000, 443, SYN, b""), ("edge", 2, 62)),
    # 1: stays inside, and is no matter of the property
    packet("first", "inside", FIRST, SECOND, TCP, tcp(4002, 22, SYN, b""), ("inside", 2, 63)),
    # 2: asks by UDP; cell (5000 ^ 53) & 15 = 13 keeps it
    packet("second", "inside", SECOND, SERVER, UDP, udp(5000, 53, b"name?"), ("edge", 2, 62)),
    # 3: opens a connection with the number of packet 0's, (4016 ^ 443) & 15 = 11, and takes its cell
    packet("second", "inside", SECOND, SERVER, TCP, tcp(4016, 443, SYN, b""), ("edge", 2, 62)),
    # 4: answers packet 0, by the schedule directly behind it
    packet("outside", "edge", SERVER, FIRST, TCP, tcp(443, 4000, SYN | ACK, b""), ("inside", 1, 62)),
    # 5: has the flag of an answer, so that the filter lets it in, but nobody asked from port 4001
    packet("outside", "edge", SERVER, FIRST, TCP, tcp(443, 4001, ACK, b"")),
    # 6: opens a connection from outside: the filter itself denies it
    packet("outside", "edge", SERVER, FIRST, TCP, tcp(4000, 22, SYN, b"")),
    # 7: the ports of packet 0's connection, while it is kept, from another address
    packet("outside", "edge", STRANGER, FIRST, TCP, tcp(443, 4000, ACK, b"")),
    # 8: answers packet 2
    packet("outside", "edge", SERVER, SECOND, UDP, udp(53, 5000, b"198.51.100.9"), ("inside", 2, 62)),
    # 9: the same addresses and ports by TCP
    packet("outside", "edge", SERVER, SECOND, TCP, tcp(53, 5000, ACK, b"")),
    # 10: answers packet 0 again, but packet 3 has taken the cell: the limit of few cells
    packet("outside", "edge", SERVER, FIRST, TCP, tcp(443, 4000, ACK, b"late")),
    # 11: answers packet 3
    packet("outside", "edge", SERVER, SECOND, TCP, tcp(443, 4016, SYN | ACK, b""), ("inside", 2, 62)),
]

write_packets(__file__, PACKETS)
