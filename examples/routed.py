"""Writes the captures of a case in which hosts send IPv4 packets over programs/fabric.p4: those that come in, one for each sender,
and in wanted/ those that leave."""

import os
from typing import NamedTuple, Optional

from frames import IPV4, ethernet, ipv4, udp, write_capture


class Host(NamedTuple):
    switch: str
    port: int
    mac: str
    address: str


class Packet(NamedTuple):
    sender: str
    receiver: str
    leaves: Optional[int] = None  # the time to live with which it leaves, if it does
    comes: int = 64  # that with which it comes
    broken: bool = False  # its header checksum is wrong


def frame(number, packet, hosts, destination, source, ttl):
    """Returns the frame of a packet between these MAC addresses, with this time to live."""
    ends = hosts[packet.sender].address, hosts[packet.receiver].address
    data = ipv4(*ends, udp(4000, 9, b"packet %d" % number), ttl=ttl, identification=number)
    if packet.broken:
        data = data[:10] + b"\0\0" + data[12:]
    return ethernet(destination, source, IPV4, data)


def write_captures(folder, switches, hosts, packets):
    """Writes the captures into the folder. `switches` has the MAC addresses of the switches that hosts are at. A host sends
    to its switch, and the last switch to the receiver. Packet n is captured at 1 second and n milliseconds."""
    captures = {}
    for number, packet in enumerate(packets):
        sender, receiver = hosts[packet.sender], hosts[packet.receiver]
        comes = frame(number, packet, hosts, switches[sender.switch], sender.mac, packet.comes)
        captures.setdefault(f"{packet.sender}.pcap", []).append((1, 1000 * number, comes))
        if packet.leaves:
            leaves = frame(number, packet, hosts, receiver.mac, switches[receiver.switch], packet.leaves)
            name = f"wanted/out.{receiver.switch}.{receiver.port}.pcap"
            captures.setdefault(name, []).append((1, 1000 * number, leaves))
    for name, records in captures.items():
        write_capture(os.path.join(folder, name), records)
