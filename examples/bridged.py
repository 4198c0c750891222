"""Writes the captures of a case in which stations send frames over programs/bridge.p4: those that come in, one for each sender,
and in wanted/ those that leave."""

import os
from typing import NamedTuple, Optional

from frames import IPV4, VLAN, ethernet, ipv4, udp, vlan, write_capture

PLAIN = 0  # in place of a network: without a tag


class Station(NamedTuple):
    switch: str
    port: int
    mac: str
    address: str


class Packet(NamedTuple):
    sender: str
    receiver: str
    comes: int = PLAIN  # the network of the tag with which it comes
    leaves: Optional[int] = None  # that with which it leaves, if it does


def frame(number, packet, stations, network):
    """Returns the frame of a packet, with the tag of this network."""
    sender, receiver = stations[packet.sender], stations[packet.receiver]
    data = ipv4(sender.address, receiver.address, udp(4000, 9, b"packet %d" % number), identification=number)
    if network == PLAIN:
        return ethernet(receiver.mac, sender.mac, IPV4, data)
    return ethernet(receiver.mac, sender.mac, VLAN, vlan(network, IPV4, data))


def write_captures(folder, stations, packets):
    """Writes the captures into the folder. Packet n is captured at 1 second and n milliseconds, and packets leave in the order of
    their numbers."""
    captures = {}
    for number, packet in enumerate(packets):
        comes = frame(number, packet, stations, packet.comes)
        captures.setdefault(f"{packet.sender}.pcap", []).append((1, 1000 * number, comes))
        if packet.leaves is not None:
            receiver = stations[packet.receiver]
            leaves = frame(number, packet, stations, packet.leaves)
            name = f"wanted/out.{receiver.switch}.{receiver.port}.pcap"
            captures.setdefault(name, []).append((1, 1000 * number, leaves))
    for name, records in captures.items():
        write_capture(os.path.join(folder, name), records)
