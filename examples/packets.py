"""Writes the captures of a case from a list of its packets, in the order of their numbers. It reads nothing."""

import pathlib
from typing import NamedTuple

from frames import write_capture


class Packet(NamedTuple):
    capture: str  # the capture in which it comes, without `.pcap`
    came: bytes  # its frame as it comes
    out: tuple | None = None  # where it leaves: a switch and a port
    left: bytes = b""  # its frame as it leaves


def write_packets(script, packets, order=None):
    """Writes, beside a script, the captures of packets, and into wanted/ what leaves. A packet's time is its number, in
    seconds. They leave in the order of their numbers, unless another is given."""
    folder = pathlib.Path(script).resolve().parent
    came, left = {}, {}
    for number, packet in enumerate(packets):
        came.setdefault(f"{packet.capture}.pcap", []).append((number, 0, packet.came))
    for number in range(len(packets)) if order is None else order:
        packet = packets[number]
        if packet.out:
            switch, port = packet.out
            left.setdefault(f"wanted/out.{switch}.{port}.pcap", []).append((number, 0, packet.left))
    for name, records in (came | left).items():
        write_capture(folder / name, records)
