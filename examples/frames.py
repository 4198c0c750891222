"""Makes frames, and captures of them in the form that hydra writes. It reads nothing.

A MAC address is a text, as "02:00:00:00:00:01", an IPv4 address too, as "10.0.1.1"; a payload is bytes. Builders go one
in the other: ethernet(.., IPV4, ipv4(.., udp(4000, 9, b"hello")))."""

import struct

IPV4 = 0x0800
VLAN = 0x8100
UDP = 17
TCP = 6
FIN, SYN, RST, ACK = 0x01, 0x02, 0x04, 0x10


def mac(address):
    """Returns the 6 bytes of a MAC address."""
    return bytes.fromhex(address.replace(":", ""))


def address(dots):
    """Returns the 4 bytes of an IPv4 address."""
    return bytes(int(part) for part in dots.split("."))


def checksum(data):
    """Returns the internet checksum of the bytes: the complement of the sum of their words of 16 bits, with carries added."""
    if len(data) % 2:
        data += b"\0"
    total = sum(struct.unpack(f">{len(data) // 2}H", data))
    while total >> 16:
        total = (total & 0xFFFF) + (total >> 16)
    return total ^ 0xFFFF


def ethernet(destination, source, type, payload):
    """Returns an Ethernet frame."""
    return mac(destination) + mac(source) + struct.pack(">H", type) + payload


def vlan(identifier, type, payload):
    """Returns what follows the type VLAN in a frame: a tag with priority 0, and the type and payload behind it."""
    return struct.pack(">HH", identifier, type) + payload


def ipv4(source, destination, payload, protocol=UDP, ttl=64, identification=0):
    """Returns an IPv4 packet without options, not to be fragmented. A UDP or TCP payload gets its checksum here, since that
    covers the addresses."""
    ends = address(source) + address(destination)
    payload = with_checksum(ends, protocol, payload)
    first = struct.pack(">BBHHHBB", 0x45, 0, 20 + len(payload), identification, 0x4000, ttl, protocol)
    return first + struct.pack(">H", checksum(first + ends)) + ends + payload


def with_checksum(ends, protocol, payload):
    """Returns a UDP or TCP payload with its checksum, and any other payload as it is."""
    at = {UDP: 6, TCP: 16}.get(protocol)
    if at is None or len(payload) < at + 2:
        return payload
    zeroed = payload[:at] + b"\0\0" + payload[at + 2 :]
    found = checksum(ends + struct.pack(">HH", protocol, len(payload)) + zeroed)
    if protocol == UDP and found == 0:
        found = 0xFFFF  # in UDP 0 means that there is none
    return payload[:at] + struct.pack(">H", found) + payload[at + 2 :]


def udp(source_port, destination_port, payload):
    """Returns a UDP datagram; ipv4 fills its checksum."""
    return struct.pack(">HHHH", source_port, destination_port, 8 + len(payload), 0) + payload


def tcp(source_port, destination_port, flags, payload):
    """Returns a TCP segment without options; ipv4 fills its checksum."""
    return struct.pack(">HHIIBBHHH", source_port, destination_port, 1, 0, 5 << 4, flags, 65535, 0, 0) + payload


def write_capture(path, records):
    """Writes a capture. A record is (seconds, microseconds, frame)."""
    with open(path, "wb") as it:
        it.write(struct.pack("<IHHiIII", 0xA1B2C3D4, 2, 4, 0, 0, 0x40000, 1))
        for seconds, microseconds, frame in records:
            it.write(struct.pack("<IIII", seconds, microseconds, len(frame), len(frame)) + frame)
