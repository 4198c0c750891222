#!/usr/bin/env python3
"""Writes to the folder `one` what is wanted of `load 1 o`, besides the files of the made case that stand there.

It follows docs/FORMATS.md, "The made case", and no program: each packet is drawn, led along the fabric by the rule for its
destination, and judged by the tenants of the two ports."""
import pathlib

FOLDER = pathlib.Path(__file__).resolve().parent / "one"
LEAVES, SPINES = ["l0", "l1", "l2", "l3"], ["p0", "p1"]
PCAP = bytes.fromhex("d4c3b2a1020004000000000000000000" "00000400" "01000000")


def draws(x):
    while True:
        x = (x * 6364136223846793005 + 1442695040888963407) % 2**64
        yield x // 2**33


def tenant(host):
    return 1 if host % 4 < 2 else 2


def path(source, destination):
    """The switches that a packet passes, each with the port by which it leaves."""
    here, there = source // 4, destination // 4
    last = (LEAVES[there], 1 + destination % 4)
    if here == there:
        return [last]
    return [(LEAVES[here], 11 + there % 2), (SPINES[there % 2], 1 + there), last]


def checksum(header):
    total = sum(header[i] * 256 + header[i + 1] for i in range(0, len(header), 2))
    while total > 0xFFFF:
        total = (total & 0xFFFF) + (total >> 16)
    return 0xFFFF - total


def hardware(host):
    return bytes([2, 0, 0, 0, 0, host + 1])


def frame(destination_hardware, source_hardware, source, destination, length, ttl):
    header = bytes([0x45, 0]) + (20 + length).to_bytes(2, "big") + bytes.fromhex("00004000") + bytes([ttl, 17, 0, 0])
    header += bytes([10, 0, source // 4, 1 + source % 4, 10, 0, destination // 4, 1 + destination % 4])
    header = header[:10] + checksum(header).to_bytes(2, "big") + header[12:]
    return destination_hardware + source_hardware + bytes.fromhex("0800") + header + bytes(length)


def sent_frame(source, destination, length):
    """What leaves at the last switch: each switch takes the destination's hardware address as the source's."""
    between = bytes([2, 0, 0, 0, 1, 0])
    switches = len(path(source, destination))
    return frame(hardware(destination), between if switches > 1 else hardware(destination), source, destination, length, 64 - switches)


def record(number, data):
    head = number // 1000, number % 1000, len(data), len(data)
    return b"".join(field.to_bytes(4, "little") for field in head) + data


def packets(number):
    """The packets as a run numbers them, by the order of the captures: host by host."""
    draw = draws(number)
    drawn = [(i, next(draw) % 16, next(draw) % 16, next(draw) % 64) for i in range(2000)]
    return sorted(drawn, key=lambda packet: (packet[1], packet[0]))


def main():
    seen, rejects, reports, captures = {}, {}, [], {}
    for at, (number, source, destination, length) in enumerate(packets(1)):
        way = path(source, destination)
        for switch, _ in way:
            seen[switch] = seen.get(switch, 0) + 1
        switch, port = way[-1]
        if tenant(source) == tenant(destination):
            captures.setdefault((switch, port), []).append(record(number, sent_frame(source, destination, length)))
        else:
            reports.append(f"{at} {switch} 0 {tenant(source)} {tenant(destination)}\n")
            rejects[switch] = rejects.get(switch, 0) + 1
    registers = ""
    for switch in LEAVES + SPINES:
        registers += f"{switch} hydra_s_seen 0 {seen[switch]}\n"
        if switch in rejects:
            registers += f"{switch} hydra_rejects 0 {rejects[switch]}\n"
    total = len(reports)
    summary = f"packets 2000\nsent {2000 - total}\ndropped 0\nrejected {total}\nlost 0\nreports {total}\n"
    for (switch, port), records in captures.items():
        (FOLDER / f"o.out.{switch}.{port}.pcap").write_bytes(PCAP + b"".join(records))
    for name, text in ("reports", "".join(reports)), ("registers", registers), ("summary", summary):
        (FOLDER / f"o.{name}.txt").write_text(text)


main()
