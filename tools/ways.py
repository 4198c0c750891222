"""The files of a run of `hydra run CASE OUT`, and what they tell of each packet: its way, its end, its reports.

A frame is a packet's by its time, which is kept from record to record, and, of packets of one time, by its bytes. Where the
files do not tell how a packet ended, it is "not sent"."""

import collections
import dataclasses
import json
import os
import re
import struct

LONGEST = 65535  # bytes of a frame
GROWTH = 2304  # bytes of headers that a passage may add to one
MAGIC = {b"\xd4\xc3\xb2\xa1": "<", b"\xa1\xb2\xc3\xd4": ">", b"\x4d\x3c\xb2\xa1": "<n", b"\xa1\xb2\x3c\x4d": ">n"}


@dataclasses.dataclass(eq=False)
class Packet:
    number: int
    switch: str
    port: int
    time: tuple  # seconds and microseconds
    data: bytes
    way: list = dataclasses.field(default_factory=list)  # its frames, in order
    twins: set = dataclasses.field(default_factory=set)  # packets to which its frames may belong as well
    is_open: bool = False  # the order of its frames is not told by the files
    may: set = dataclasses.field(default_factory=set)  # where it was not sent: what its end may be
    said: list = dataclasses.field(default_factory=list)  # reports and digests: switch, what, values

    def place(self):
        """The switch where its way ends, as far as it is known."""
        return (self.way[-1].far or (self.way[-1].switch, 0))[0] if self.way else self.switch

    def is_sent(self):
        return bool(self.way) and self.way[-1].far is None

    def end(self):
        return "sent" if self.is_sent() else next(iter(self.may)) if len(self.may) == 1 else "not sent"


@dataclasses.dataclass(eq=False)
class Frame:
    switch: str
    port: int
    far: tuple | None  # the other end of the link; none at an edge port
    time: tuple
    front: bytes  # the telemetry
    data: bytes
    fields: list  # of the telemetry: name, width, value
    number: int = 0  # among the frames of its capture
    used: bool = False


# Files


def read_text(path):
    with open(path, encoding="utf-8") as it:
        return it.read()


def read_capture(path):
    """The records of a capture: seconds and microseconds, and bytes."""
    with open(path, "rb") as it:
        data = it.read()
    form, at, records = MAGIC[data[:4]], 24, []
    while at < len(data):
        seconds, part, size = struct.unpack_from(form[0] + "3I", data, at)
        time = (seconds, part // 1000 if form[1:] else part)
        records.append((time, data[at + 16 : at + 16 + size]))
        at += 16 + size
    return records


def read_layout(text):
    """The fields of the telemetry that a linked text declares: each name and its width."""
    body = re.search(r"header hydra_tele_t \{(.*?)\}", text, re.S)[1]
    return [(name, int(width)) for width, name in re.findall(r"bit < (\d+) > (\w+) ;", body)]


def read_names(text):
    """The last word of each declaration of a property, which is a tele variable's name, by its place."""
    text = re.sub(r"//[^\n]*|/\*.*?\*/", " ", text, flags=re.S)
    declared = [it.strip() for it in text.partition("{")[0].split(";")[:-1]]
    return [re.search(r"\w*$", it)[0] for it in declared if not re.match(r"edition\b", it)]


def size_of(layout):
    """The bytes of the telemetry."""
    return -(-sum(width for _, width in layout) // 8)


def read_fields(layout, data):
    """The telemetry's fields in front of a frame: each name, width and value."""
    left, fields = 8 * size_of(layout), []
    number = int.from_bytes(data[: size_of(layout)], "big")
    for name, width in layout:
        left -= width
        fields.append((name, width, number >> left & ((1 << width) - 1)))
    return fields


class Run:
    """The files of a run."""

    def __init__(self, out, case):
        self.out, self.folder = out, os.path.dirname(case)
        self.case = json.loads(read_text(case))
        network = json.loads(read_text(self.beside(self.case["network"])))
        self.switches, self.links = network["switches"], network["links"]
        self.far = {(a, p): (b, q) for a, p, b, q in self.links} | {(b, q): (a, p) for a, p, b, q in self.links}
        self.names = read_names(read_text(self.beside(self.case["property"])))
        self.linked = read_text(f"{out}.linked.{self.switches[0]}.p4")
        self.layout = read_layout(self.linked)
        self.counts = {name: int(count) for name, count in self.lines("summary")}
        self.packets = self.read_packets()
        self.frames = [it for switch in self.switches for port in range(511) for it in self.read_frames(switch, port)]
        self.rejects = collections.Counter()
        for switch, register, _, value in self.lines("registers"):
            if register == "hydra_rejects":
                self.rejects[switch] = int(value)
        for packet, switch, *said in self.lines("reports"):
            self.packets[int(packet)].said.append((switch, f"report {said[0]}", said[1:]))
        for packet, switch, *said in self.lines("digests"):
            self.packets[int(packet)].said.append((switch, f"digest to {said[0]}", said[1:]))

    def beside(self, name):
        """A file that the case names: of this folder, as hydra reads it, or else of the case's."""
        return name if os.path.exists(name) else os.path.join(self.folder, name)

    def lines(self, kind):
        return [line.split() for line in read_text(f"{self.out}.{kind}.txt").splitlines()]

    def read_packets(self):
        """The packets, as they are numbered: the captures in their order, and in each its frames."""
        packets = []
        for capture in self.case["captures"]:
            for time, data in read_capture(self.beside(capture["file"])):
                packets.append(Packet(len(packets), capture["switch"], capture["port"], time, data))
        return packets

    def read_frames(self, switch, port):
        far = self.far.get((switch, port))
        path = f"{self.out}.{'wire' if far else 'out'}.{switch}.{port}.pcap"
        for number, (time, data) in enumerate(read_capture(path) if os.path.exists(path) else []):
            size = size_of(self.layout) if far else 0
            fields = read_fields(self.layout, data) if far else []
            yield Frame(switch, port, far, time, data[:size], data[size:], fields, number)


# Ways


def likeness(one, other):
    """How many bytes are the same, counted from the end."""
    size = min(len(one), len(other))
    one, other = one[len(one) - size :], other[len(other) - size :]
    return (int.from_bytes(one, "big") ^ int.from_bytes(other, "big")).to_bytes(size, "big").count(0)


def owners(packets, frame):
    """The packets, of those with the frame's time, that have most of its bytes."""
    if len(packets) == 1:
        return packets
    like = {data: likeness(data, frame.data) for data in {it.data for it in packets}}
    most = max(like.values())
    return [it for it in packets if like[it.data] == most]


def take(own, switch, front, data):
    """The next of a packet's frames that left this switch, behind such telemetry and bytes. Where several ports have one,
    the files do not tell which was first: the frame that is most like what came is taken, and the edge port last."""
    first = {}
    for it in own.get(switch, []):
        if not it.used:
            first.setdefault(it.port, it)
    like = lambda it: (it.far is not None, likeness(it.front, front) + likeness(it.data, data))
    frame = max(first.values(), key=like, default=None)
    if frame:
        frame.used = True
    return frame


def next_frame(own, packet, way):
    """The frame that goes on behind those of a way."""
    if not way:
        return take(own, packet.switch, bytes(256), packet.data)
    return take(own, way[-1].far[0], way[-1].front, way[-1].data) if way[-1].far else None


def find_ways(packets, frames):
    """Gives each packet its frames, and returns those that fit no way."""
    groups = collections.defaultdict(lambda: ([], []))
    for it in packets:
        groups[it.time][0].append(it)
    for it in frames:
        groups[it.time][1].append(it)
    for some, theirs in groups.values():
        walk(some, theirs)
    return [it for it in frames if not it.used]


def walk(packets, frames):
    """Leads packets of one time in turn from switch to switch, each along the next of its frames there."""
    own = {it: collections.defaultdict(list) for it in packets}
    for frame in frames if packets else []:
        theirs = owners(packets, frame)
        for it in theirs:
            own[it][frame.switch].append(frame)
            it.twins |= {other.number for other in theirs} - {it.number}
    going = list(packets)
    while going:
        for it in list(going):
            frame = next_frame(own[it], it, it.way)
            if frame:
                it.way.append(frame)
            else:
                going.remove(it)
    for it in packets:
        add_rounds(it, own[it])


def add_rounds(packet, own):
    """Adds the rounds that lead back to a switch of the way, which it may have left by several ports."""
    at = 0
    while at <= len(packet.way):
        added, start = [], packet.way[:at]
        while frame := next_frame(own, packet, start + added):
            added.append(frame)
        back = start[-1].far if start else (packet.switch, packet.port)
        if added and added[-1].far and added[-1].far[0] == back[0]:
            packet.way[at:at] = added
        else:
            for it in added:
                it.used = False
        at += 1
    # The frames of one capture are in the order of events.
    by_port = collections.defaultdict(list)
    for it in sorted(packet.way, key=lambda it: it.number):
        by_port[it.switch, it.port].append(it)
    packet.way = [by_port[it.switch, it.port].pop(0) for it in packet.way]
    left = {(it.switch, it.port) for it in packet.way if it.far}
    packet.is_open = len({switch for switch, _ in left}) < len(left)


def find_ends(run):
    """Says of each packet that was not sent what its end may be, as far as the counts tell."""
    left = [it for it in run.packets if not it.is_sent()]
    first_edition = "hydra_mark = 8w72 " in run.linked
    for it in left:
        last = it.way[-1].data if it.way else it.data
        may_be_lost = len(it.way) + 1 == run.case.get("hops", 64) or len(last) + GROWTH > LONGEST
        # In the first edition the checker alone reports, at the last switch, which forwarding leaves.
        judged = first_edition and any(switch == it.place() and what.startswith("report") for switch, what, _ in it.said)
        it.may = {"rejected"} | ({"lost"} if may_be_lost else set()) | (set() if judged else {"dropped"})
    sums = [("dropped", left, run.counts["dropped"]), ("lost", left, run.counts["lost"])]
    sums += [("rejected", [it for it in left if it.place() == at], run.rejects[at]) for at in run.switches]
    while any([settle(*it) for it in sums]):
        pass


def settle(end, packets, count):
    """Where so many of the packets have this end: whether that tells more of one."""
    can = [it for it in packets if end in it.may]
    must = [it for it in can if len(it.may) == 1]
    open_ = [it for it in can if len(it.may) > 1]
    if not open_ or count not in (len(can), len(must)):
        return False
    for it in open_:
        it.may = {end} if count == len(can) else it.may - {end}
    return True
