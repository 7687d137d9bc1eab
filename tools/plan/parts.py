"""A part of a capture: some of its connections, each as a whole, as captures that the program takes."""
import struct
from itertools import accumulate
from typing import NamedTuple
from plan.faults import CAPTURE, Refusal
from plan.frames import RAW, begin_of, opening
from plan.moments import MILLISECOND, SECOND
from plan.selection import HEAD, SLOTS, no_room, write

# The most records of a capture that the program takes. Two of them are ours: the first, at the moment 0, and the last.
MOST = 200_000 - 2
HEADER = struct.pack("<IHHiIII", 0xA1B23C4D, 2, 4, 0, 0, 262_144, RAW)


class Span(NamedTuple):
    """Some slots of a file: its name, the time that its packets have at least, how many packets there are, and where their heads and
    their headers are."""

    path: str
    least: int
    count: int
    heads_at: int
    octets_at: int
    size: int


class Order(NamedTuple):
    """What is to be made of spans: the path of the captures but for their numbers, the moment 0, the captures' end, and whether copies
    are left out and connections opened."""

    path: str
    zero: int
    end: int
    without_copies: bool
    is_opened: bool


class Part(NamedTuple):
    """What was made: captures; how many packets, of how many connections, to which services; how many connections were opened; and how
    many packets look like copies."""

    paths: list
    packets: int
    connections: int
    services: set
    opened: int
    copies: int


def spans_of(selections, number):
    """For each of so many groups of slots its spans, from pairs of a selection and the least time of its packets."""
    bounds = [group * SLOTS // number for group in range(number + 1)]
    groups = [[] for _ in range(number)]
    for selection, least in selections:
        counts, sizes = [[0, *accumulate(it)] for it in (selection.counts, selection.sizes)]
        for group, (begin, end) in zip(groups, zip(bounds, bounds[1:])):
            count = counts[end] - counts[begin]
            heads_at, octets_at = HEAD.size * counts[begin], HEAD.size * counts[-1] + sizes[begin]
            if count:
                group.append(Span(selection.path, least, count, heads_at, octets_at, sizes[end] - sizes[begin]))
    return [group for group in groups if group]


def content_of(span):
    """The heads of a span, and the headers of its packets."""
    with open(span.path, "rb") as file:
        file.seek(span.heads_at)
        heads = file.read(HEAD.size * span.count)
        file.seek(span.octets_at)
        return heads, file.read(span.size)


class Packet:
    """A packet to a service: its time, how many sequence numbers it takes up, and the octets of its headers."""

    __slots__ = "time", "length", "octets", "flow", "sequence", "flags"

    def __init__(self, time, length, octets):
        self.time, self.length, self.octets = time, length, octets
        begin = octets[0] % 16 * 4
        self.flow = octets[12:20] + octets[begin : begin + 4]
        self.sequence, self.flags = int.from_bytes(octets[begin + 4 : begin + 8]), octets[begin + 13]


def packets_of(spans):
    """The packets of spans in the order of their times; those of one time in the order of the spans."""
    packets = []
    for span in spans:
        heads, octets = content_of(span)
        place = 0
        for time, length, size in HEAD.iter_unpack(heads):
            packets.append(Packet(max(time, span.least), length, octets[place : place + size]))
            place += size
    return sorted(packets, key=lambda packet: packet.time)


def unlike_copies(octets):
    """A packet's octets but for those that a router changes: its time to live and its checksum."""
    return octets[:8] + octets[9:10] + octets[12:]


class Copies:
    """Tells packets that came before, within a millisecond."""

    def __init__(self):
        self.last, self.count = {}, 0

    def has(self, packet):
        key = unlike_copies(packet.octets)
        is_copy = packet.time - self.last.get(key, packet.time - 2 * MILLISECOND) <= MILLISECOND
        self.last[key] = packet.time
        self.count += is_copy
        return is_copy


def made(spans, order):
    """Makes the captures of spans. Each connection is in one of them."""
    copies, flows = Copies(), {}
    packets = [it for it in packets_of(spans) if not (copies.has(it) and order.without_copies)]
    for packet in packets:
        flows.setdefault(packet.flow, []).append(packet)
    openings = {flow: opening_of(flow, its) for flow, its in flows.items() if order.is_opened and its[0].flags & 0x17 != 2}
    homes = homes_of({flow: len(its) + (flow in openings) for flow, its in flows.items()})
    paths = [f"{order.path}-{at + 1}.pcap" for at in range(max(homes.values()) + 1)]
    for at, path in enumerate(paths):
        added = [record(0, octets) for flow, octets in openings.items() if homes[flow] == at]
        own = [record(packet.time - order.zero, packet.octets) for packet in packets if homes[packet.flow] == at]
        write_capture(path, added + own, order.end - order.zero)
    services = {struct.unpack(">IxxH", flow[4:]) for flow in flows}
    return Part(paths, len(packets), len(flows), services, len(openings), copies.count)


def homes_of(counts):
    """For each connection the number of its capture, so that each capture has as many records as the program takes."""
    homes, at, filled = {}, 0, 0
    for flow, count in counts.items():
        if count > MOST:
            raise Refusal(CAPTURE, f"one connection has {count:,} packets, more than the {MOST:,} that can be replayed")
        if filled + count > MOST:
            at, filled = at + 1, 0
        homes[flow] = at
        filled += count
    return homes


def opening_of(flow, packets):
    """A SYN for a connection that begins without one."""
    number = (begin_of([(packet.sequence, packet.length) for packet in packets]) - 1) % 2**32
    return opening(struct.unpack(">IIHH", flow), number)


def record(time, octets):
    return struct.pack("<IIII", time // SECOND, time % SECOND, len(octets), len(octets)) + octets


def write_capture(path, records, end):
    """Writes a capture whose first record, at the moment 0, and last record, at the end, hold no packet."""
    write(path, [HEADER + record(0, b"\x00")], records, [record(end, b"\x00")])
