"""The packets of a piece of a capture that go to a fleet's services. They are kept in a file in the order of slots: each connection is in
one slot, by a hash of its flow. The file has a head for each packet (its time in nanoseconds, how many sequence numbers it takes up, and
how many octets its headers have), and then the headers of all."""
import struct
from array import array
from collections import Counter
from typing import NamedTuple
from plan.faults import WRITE, Refusal
from plan.frames import LINKS, read_frame
from plan.sample import WHOLE, Sample

SLOTS = 4096
HEAD = struct.Struct("<QII")
OTHERS = "to other destinations"
# What the slot goes by: odd numbers, so that all bits of a flow count.
FIRST, SECOND = 0x9E3779B1, 0x85EBCA6B


class Wanted(NamedTuple):
    """The services, and of how many connections one is in the sample."""

    services: frozenset
    number: int

    def sample(self):
        return WHOLE if self.number == 0 else Sample(self.number)


class Selection:
    """What a piece holds: the times of its first and its latest frame, how many frames were left out and why, how many packets go to each
    destination if none goes to the services, which connections are in the sample, and for each slot how many packets and octets the file
    has."""

    def __init__(self, path, begin, latest, left_out, destinations, flows, counts, sizes):
        self.path, self.begin, self.latest, self.left_out = path, begin, latest, left_out
        self.destinations, self.flows, self.counts, self.sizes = destinations, flows, counts, sizes

    @property
    def has_packets(self):
        return any(self.counts)


def slot_of(source, destination, sport, dport):
    return ((source ^ sport << 16) * FIRST + (destination ^ dport << 16) * SECOND & 0xFFFFFFFF) >> 20


def selected(piece, wanted, path):
    """What a piece holds. Its packets are written to the file of this name."""
    rows, left_out, destinations, sample, begin, latest = [], Counter(), Counter(), wanted.sample(), None, 0
    for frame in piece.frames():
        begin, latest = frame.time if begin is None else begin, max(latest, frame.time)
        read = read_frame(frame.link, frame.octets) if frame.link in LINKS else f"of link type {frame.link}"
        if isinstance(read, str):
            left_out[read] += 1
            continue
        destinations[read.flow[1], read.flow[3]] += 1
        if (read.flow[1], read.flow[3]) not in wanted.services:
            left_out[OTHERS] += 1
        elif sample.has(read.flow):
            rows.append((slot_of(*read.flow), latest, read.length, frame.octets[read.place : read.end]))
    rows.sort(key=lambda row: row[0])
    write(path, [HEAD.pack(time, length, len(octets)) for _, time, length, octets in rows], [row[3] for row in rows])
    counts, sizes = array("I", bytes(4 * SLOTS)), array("I", bytes(4 * SLOTS))
    for slot, _, _, octets in rows:
        counts[slot] += 1
        sizes[slot] += len(octets)
    return Selection(path, begin, latest, left_out, {} if rows else destinations, sample.flows, counts, sizes)


def write(path, *contents):
    """Writes lists of octets to a temporary file."""
    try:
        with open(path, "wb") as file:
            for octets in contents:
                file.writelines(octets)
    except OSError as wrong:
        raise no_room(path, wrong) from None


def no_room(path, wrong):
    return Refusal(WRITE, f"{path}: {wrong.strerror.lower()}; TMPDIR names another folder for temporary files")
