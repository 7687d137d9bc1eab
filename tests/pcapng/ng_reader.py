#!/usr/bin/env python3
"""Reads a capture of the pcapng form as docs/FORMATS.md says, and nothing else.

usage: ng_reader.py CAPTURE

It goes over the blocks, records each fault with its place, and takes the first in order of place; at the same place, the first of the
table.
"""
import sys

MOST_OCTETS, MOST_PACKETS, MOST_INTERFACES = 268_435_456, 200_000, 1024
LONGEST_BLOCK, LONGEST, LATEST = 16_777_216, 262_144, 4_400_000_000_000_000_000
SECTION, INTERFACE, SIMPLE, ENHANCED = 0x0A0D0D0A, 1, 3, 6
LEAST = {SECTION: 28, INTERFACE: 20, ENHANCED: 32, SIMPLE: 16}
# The rows of the table of faults.
NOT_A_CAPTURE, BAD_MAGIC, BAD_SIZE, TOO_MANY, TOO_LARGE, DIFFERENT, BAD_VERSION, BAD_LENGTH, BAD = range(9)


class Interface:
    def __init__(self, link, snapshot, base, exponent):
        self.link, self.snapshot, self.base, self.exponent = link, snapshot, base, exponent

    def nanoseconds(self, units):
        return units * 10**9 // self.base**self.exponent


class Answer:
    """A fault as a text, or records of (moment, link type, octets) and the number of the record that is cut."""

    def __init__(self, fault=None, records=(), cut=None):
        self.fault, self.records, self.cut = fault, list(records), cut

    def __eq__(self, other):
        return (self.fault, self.records, self.cut) == (other.fault, other.records, other.cut)

    def lines(self):
        if self.fault:
            return ["fault " + self.fault]
        out = [
            "record %d moment %d link %d octets %s" % (n + 1, moment, link, octets.hex())
            for n, (moment, link, octets) in enumerate(self.records)
        ]
        return out + (["cut %d" % self.cut] if self.cut else ["end"])


def options(octets, number):
    at = 0
    while at + 4 <= len(octets):
        code, size = number(octets, at, 2), number(octets, at + 2, 2)
        if code == 0 or at + 4 + size > len(octets):
            return
        yield code, octets[at + 4 : at + 4 + size]
        at += 4 + (size + 3) // 4 * 4


def interface(block, number):
    for code, value in options(block[16:-4], number):
        if code == 9 and len(value) == 1:
            base, exponent = (2, value[0] - 128) if value[0] >= 128 else (10, value[0])
            return Interface(number(block, 8, 2), number(block, 12, 4), base, exponent)
    return Interface(number(block, 8, 2), number(block, 12, 4), 10, 6)


class Reader:
    def __init__(self, octets, most_octets=MOST_OCTETS, most_packets=MOST_PACKETS):
        self.octets = memoryview(bytes(octets))
        self.most_octets, self.most_packets = most_octets, most_packets
        self.records, self.interfaces, self.faults = [], [], []
        self.order, self.first, self.last = None, None, 0

    def number(self, octets, at, size):
        return int.from_bytes(octets[at : at + size], self.order)

    def fault(self, place, row, text):
        self.faults.append((place, row, text))

    def answer(self):
        if len(self.octets) > self.most_octets:
            self.fault(self.most_octets + 1, TOO_LARGE, "TooLarge")
        cut = self.read()
        if self.faults:
            return Answer(fault=min(self.faults)[2])
        return Answer(records=self.records, cut=cut)

    def read(self):
        """Reads blocks up to the first that has a fault of its own, or is cut."""
        at, block = 0, 0
        while at < len(self.octets):
            block += 1
            rest = self.octets[at : at + LONGEST_BLOCK]
            size = self.head(at, block, rest)
            if size is None:
                return len(self.records) + 1
            if len(rest) < size:
                return len(self.records) + 1
            before = len(self.faults)
            self.body(at + size, block, rest[:size])
            if len(self.faults) > before:
                return None
            at += size
        if not self.octets:
            self.fault(0, NOT_A_CAPTURE, "NotACapture")
        return None

    def head(self, at, block, rest):
        """The total length; None if the octets end before it, or it has a fault."""
        is_section = rest[:4] == bytes.fromhex("0a0d0d0a")
        if is_section and len(rest) >= 12:
            orders = {"1a2b3c4d": "big", "4d3c2b1a": "little"}
            order = orders.get(rest[8:12].hex())
            if order is None and block > 1:
                return self.fault(at + 12, BAD_MAGIC, "BadBlock %d" % block)
            self.order, self.interfaces = order, []
        if block == 1 and (not is_section or len(rest) < 12 or self.order is None):
            return self.fault(0, NOT_A_CAPTURE, "NotACapture")
        if len(rest) < (12 if is_section else 8):
            return None
        kind, size = self.number(rest, 0, 4), self.number(rest, 4, 4)
        place = at + (12 if is_section else 8)
        bad = size % 4 or size > LONGEST_BLOCK or size < LEAST.get(kind, 12)
        many = kind in (ENHANCED, SIMPLE) and len(self.records) == self.most_packets
        if bad:
            self.fault(place, BAD_SIZE, "BadBlock %d" % block)
        if many:
            self.fault(place, TOO_MANY, "TooManyPackets")
        return None if bad or many else size

    def body(self, place, block, octets):
        kind, bad = self.number(octets, 0, 4), "BadBlock %d" % block
        if self.number(octets, len(octets) - 4, 4) != len(octets):
            self.fault(place, DIFFERENT, bad)
        if kind == SECTION and self.number(octets, 12, 2) != 1:
            self.fault(place, BAD_VERSION, "BadVersion")
        if kind == INTERFACE:
            if len(self.interfaces) == MOST_INTERFACES:
                self.fault(place, BAD, bad)
            self.interfaces.append(interface(octets, self.number))
        if kind == ENHANCED:
            which, high, low, size = (self.number(octets, p, 4) for p in (8, 12, 16, 20))
            known = self.interfaces[which] if which < len(self.interfaces) else None
            time = known and known.nanoseconds(high * 2**32 + low)
            self.packet(place, bad, octets, 28, size, known, time)
        if kind == SIMPLE:
            known, size = self.interfaces[0] if self.interfaces else None, self.number(octets, 8, 4)
            if known and known.snapshot:
                size = min(size, known.snapshot)
            self.packet(place, bad, octets, 12, size, known, None)

    def packet(self, place, bad, octets, at, size, known, time):
        if size > LONGEST:
            self.fault(place, BAD_LENGTH, "BadLength %d %d" % (len(self.records) + 1, size))
        if known is None or at + size + 4 > len(octets):
            self.fault(place, BAD, bad)
            return
        if time is not None:
            self.first = time if self.first is None else self.first
            self.last = max(self.last, min(LATEST, max(0, time - self.first)))
        self.records.append((self.last, known.link, bytes(octets[at : at + size])))


def read(octets, **limits):
    return Reader(octets, **limits).answer()


if __name__ == "__main__":
    print("\n".join(read(open(sys.argv[1], "rb").read()).lines()))
