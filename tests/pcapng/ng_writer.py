"""Writes captures of the pcapng form, by docs/FORMATS.md, and turns captures of the classic form into it."""
import struct

SECTION, INTERFACE, PACKET, SIMPLE, NAMES, STATISTICS, ENHANCED = 0x0A0D0D0A, 1, 2, 3, 4, 5, 6
COMMENT, RESOLUTION = 1, 9
MAGIC = 0x1A2B3C4D


def padded(octets):
    return octets + bytes(-len(octets) % 4)


class Writer:
    """Blocks in one order of octets, `<` or `>`."""

    def __init__(self, order):
        self.order = order

    def pack(self, form, *numbers):
        return struct.pack(self.order + form, *numbers)

    def block(self, kind, body, first=None, second=None):
        """A block; `first` and `second` replace its total lengths."""
        size = 12 + len(body)
        first = size if first is None else first
        second = first if second is None else second
        return self.pack("II", kind, first) + body + self.pack("I", second)

    def option(self, code, value):
        return self.pack("HH", code, len(value)) + padded(value)

    def options(self, *options):
        return b"".join(self.option(code, value) for code, value in options) + bytes(4)

    def section(self, options=b"", magic=MAGIC, major=1, **lengths):
        return self.block(SECTION, self.pack("IHH", magic, major, 0) + b"\xff" * 8 + options, **lengths)

    def interface(self, link, snapshot=262144, options=b"", **lengths):
        return self.block(INTERFACE, self.pack("HHI", link, 0, snapshot) + options, **lengths)

    def enhanced(self, interface, units, octets, size=None, options=b"", **lengths):
        size = len(octets) if size is None else size
        head = self.pack("IIIII", interface, units >> 32, units & 0xFFFFFFFF, size, len(octets))
        return self.block(ENHANCED, head + padded(octets) + options, **lengths)

    def simple(self, original, octets, **lengths):
        return self.block(SIMPLE, self.pack("I", original) + padded(octets), **lengths)

    def names(self):
        record = self.pack("HH", 1, 16) + bytes([192, 0, 2, 1]) + b"service.net\0"
        return self.block(NAMES, record + bytes(4))

    def statistics(self, interface):
        return self.block(STATISTICS, self.pack("III", interface, 0, 0) + self.options((COMMENT, b"counts")))

    def obsolete(self, octets):
        return self.block(PACKET, self.pack("HHIIII", 0, 0, 0, 0, len(octets), len(octets)) + padded(octets))


def classic(octets):
    """The link type of a classic capture, and its whole records: times in nanoseconds, octets, original lengths."""
    order = "<" if octets[:4] in (b"\xd4\xc3\xb2\xa1", b"\x4d\x3c\xb2\xa1") else ">"
    unit = 1 if struct.unpack(order + "I", octets[:4])[0] == 0xA1B23C4D else 1000
    link, place, records = struct.unpack(order + "I", octets[20:24])[0] & 0xFFFF, 24, []
    while place + 16 <= len(octets):
        seconds, fraction, size, original = struct.unpack(order + "IIII", octets[place : place + 16])
        if place + 16 + size > len(octets):
            break
        records.append((seconds * 10**9 + fraction * unit, octets[place + 16 : place + 16 + size], original))
        place += 16 + size
    return link, records


def interfaces(writer, link):
    """An interface for each unit, and the exponents: microseconds without an option, nanoseconds, and 10^-8 of a second."""
    blocks = [
        writer.interface(link, options=writer.options((COMMENT, b"microseconds"))),
        writer.interface(link, options=writer.options((2, b"eth0"), (RESOLUTION, b"\x09"))),
        writer.interface(link, options=writer.options((RESOLUTION, b"\x08"), (RESOLUTION, b"\x06"))),
    ]
    return b"".join(blocks), [6, 9, 8]


def packet(writer, exponents, number, record):
    """A record at the first interface, from that of its number on, whose unit can express its time exactly."""
    time, octets, _ = record
    for turn in range(3):
        which = (number + turn) % 3
        scale = 10 ** (9 - exponents[which])
        if time % scale == 0:
            options = writer.options((COMMENT, b"packet %d" % number)) if number % 5 == 0 else b""
            return writer.enhanced(which, time // scale, octets, options=options)
    raise AssertionError("nanoseconds tell every time")


def converted(octets, in_a_section=7):
    """A classic capture as one of the pcapng form with the same records: `in_a_section` of them in each section, the two orders of
    octets in turn, and blocks between the packets that readers skip."""
    link, records = classic(octets)
    out = []
    for first in range(0, max(len(records), 1), in_a_section):
        writer = Writer("<>"[first // in_a_section % 2])
        blocks, exponents = interfaces(writer, link)
        out += [writer.section(writer.options((COMMENT, b"a section"))), blocks, writer.names()]
        for number, record in enumerate(records[first : first + in_a_section], first):
            out.append(packet(writer, exponents, number, record))
            if number % 3 == 1:
                out.append(writer.statistics(number % 3))
            if number % 4 == 2:
                out.append(writer.obsolete(record[1][:20]))
    return b"".join(out)


def as_classic(link, records):
    """Records of (moment, octets) as a classic capture in nanoseconds."""
    head = struct.pack("<IHHiIII", 0xA1B23C4D, 2, 4, 0, 0, 262144, link)
    return head + b"".join(
        struct.pack("<IIII", moment // 10**9, moment % 10**9, len(octets), len(octets)) + octets
        for moment, octets in records
    )
