"""A table of captures of the pcapng form, most of them bad: every prefix of a capture with each kind of block, each octet of the
heads of its blocks changed, and lengths and counts at their limits."""
import struct

from ng_writer import ENHANCED, INTERFACE, SECTION, SIMPLE, Writer

SYN = bytes.fromhex("450000280000400040060000 0a000001 c0000201 03e80050 00000064 00000000 5002ffff 00000000")
DATA = bytes.fromhex("450000320000400040060000 0a000001 c0000201 03e80050 00000065 000001f5 5018ffff 00000000") + b"abcdefghij"


def blocks_of_all_kinds(order):
    """The blocks of a capture that has each kind of block."""
    w = Writer(order)
    return [
        w.section(),
        w.interface(101, 48, options=w.options((9, b"\x09"))),
        w.enhanced(0, 5, SYN),
        w.names(),
        w.obsolete(DATA[:8]),
        w.simple(60, DATA[:48]),
        w.interface(101, options=w.options((9, b"\x8a"))),
        w.enhanced(1, 2048, DATA, options=w.options((1, b"a packet"))),
    ]


def prefixes():
    for order in "<>":
        capture = b"".join(blocks_of_all_kinds(order))
        for end in range(len(capture)):
            yield "%s prefix of %d" % (order, end), capture[:end]


def changed_octets():
    """Each of the first 32 octets of a block, and of its last four, changed in three ways."""
    for order in "<>":
        blocks = blocks_of_all_kinds(order)
        for which, block in enumerate(blocks):
            places = sorted(set(range(min(32, len(block)))) | set(range(len(block) - 4, len(block))))
            for place in places:
                for mask in (0x01, 0x04, 0x80):
                    octets = bytearray(block)
                    octets[place] ^= mask
                    changed = blocks[:which] + [bytes(octets)] + blocks[which + 1 :]
                    yield "%s block %d octet %d by %02x" % (order, which + 1, place, mask), b"".join(changed)


def total_lengths():
    """Each kind of block with total lengths at and around the least, and the greatest."""
    w = Writer("<")
    start = w.section() + w.interface(101)
    for kind, least in ((SECTION, 28), (INTERFACE, 20), (ENHANCED, 32), (SIMPLE, 16), (4, 12), (77, 12)):
        for size in (0, 4, 8, least - 4, least - 1, least, least + 1, least + 4, 0x1000000, 0x1000004, 0xFFFFFFFC):
            body = bytes(max(0, min(size, 64) - 12))
            if kind == SECTION:
                body = struct.pack("<IHH", 0x1A2B3C4D, 1, 0) + body[8:]
            yield "type %x of %d" % (kind, size), start + w.block(kind, body, first=size)


def packets():
    """Captured lengths and interfaces at their limits, and simple packets at snapshot lengths."""
    w = Writer(">")
    start = w.section() + w.interface(101, 40) + w.interface(1)
    for size in (0, 39, 40, 41, 44, 262143, 262144, 262145, 0xFFFFFFFF):
        yield "enhanced of %d in 40" % size, start + w.enhanced(0, 0, SYN, size=size)
        yield "simple of %d in 40" % size, start + w.simple(size, SYN)
        yield "simple of %d without an interface" % size, w.section() + w.simple(size, SYN)
        free = w.section() + w.interface(101, 0)
        yield "simple of %d without a limit" % size, free + w.simple(size, SYN)
    for size in (262143, 262144, 262145):
        yield "enhanced of %d" % size, start + w.enhanced(1, 0, bytes(size))
    for interface in (0, 1, 2, 3, 0xFFFFFFFF):
        yield "enhanced of interface %d" % interface, start + w.enhanced(interface, 0, SYN)
        yield "after a new section %d" % interface, start + w.section() + w.interface(101) + w.enhanced(interface, 0, SYN)


def times():
    """Units of all sizes, times that fall, and times at the latest moment."""
    w = Writer("<")
    for octet in (0, 1, 6, 9, 10, 19, 20, 28, 29, 30, 64, 127, 128, 129, 148, 157, 191, 192, 220, 221, 222, 255):
        for units in (0, 1, 1 << 20, (1 << 32) + 1, (1 << 63) + 12345, (1 << 64) - 1):
            start = w.section() + w.interface(101, options=w.options((9, bytes([octet]))))
            yield "unit %d at %d" % (octet, units), start + w.enhanced(0, 0, SYN) + w.enhanced(0, units, DATA)
            yield "unit %d from %d" % (octet, units), start + w.enhanced(0, units, SYN) + w.enhanced(0, 7, DATA)
    start = w.section() + w.interface(101, options=w.options((9, b"\x09")))
    for units in (4_400_000_000_000_000_000 - 1, 4_400_000_000_000_000_000, 4_400_000_000_000_000_001):
        yield "moment %d" % units, start + w.enhanced(0, 0, SYN) + w.enhanced(0, units, DATA) + w.simple(40, SYN)
    falling = [9, 3, 12, 11, 40, 0]
    yield "moments that fall", start + b"".join(w.enhanced(0, at, SYN) for at in falling)
    yield "a simple packet first", start + w.simple(40, SYN) + w.enhanced(0, 50, SYN) + w.enhanced(0, 60, DATA)


def lists_of_options():
    """Options that end a list, don't fit, or occur twice."""
    w = Writer(">")
    lists = {
        "none": b"",
        "an end": bytes(4),
        "after the end": bytes(4) + w.option(9, b"\x09"),
        "three octets": w.option(9, b"\x09\0\0"),
        "no octet": w.option(9, b""),
        "twice": w.option(9, b"\x09") + w.option(9, b"\x03"),
        "wide and then one": w.option(9, b"\x03\x03") + w.option(9, b"\x09"),
        "an offset": w.option(14, bytes(8)) + w.option(9, b"\x09"),
        "one that doesn't fit": w.pack("HH", 2, 9) + bytes(4) + w.option(9, b"\x09"),
        "one that fits": w.pack("HH", 2, 12) + bytes(4) + w.option(9, b"\x09"),
        "a length of 65535": w.pack("HH", 9, 65535) + b"\x09\0\0\0",
        "a code alone": w.pack("HH", 9, 1),
    }
    for name, options in lists.items():
        for padding in (b"", bytes(4)):
            body = w.section() + w.interface(101, options=options + padding)
            yield "options: %s, %d" % (name, len(padding)), body + w.enhanced(0, 0, SYN) + w.enhanced(0, 3000, DATA)


def counts():
    """Interfaces up to one too many, packets up to one too many, and sections that differ from the first."""
    w = Writer("<")
    for count in (1023, 1024, 1025):
        start = w.section() + w.interface(101) * count
        yield "%d interfaces" % count, start + w.enhanced(count - 1, 0, SYN)
        yield "%d interfaces and a section" % count, start + w.section() + w.interface(101) + w.enhanced(0, 0, SYN)
    start = w.section() + w.interface(101)
    for count in (199_999, 200_000, 200_001):
        yield "%d packets" % count, start + w.simple(0, b"") * count + w.names()
    yield "200,001 packets and a bad length", start + w.simple(0, b"") * 200_000 + w.simple(0, b"", first=15)
    yield "200,000 packets and a part of one", start + w.simple(0, b"") * 200_000 + w.simple(0, b"")[:7]
    other = Writer(">")
    yield "a later magic in no order", start + w.section(magic=0x1A2B3C4E) + w.enhanced(0, 0, SYN)
    yield "a later major version", start + other.section(major=2)
    yield "a later order", start + other.section() + other.interface(1) + other.enhanced(0, 0, SYN)
    yield "a later order that is kept", start + other.section() + w.interface(1)


def table():
    for part in (prefixes, changed_octets, total_lengths, packets, times, lists_of_options, counts):
        yield from part()
