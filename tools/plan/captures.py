"""Captures of the classic and the pcapng form, as they are or compressed. They are read in pieces of whole records."""
import bz2, gzip, io, lzma, shutil, struct, subprocess, sys, zlib
from array import array
from typing import NamedTuple
from plan.faults import CAPTURE, READ, Refusal, of_file

# The magic numbers of the classic form, with nanoseconds in the unit of a time's fraction.
CLASSIC = {0xA1B2C3D4: 1000, 0xA1B23C4D: 1}
SECTION, INTERFACE, SIMPLE, ENHANCED = 0x0A0D0D0A, 1, 3, 6
ORDER_MAGIC = 0x1A2B3C4D
ZSTD = b"\x28\xb5\x2f\xfd"
COMPRESSED = {b"\x1f\x8b": gzip.open, b"\xfd7zXZ\x00": lzma.open, b"BZh": bz2.open}
# The most octets of a record that the programs take, and of a block of the pcapng form; and how many octets are read at once.
LONGEST, LONGEST_BLOCK, READ_AT_ONCE = 262_144, 1 << 24, 1 << 22
DAMAGED = OSError, EOFError, lzma.LZMAError, zlib.error


class Frame(NamedTuple):
    """A captured frame: its time in nanoseconds since 1970, its link type, and its octets."""

    time: int
    link: int
    octets: bytes


class Piece(NamedTuple):
    """A piece of a capture: what its records are read by, whole records, and where each of them begins."""

    form: object
    octets: bytes
    starts: array

    def frames(self):
        return self.form.frames(self.octets, self.starts)


class Source:
    """The octets of a capture, which are read in order. `place` is how many were read."""

    def __init__(self, name, file):
        self.name, self.file, self.place = name, file, 0

    def some(self):
        """Some octets more, and none at the end."""
        try:
            octets = self.file.read(READ_AT_ONCE)
        except DAMAGED as wrong:
            raise Refusal(READ, f"{self.name}: it can't be read after octet {self.place}: {wrong}; is it damaged or cut?") from None
        self.place += len(octets)
        return octets

    def refuse(self, text):
        return Refusal(CAPTURE, f"{self.name}: {text}")


def opened(path, watch):
    """The file of this name as a binary stream of a capture's octets. `-` is standard input. `watch` gets the file that is read."""
    try:
        file = sys.stdin.buffer if path == "-" else open(path, "rb")
        begin = file.peek(8)[:8]
    except OSError as wrong:
        raise of_file(path, wrong) from None
    if watch:
        watch(file)
    for magic, open_by in COMPRESSED.items():
        if begin.startswith(magic):
            return open_by(file)
    return from_zstd(path, file) if begin.startswith(ZSTD) else file


def from_zstd(path, file):
    """The octets of a file that zstd compressed. Python has no reader of its own for it."""
    if not shutil.which("zstd"):
        raise Refusal(READ, f"{path}: it is compressed by zstd, which isn't installed (`apt-get install zstd`)")
    done = subprocess.run(["zstd", "-dcq"], input=file.read(), stdout=subprocess.PIPE, stderr=subprocess.PIPE)
    if done.returncode:
        raise Refusal(READ, f"{path}: zstd says: {done.stderr.decode(errors='replace').strip()}")
    return io.BytesIO(done.stdout)


def read_pieces(path, cut, watch=None):
    """The pieces of a capture, in its order. If it ends within a record, its name is put into `cut`."""
    source = Source("standard input" if path == "-" else path, opened(path, watch))
    octets = source.some()
    form, begin = form_of(source, octets)
    octets = octets[begin:]
    while True:
        starts, end = form.walked(source, octets)
        if starts:
            yield Piece(form, octets[:end], starts)
        form, end = form.changed(source, octets, end)
        octets = octets[end:]
        if not end:
            more = source.some()
            if not more:
                break
            octets += more
    if octets:
        cut.append(source.name)


def form_of(source, octets):
    """The form of a capture that begins with these octets, and where its records begin."""
    if not octets:
        raise source.refuse("it is empty")
    magic = octets[:4]
    if magic == struct.pack("<I", SECTION):
        return Blocks(source.name), 0
    for order in "<>":
        unit = CLASSIC.get(int.from_bytes(magic, "little" if order == "<" else "big"))
        if unit and len(octets) < 24:
            raise source.refuse("it ends within its header")
        if unit:
            return Records(order, unit, struct.unpack(order + "I", octets[20:24])[0] & 0xFFFF), 24
    raise source.refuse("it is no capture: neither of the classic form (tcpdump) nor of the pcapng form (dumpcap, Wireshark)")


# THE CLASSIC FORM


class Records:
    """The classic form: the order of its numbers, the unit of a time's fraction in nanoseconds, and the link type."""

    def __init__(self, order, unit, link):
        self.order, self.unit, self.link = order, unit, link

    def walked(self, source, octets):
        """Where the whole records begin, and where the last of them ends."""
        length_at, starts, place, last = struct.Struct(self.order + "8xI").unpack_from, array("I"), 0, len(octets) - 16
        while place <= last:
            length = length_at(octets, place)[0]
            if length > LONGEST:
                raise source.refuse(f"it is damaged: a record of {length} octets at octet {source.place - len(octets) + place}")
            after = place + 16 + length
            if after > last + 16:
                break
            starts.append(place)
            place = after
        return starts, place

    def changed(self, source, octets, place):
        """The form of what comes next, and where that begins."""
        return self, place

    def frames(self, octets, starts):
        head = struct.Struct(self.order + "IIIxxxx")
        for place in starts:
            seconds, parts, length = head.unpack_from(octets, place)
            yield Frame(seconds * 10**9 + parts * self.unit, self.link, octets[place + 16 : place + 16 + length])


# THE PCAPNG FORM


class Interface:
    """An interface's link type, snapshot length, and the parts of a second that its times count."""

    def __init__(self, order, body):
        self.link, _, self.snapshot = struct.unpack(order + "HHI", body[:8])
        self.parts = 10**6
        for code, value in options(order, body[8:]):
            if code == 9 and len(value) == 1:
                self.parts = 2 ** (value[0] & 0x7F) if value[0] & 0x80 else 10 ** value[0]
                break


def options(order, octets):
    place = 0
    while place + 4 <= len(octets):
        code, length = struct.unpack(order + "HH", octets[place : place + 4])
        if code == 0 or place + 4 + length > len(octets):
            return
        yield code, octets[place + 4 : place + 4 + length]
        place += 4 + (length + 3) // 4 * 4


class Blocks:
    """The pcapng form: the order of its numbers, and the interfaces that were described."""

    def __init__(self, name, order="<", interfaces=()):
        self.name, self.order, self.interfaces = name, order, interfaces

    def walked(self, source, octets):
        """Where the whole blocks begin before the next that describes a section or an interface, and where the last of them ends."""
        head, starts, place, last = struct.Struct(self.order + "II").unpack_from, array("I"), 0, len(octets) - 12
        while place <= last:
            kind, length = head(octets, place)
            if kind == SECTION or kind == INTERFACE:
                break
            self.look(source, octets, place, length, 12)
            if place + length > last + 12:
                break
            starts.append(place)
            place += length
        return starts, place

    def look(self, source, octets, place, length, least):
        if length % 4 or not least <= length <= LONGEST_BLOCK:
            raise source.refuse(f"it is damaged: a block of {length} octets at octet {source.place - len(octets) + place}")

    def changed(self, source, octets, place):
        """The form of what comes next, and where that begins: after a block that describes a section or an interface."""
        if place + 12 > len(octets):
            return self, place
        kind, order = struct.unpack_from(self.order + "I", octets, place)[0], self.order
        if kind == SECTION:
            order = next((it for it in "<>" if struct.unpack_from(it + "I", octets, place + 8)[0] == ORDER_MAGIC), None)
            if order is None:
                raise source.refuse(f"it is damaged: a section without its magic number at octet {source.place - len(octets) + place}")
        elif kind != INTERFACE:
            return self, place
        length = struct.unpack_from(order + "I", octets, place + 4)[0]
        self.look(source, octets, place, length, 16 if kind == SECTION else 12)
        after, body = place + length, octets[place + 8 : place + length - 4]
        if after > len(octets):
            return self, place
        if kind == SECTION:
            return Blocks(self.name, order), after
        added = [Interface(order, body)] if len(body) >= 8 else []
        return Blocks(self.name, order, [*self.interfaces, *added]), after

    def frames(self, octets, starts):
        """The frames. One without a time has 0, and so the time of those before it."""
        head = struct.Struct(self.order + "II")
        for place in starts:
            kind, length = head.unpack_from(octets, place)
            body = octets[place + 8 : place + length - 4]
            if kind == ENHANCED and len(body) >= 20:
                yield self.enhanced(body)
            elif kind == SIMPLE and self.interfaces and len(body) >= 4:
                size = min(struct.unpack(self.order + "I", body[:4])[0], self.interfaces[0].snapshot or LONGEST, len(body) - 4)
                yield Frame(0, self.interfaces[0].link, body[4 : 4 + size])

    def enhanced(self, body):
        number, high, low, length, _ = struct.unpack(self.order + "IIIII", body[:20])
        if number >= len(self.interfaces) or length > len(body) - 20:
            raise Refusal(CAPTURE, f"{self.name}: it is damaged: a packet doesn't fit its block")
        interface = self.interfaces[number]
        return Frame((high << 32 | low) * 10**9 // interface.parts, interface.link, body[20 : 20 + length])
