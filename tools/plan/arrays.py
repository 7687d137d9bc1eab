"""What plan.selection and plan.parts do, by numpy: for frames of the common kind all at once, and for others one by one."""
import functools, numpy
from array import array
from collections import Counter
from plan import parts, selection as plainly
from plan.captures import ENHANCED, Records
from plan.frames import COOKED, COOKED_2, ETHERNET, FIN, LINKS, LONGEST, RAW, RAW_IPV4, begin_of, opening, read_frame
from plan.moments import MILLISECOND, SECOND
from plan.parts import MOST, Part, content_of, record
from plan.sample import WHOLE
from plan.selection import FIRST, OTHERS, SECOND as SECOND_FACTOR, SLOTS, Selection, write

# A head of a file of packets, and one of a record.
HEADS = numpy.dtype([("time", "<u8"), ("length", "<u4"), ("size", "<u4")])
STAMPS = numpy.dtype([("second", "<u4"), ("part", "<u4"), ("length", "<u4"), ("whole", "<u4")])
# Odd numbers by which numbers are mixed into one.
MIXERS = [numpy.uint64(it) for it in (0x9E3779B97F4A7C15, 0xC2B2AE3D27D4EB4F, 0x165667B19E3779F9)]
# For each link type where the type of the network layer's part is, as of Ethernet, and where that part begins.
PLACES = {ETHERNET: (12, 14), COOKED: (14, 16), COOKED_2: (0, 20), RAW: (None, 0), RAW_IPV4: (None, 0)}


def at(octets, places, kind):
    """The numbers of this kind that begin at these places."""
    kind = numpy.dtype(kind)
    return numpy.ndarray((len(octets) - kind.itemsize + 1,), kind, octets, strides=(1,))[places]


def copied(source, places, target, targets, sizes):
    """Copies octets of one array to another: from each place so many."""
    for size in numpy.unique(sizes):
        its, kind = sizes == size, f"V{size}"
        from_all = numpy.ndarray((len(source) - size + 1,), kind, source, strides=(1,))
        numpy.ndarray((len(target) - size + 1,), kind, target, strides=(1,))[targets[its]] = from_all[places[its]]


def ends(sizes):
    """Where each of several things in a row begins, and where the last ends."""
    return numpy.concatenate([[0], numpy.cumsum(sizes, dtype=numpy.int64)])


# SELECTION


class Frames:
    """The frames of a piece: their times, where each begins, how many octets it has, and the link type of all."""

    def __init__(self, times, begins, sizes, link):
        self.times, self.begins, self.sizes, self.link = times, begins, sizes, link


def frames_of(piece):
    """The frames of a piece, and None if they aren't of the common kind: in the classic form, or of one interface in the pcapng form."""
    starts, octets, form = numpy.frombuffer(piece.starts, dtype="u4").astype(numpy.int64), piece.octets, piece.form
    order = form.order
    if isinstance(form, Records):
        times = at(octets, starts, order + "u4").astype("u8") * SECOND + at(octets, starts + 4, order + "u4").astype("u8") * form.unit
        return Frames(times, starts + 16, at(octets, starts + 8, order + "u4").astype(numpy.int64), form.link)
    if len(form.interfaces) != 1 or SECOND % form.interfaces[0].parts or not (at(octets, starts, order + "u4") == ENHANCED).all():
        return None
    factor, lengths = SECOND // form.interfaces[0].parts, at(octets, starts + 4, order + "u4").astype(numpy.int64)
    if (lengths < 32).any() or at(octets, starts + 8, order + "u4").any():
        return None
    times = at(octets, starts + 12, order + "u4").astype("u8") << numpy.uint64(32) | at(octets, starts + 16, order + "u4").astype("u8")
    sizes = at(octets, starts + 20, order + "u4").astype(numpy.int64)
    if (sizes > lengths - 32).any() or (times > numpy.uint64(2**63 // factor)).any():
        return None
    return Frames(times * numpy.uint64(factor), starts + 28, sizes, form.interfaces[0].link)


class Segments:
    """The segments of frames: for each its flow, its flags, how many sequence numbers it takes up, where its packet begins, and how many
    octets its headers have. `is_common` says of which frames they are known; of the others nothing is said."""

    def __init__(self, octets, frames):
        kind_at, before = PLACES[frames.link]
        fits = frames.sizes >= before + 40
        self.begins = numpy.where(fits, frames.begins + before, 0)
        sizes, padded = frames.sizes - before, octets + bytes(64)
        total = at(padded, self.begins + 2, ">u2").astype(numpy.int64)
        offset = (at(padded, self.begins + 32, "u1") >> 4).astype(numpy.int64) * 4
        self.flags = at(padded, self.begins + 33, "u1")
        common = fits & (at(padded, self.begins, "u1") == 0x45) & (at(padded, self.begins + 9, "u1") == 6)
        common &= (total >= 40) & (total <= LONGEST)
        common &= (at(padded, self.begins + 6, ">u2") & 0x3FFF == 0) & (offset >= 20) & (offset <= total - 20)
        if kind_at is not None:
            common &= at(padded, numpy.where(fits, frames.begins + kind_at, 0), ">u2") == 0x0800
        self.is_common = common
        self.lengths = total - 20 - offset + (self.flags & FIN)
        self.sizes = numpy.minimum(20 + offset, sizes)
        self.source, self.destination = at(padded, self.begins + 12, ">u4").astype("u4"), at(padded, self.begins + 16, ">u4").astype("u4")
        self.sport, self.dport = at(padded, self.begins + 20, ">u2").astype("u4"), at(padded, self.begins + 22, ">u2").astype("u4")

    def put(self, number, segment, begin):
        """Puts in a segment that was read by itself."""
        self.is_common[number] = True
        self.begins[number], self.sizes[number] = begin + segment.place, segment.end - segment.place
        self.source[number], self.destination[number], self.sport[number], self.dport[number] = segment.flow
        self.lengths[number] = segment.length


def selected(piece, wanted, path):
    """What a piece holds. Its packets are written to the file of this name."""
    frames = frames_of(piece)
    if frames is None or frames.link not in LINKS:
        return plainly.selected(piece, wanted, path)
    octets, left_out = piece.octets, Counter()
    segments = Segments(octets, frames)
    for number in numpy.nonzero(~segments.is_common)[0]:
        begin = int(frames.begins[number])
        frame = octets[begin : begin + int(frames.sizes[number])]
        read = read_frame(frames.link, frame)
        if isinstance(read, str):
            left_out[read] += 1
        else:
            segments.put(number, read._replace(end=min(read.end, len(frame))), begin)
    kept = segments.is_common & numpy.isin(services_key(segments.destination, segments.dport), keys_of(wanted.services))
    others = int(segments.is_common.sum() - kept.sum())
    left_out.update({OTHERS: others} if others else {})
    destinations = {} if kept.any() else destinations_of(segments)
    flows = sampled(segments, kept, wanted.sample())
    counts, sizes = written(octets, frames, segments, numpy.nonzero(kept)[0], path)
    latest = int(frames.times.max(initial=0))
    return Selection(path, int(frames.times[0]) if len(frames.times) else None, latest, left_out, destinations, flows, counts, sizes)


def services_key(address, port):
    return address.astype("u8") << numpy.uint64(16) | port.astype("u8")


def keys_of(services):
    return numpy.array([address << 16 | port for address, port in services], dtype="u8")


def destinations_of(segments):
    its = segments.is_common
    keys, counts = numpy.unique(services_key(segments.destination[its], segments.dport[its]), return_counts=True)
    return Counter({(int(key) >> 16, int(key) & 0xFFFF): int(count) for key, count in zip(keys, counts)})


def sampled(segments, kept, sample):
    """Takes out packets whose connections aren't in the sample; what is known of connections."""
    if sample is WHOLE:
        return {}
    for number in numpy.nonzero(kept)[0]:
        kept[number] = sample.has([int(it[number]) for it in (segments.source, segments.destination, segments.sport, segments.dport)])
    return sample.flows


def slots_of(source, destination, sport, dport):
    with numpy.errstate(over="ignore"):
        mixed = (source ^ sport << 16) * numpy.uint32(FIRST) + (destination ^ dport << 16) * numpy.uint32(SECOND_FACTOR)
    return mixed >> 20


def written(octets, frames, segments, numbers, path):
    """Writes packets in the order of their slots; how many packets and how many octets each slot has."""
    slots = slots_of(*[it[numbers] for it in (segments.source, segments.destination, segments.sport, segments.dport)])
    order = numpy.argsort(slots.astype("u2"), kind="stable")
    numbers, slots = numbers[order], slots[order]
    heads = numpy.empty(len(numbers), HEADS)
    heads["time"] = numpy.maximum.accumulate(frames.times)[numbers]
    heads["length"], heads["size"] = segments.lengths[numbers], segments.sizes[numbers]
    begins = ends(heads["size"])
    headers = numpy.empty(begins[-1], "u1")
    copied(numpy.frombuffer(octets, "u1"), segments.begins[numbers], headers, begins[:-1], heads["size"].astype(numpy.int64))
    write(path, [heads.data.cast("B")] if len(heads) else [], [headers.data] if len(headers) else [])
    counts, sizes = numpy.bincount(slots, minlength=SLOTS), numpy.bincount(slots, heads["size"], minlength=SLOTS)
    return [array("I", it.astype("u4").tobytes()) for it in (counts, sizes)]


# PARTS


class Packets:
    """The packets of spans in the order of their times: these, how many sequence numbers each takes up, where its headers begin, how many
    octets they have, and its flow as two numbers."""

    def __init__(self, spans):
        contents = [content_of(span) for span in spans]
        heads = numpy.concatenate([numpy.frombuffer(its, HEADS) for its, _ in contents])
        times = numpy.maximum(heads["time"], numpy.repeat(numpy.array([it.least for it in spans], "u8"), [it.count for it in spans]))
        self.octets = b"".join(octets for _, octets in contents) + bytes(64)
        order = numpy.argsort(times, kind="stable")
        begins, sizes = ends(heads["size"])[:-1], heads["size"].astype(numpy.int64)
        self.all = [it[order] for it in (times.astype(numpy.int64), heads["length"], begins, sizes)]
        self.take(slice(None))

    def take(self, which):
        """Takes some of the packets."""
        self.all = [it[which] for it in self.all]
        self.times, self.lengths, self.begins, self.sizes = self.all
        tcp = self.begins + (at(self.octets, self.begins, "u1") & 15).astype(numpy.int64) * 4
        self.addresses, self.ports = at(self.octets, self.begins + 12, ">u8").astype("u8"), at(self.octets, tcp, ">u4").astype("u4")
        self.sequences, self.flags = at(self.octets, tcp + 4, ">u4").astype("u4"), at(self.octets, tcp + 13, "u1")
        self.by_flow = numpy.lexsort((self.ports, self.addresses))
        addresses, ports = self.addresses[self.by_flow], self.ports[self.by_flow]
        self.begins_flow = numpy.ones(len(ports), bool)
        self.begins_flow[1:] = (addresses[1:] != addresses[:-1]) | (ports[1:] != ports[:-1])

    def copies(self):
        """Which packets came before, within a millisecond. Only those are looked at that follow one of their connection so soon, and of
        these only those whose numbers are the same."""
        times = self.times[self.by_flow]
        follows = numpy.zeros(len(times), bool)
        follows[1:] = (times[1:] - times[:-1] <= MILLISECOND) & ~self.begins_flow[1:]
        soon = numpy.sort(self.by_flow[follows | numpy.append(follows[1:], False)])
        identities = at(self.octets, self.begins[soon] + 4, ">u4").astype("u8")
        sequences = self.sequences[soon].astype("u8") << numpy.uint64(32) | identities
        with numpy.errstate(over="ignore"):
            parts_of_it = zip((self.addresses[soon], self.ports[soon].astype("u8"), sequences), MIXERS)
            mixed = functools.reduce(numpy.bitwise_xor, (it * factor for it, factor in parts_of_it))
        _, numbers, counts = numpy.unique(mixed, return_inverse=True, return_counts=True)
        known, found = parts.Copies(), numpy.zeros(len(self.times), bool)
        for number in soon[counts[numbers] > 1]:
            begin = int(self.begins[number])
            octets = self.octets[begin : begin + int(self.sizes[number])]
            found[number] = known.has(parts.Packet(int(self.times[number]), 0, octets))
        return found

    def openings(self):
        """A SYN for each connection that begins without one, in the order of their first packets."""
        firsts = numpy.nonzero(self.begins_flow)[0]
        lasts = numpy.append(firsts[1:], len(self.by_flow))
        lacks = self.flags[self.by_flow[firsts]] & 0x17 != 2
        found = []
        for first, last in zip(firsts[lacks], lasts[lacks]):
            its = self.by_flow[first:last]
            number = (begin_of(list(zip(self.sequences[its].tolist(), self.lengths[its].tolist()))) - 1) % 2**32
            addresses, ports = int(self.addresses[its[0]]), int(self.ports[its[0]])
            found.append((its[0], opening((addresses >> 32, addresses & 0xFFFFFFFF, ports >> 16, ports & 0xFFFF), number)))
        return [octets for _, octets in sorted(found)]

    def records(self, zero):
        """The records of the packets in the classic form."""
        begins = ends(self.sizes + 16)
        made = numpy.empty(begins[-1], "u1")
        stamps = numpy.empty(len(self.times), STAMPS)
        stamps["second"], stamps["part"] = numpy.divmod(self.times - zero, SECOND)
        stamps["length"] = stamps["whole"] = self.sizes
        numpy.ndarray((len(made) - 15,), STAMPS, made, strides=(1,))[begins[:-1]] = stamps
        copied(numpy.frombuffer(self.octets, "u1"), self.begins, made, begins[:-1] + 16, self.sizes)
        return made.data


def made(spans, order):
    """Makes the captures of spans. Each connection is in one of them."""
    packets = Packets(spans)
    is_copy = packets.copies()
    if order.without_copies and is_copy.any():
        packets.take(~is_copy)
    openings = packets.openings() if order.is_opened else []
    if len(packets.times) + len(openings) > MOST:
        return parts.made(spans, order)
    path = f"{order.path}-1.pcap"
    parts.write_capture(path, [record(0, octets) for octets in openings] + [packets.records(order.zero)], order.end - order.zero)
    keys = numpy.unique((packets.addresses & numpy.uint64(0xFFFFFFFF)) << numpy.uint64(16) | (packets.ports & 0xFFFF).astype("u8"))
    services = {(int(key) >> 16, int(key) & 0xFFFF) for key in keys}
    return Part([path], len(packets.times), int(packets.begins_flow.sum()), services, len(openings), int(is_copy.sum()))
