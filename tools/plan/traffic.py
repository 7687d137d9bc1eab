"""The packets of captures that go to a fleet's services, as captures that the program takes, and what else is there."""
import os
from collections import Counter
from contextlib import ExitStack
from itertools import chain
from plan.captures import READ_AT_ONCE, read_pieces
from plan.faults import CAPTURE, Refusal
from plan.moments import MICROSECOND, SECOND
from plan.parts import MOST, Order, spans_of
from plan.progress import Progress
from plan.sample import WHOLE
from plan.scripts import endpoint_text
from plan.selection import OTHERS, Wanted
from plan.workers import Here, Workers, processors

COPIES = "copies"
# The classic form has no later times.
LATEST = 2**32 * SECOND
# How many packets a part is meant to have where there are several: connections aren't equally long, and some get a SYN.
ROOM = MOST * 19 // 20


class Traffic:
    """What captures hold for a fleet: how many packets there are to which services, of how many connections; how many of these were opened;
    how many frames were left out and why; how many packets look like copies; the times of the first and the last frame, and the moment 0 of
    the captures that the program takes, whose names are `paths`; which captures end within a record; and which sample of the connections
    the packets are."""

    def __init__(self, reading, parts, order, sample):
        self.paths = [path for part in parts for path in part.paths]
        self.packets, self.connections = sum(part.packets for part in parts), sum(part.connections for part in parts)
        self.services = set().union(*[part.services for part in parts])
        self.opened, self.copies = sum(part.opened for part in parts), sum(part.copies for part in parts)
        self.left_out = reading.left_out + Counter({COPIES: self.copies} if order.without_copies and self.copies else {})
        self.begin, self.end, self.zero, self.cut, self.sample = reading.begin, reading.end, order.zero, reading.cut, sample


class Reading:
    """Reads captures. `found` has what each piece of them holds, with the time that its packets have at least: no frame of a capture is
    earlier than those before it."""

    def __init__(self, folder, paths, services, sample, watch):
        self.folder, self.paths, self.services, self.sample, self.watch = folder, paths, services, sample, watch
        self.found, self.left_out, self.destinations, self.cut = [], Counter(), Counter(), []
        self.begin, self.latest, self.count = None, [None] * len(paths), 0

    @property
    def end(self):
        return max(latest for latest in self.latest if latest is not None)

    def pieces(self):
        """The pieces of all captures, each with the number of its capture."""
        for number, path in enumerate(self.paths):
            for piece in read_pieces(path, self.cut, self.watch):
                yield number, piece

    def read(self, workers, pieces):
        wanted = Wanted(frozenset(self.services), 0 if self.sample is WHOLE else self.sample.number)
        captures = []

        def tasks():
            for capture, piece in pieces:
                captures.append(capture)
                yield piece, wanted, os.path.join(self.folder, f"piece-{len(captures)}")

        for number, selection in enumerate(workers.each("select", tasks())):
            self.take(captures[number], selection)

    def take(self, capture, selection):
        if selection.begin is not None and self.latest[capture] is None:
            self.begin = selection.begin if self.begin is None else min(self.begin, selection.begin)
            self.latest[capture] = 0
        if selection.latest >= LATEST:
            raise Refusal(CAPTURE, f"{self.paths[capture]}: it has times after the year 2106; is it damaged?")
        self.left_out.update(selection.left_out)
        self.sample.flows.update(selection.flows)
        if selection.has_packets:
            self.found.append((selection, self.latest[capture]))
            self.count += sum(selection.counts)
        elif not self.found:
            self.destinations.update(selection.destinations)
        if selection.begin is not None:
            self.latest[capture] = max(self.latest[capture], selection.latest)

    def look(self):
        """Refuses captures without a packet to a service."""
        names = " and ".join(self.paths)
        if self.begin is None:
            raise Refusal(CAPTURE, f"{names}: there is no packet in it")
        if self.found:
            return
        self.sample.look()
        wanted = ", ".join(endpoint_text(*it) for it in sorted(self.services))
        there = f"; the busiest services are {busiest(self.destinations)}: name yours by --vip or in vips" if self.destinations else ""
        told = "".join(f"; {count} packets are {why}" for why, count in self.left_out.most_common(3) if why != OTHERS)
        raise Refusal(CAPTURE, f"{names}: no packet goes to {wanted}{there}{told}")


def busiest(destinations):
    return ", ".join(f"{endpoint_text(*it)} ({count} packets)" for it, count in destinations.most_common(3))


def read_traffic(folder, paths, services, without_copies=False, is_opened=True, sample=WHOLE, progress=None, number=1):
    """What the captures hold for these services, or of a sample of their connections, in at least so many captures in the folder."""
    progress = progress or Progress()
    reading = Reading(folder, paths, services, sample, progress.watch)
    with ExitStack() as stack:
        few, pieces, size = [], reading.pieces(), 0
        while size < READ_AT_ONCE and (one := next(pieces, None)):
            few.append(one)
            size += len(one[1].octets)
        workers = Here() if size < READ_AT_ONCE else stack.enter_context(Workers(processors()))
        reading.read(workers, chain(few, pieces))
        reading.look()
        order = Order(os.path.join(folder, "part"), reading.begin - MICROSECOND, reading.end, without_copies, is_opened)
        return Traffic(reading, list(parts_of(reading, workers, order, number, progress)), order, sample)


def parts_of(reading, workers, order, number, progress):
    """Makes the parts, and takes away what they were made of."""
    groups = spans_of(reading.found, max(number, 1 if reading.count <= MOST else -(-reading.count // ROOM)))
    progress.stage("splitting")
    progress.add(len(groups))
    tasks = ((spans, order._replace(path=f"{order.path}-{at + 1}")) for at, spans in enumerate(groups))
    for part in workers.each("make", tasks):
        progress.step()
        yield part
    for selection, _ in reading.found:
        os.unlink(selection.path)
