"""How long a connection may live so that no change of a script breaks it, computed plainly from the script's plan, and the lines in which
`beamer-connections --lifetime` says it. Written from docs/LIFETIMES.md and docs/FORMATS.md alone. Times are in nanoseconds."""
from typing import NamedTuple

SECOND = 10**9
# A replay has at most this many events, and each may put its clock ahead by one nanosecond.
MOST_EVENTS = 12_259_840
LONGEST_TIMEOUT_S = 86_400


class Span(NamedTuple):
    """The time from the first to the third of three moves of a bucket that follow one another; changes have their numbers, from 1."""

    first: int
    third: int
    time: int


class NearMoves(NamedTuple):
    """The changes of the shortest span, how many buckets have one that short, and the lowest of them."""

    first: int
    third: int
    buckets: int
    lowest: int


class Lifetime(NamedTuple):
    """A lifetime, what bounds it, and the next greater bound, if there is one."""

    time: int
    by_timeout: bool
    by_moves: NearMoves | None
    next: int | None


def seconds(time):
    return f"{time // SECOND}.{time % SECOND:09}"


# BOUNDS


def longest_lag(fleet):
    return max(fleet.lags)


def slack(fleet):
    """How much shorter than the timeout a lifetime has to be: its mux learns of a change a lag later, its copies make up to three hops,
    and clocks run ahead of moments."""
    longest_delay = max((delay for _, _, _, delay in fleet.faults), default=0)
    return MOST_EVENTS + 3 * longest_delay + longest_lag(fleet)


def is_steady(fleet):
    """Whether no packet of a connection meets an older table than an earlier one did."""
    return fleet.route == "port" or len(set(fleet.lags)) == 1 or not fleet.changes


def moves_of_buckets(fleet):
    """For each bucket that moves, the numbers and the moments of the changes that move it. At moment 0 without lags no packet came
    before, so such changes don't count."""
    found = {}
    for number, (moment, _, moves) in enumerate(fleet.changes, 1):
        if moment + longest_lag(fleet) > 0:
            for bucket in moves:
                found.setdefault(bucket, []).append((number, moment))
    return found


def spans_of(moves):
    return [Span(first, third, end - begin) for (first, begin), _, (third, end) in zip(moves, moves[1:], moves[2:])]


def timeout_bound(fleet):
    return max(0, fleet.timeout() - slack(fleet))


def lifetime(fleet):
    """The lifetime of a script, or None if there is no bound."""
    if not is_steady(fleet):
        return Lifetime(0, False, None, None)
    spans = {bucket: spans_of(moves) for bucket, moves in moves_of_buckets(fleet).items()}
    if not spans:
        return None
    times = [span.time for of_bucket in spans.values() for span in of_bucket] + [timeout_bound(fleet)]
    time = min(times)
    near = sorted(bucket for bucket, of_bucket in spans.items() if any(span.time == time for span in of_bucket))
    by_moves = None
    if near:
        shortest = next(span for span in spans[near[0]] if span.time == time)
        by_moves = NearMoves(shortest.first, shortest.third, len(near), near[0])
    greater = [other for other in times if other > time]
    return Lifetime(time, time == timeout_bound(fleet), by_moves, min(greater, default=None))


def lives_of_buckets(fleet):
    """How long a connection may live of each bucket that has a bound."""
    if not is_steady(fleet):
        return dict.fromkeys(range(fleet.buckets), 0)
    moved = moves_of_buckets(fleet)
    return {bucket: min([timeout_bound(fleet)] + [span.time for span in spans_of(moves)]) for bucket, moves in moved.items()}


def is_safe(fleet, time):
    """Whether no change breaks a connection that lives this long."""
    life = lifetime(fleet)
    return life is None or time <= life.time


# LINES


def least_timeout_s(fleet, time):
    """The least timeout, in whole seconds, that leaves this much after the slack."""
    return -(-(time + slack(fleet)) // SECOND)


def bound_lines(fleet, life):
    if not life.by_timeout and not life.by_moves:
        yield "bound route turn"
    if life.by_timeout:
        yield f"bound timeout_s {fleet.timeout_s}"
    if life.by_moves:
        yield "bound changes {} {} buckets {} first {}".format(*life.by_moves)


def raise_lines(fleet, life):
    if life.next is None:
        return
    timeout_s = least_timeout_s(fleet, life.next)
    if life.by_timeout and timeout_s <= LONGEST_TIMEOUT_S:
        yield f"raise timeout_s {timeout_s} to {seconds(life.next)}"
    if life.by_moves:
        yield f"raise change {life.by_moves.third} by {seconds(life.next - life.time)} to {seconds(life.next)}"


def lines(fleet):
    """What `--lifetime` prints."""
    life = lifetime(fleet)
    if life is None:
        return ["lifetime unbounded"]
    return [f"lifetime {seconds(life.time)}", *bound_lines(fleet, life), *raise_lines(fleet, life)]


def report_line(fleet, lives):
    """The line of a report; `lives` has for each connection the time from its first to its last packet."""
    life = lifetime(fleet)
    outlived = 0 if life is None else sum(lived > life.time for lived in lives)
    said = "unbounded" if life is None else seconds(life.time)
    return f"lifetime {said} outlived-by {outlived} of {len(lives)}"


# THE LAW


class Openings:
    """What came of the opening packets of a flow so far: the moment of the first, their sequence numbers, and the servers to which they
    were sent; whether one was accepted, and whether a connection of the flow was ended."""

    def __init__(self):
        self.begin, self.numbers, self.servers = None, set(), set()
        self.accepted = self.ended = False

    def add(self, packet, server):
        self.begin = packet.moment if self.begin is None else min(self.begin, packet.moment)
        self.numbers.add(packet.seq)
        self.servers.add(server)

    def is_one(self):
        return len(self.numbers) == len(self.servers) == 1 and not self.ended


def young_arrivals(fleet, packets, events):
    """The arrivals at which no premise may be broken, each with the lifetime of its bucket: of a packet that opens nothing, whose
    connection was accepted before the packet was steered, was opened once, wasn't ended, and is no older than that lifetime."""
    flows, accepted, lives = {}, {}, lives_of_buckets(fleet)
    for e in events:
        packet = packets[e["packet"] - 1] if "packet" in e else None
        flow = flows.setdefault(packet.flow if packet else e.get("flow"), Openings())
        if e["what"] == "steer":
            accepted[e["packet"]] = flow.accepted
            if packet.opening():
                flow.add(packet, fleet.server(e["version"], fleet.bucket(packet.flow)))
        elif e["what"] == "arrive":
            if not packet.opening() and accepted[e["packet"]] and flow.is_one():
                life = lives.get(fleet.bucket(packet.flow))
                if life is None or packet.moment - flow.begin <= life:
                    yield e, life
            flow.accepted |= e["verdict"] == "accept"
            flow.ended |= e["verdict"] == "process ended"
        elif e["what"] == "close":
            flow.ended |= e["closed"]
