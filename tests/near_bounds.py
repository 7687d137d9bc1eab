"""Random stages whose moments lie near what bounds a script's lifetime, and captures with connections that live a little longer."""
from lifetime import SECOND, lifetime, longest_lag, moves_of_buckets, slack
from rules import ACK, FIN, RST, SYN, Fleet, Packet
from stages import CLIENT, SERVICE, command_rows, fault_rows

SOME_NS = 3000
# Clients use the ports from this one on.
FIRST_PORT = 1024
SYN_SEQ = 100


# SCRIPTS


def some_lags(rng, muxes, timeout):
    """Mostly one lag for all muxes."""
    lag = lambda: rng.choice([0, 0, 1, rng.randint(0, SOME_NS), rng.randint(0, timeout)])
    return [lag() for _ in range(muxes)] if rng.random() < 0.4 else [lag()] * muxes


def some_setting(rng):
    setting = {
        "version": rng.choice([1, 2, 3]),
        "buckets": rng.choice([1, 1, 2, 3, 8]),
        "servers": sorted(rng.sample(range(1, 8), rng.randint(3, 5))),
        "muxes": rng.randint(1, 3),
        "shards": rng.randint(1, 2),
        "capacity": rng.choice([8, 64]),
        "timeout_s": rng.choice([1, 1, 2]),
        "route": rng.choice(["port", "turn"]),
    }
    setting["lags_ns"] = some_lags(rng, setting["muxes"], setting["timeout_s"] * SECOND)
    if setting["version"] == 3 and setting["buckets"] > 1 and {server % 2 for server in setting["servers"]} == {0, 1}:
        setting["racks"] = rng.choice([1, 2])
    return setting


def some_fault_rows(rng):
    if rng.random() < 0.7:
        return []
    delays = [0, 1, rng.randint(0, SOME_NS), rng.randint(0, SECOND)]
    return [(rng.randint(1, 14), rng.choice(["direct", "chained"]), rng.randint(0, 3), rng.choice(delays)) for _ in range(rng.randint(1, 3))]


def some_wait(rng, timeout):
    """From one command to the next."""
    short = [0, 1, rng.randint(1, SOME_NS)] + [rng.randint(0, timeout // 3) for _ in range(4)]
    return rng.choice(short + [rng.randint(0, timeout), timeout + rng.randint(-5, 5), rng.randint(timeout, 2 * timeout)])


def some_words(rng, fleet):
    """The words of a command, which may be refused."""
    active, gone = sorted(fleet.active), sorted(fleet.known - set(fleet.active))
    weight = (rng.choice([1, 2, 5]),) if fleet.version > 1 else ()
    moves = [("move", rng.choice([0, 0, rng.randrange(fleet.buckets)]), rng.choice(active)) for _ in range(8)]
    changes = [("drain", rng.choice(active))] * 3 + [("add", rng.randint(1, 9), *weight)] * 2
    changes += [("weight", rng.choice(active), *weight)] * 2 if weight else []
    return rng.choice(moves + changes + [("retire", rng.choice(gone or active))] * 2 + [("sync",)])


def some_fleet(rng):
    """A fleet whose changes come near to one another or to a timeout apart, and the text of its script."""
    setting = some_setting(rng)
    fleet = Fleet(setting)
    fleet.faults = some_fault_rows(rng)
    rows = [f"{key} = {value!r}".replace("'", '"') for key, value in setting.items()]
    rows += [row for fault in fleet.faults for row in fault_rows(fault)]
    at = rng.choice([0, 0, rng.randint(1, SECOND)])
    for _ in range(rng.randint(1, 12)):
        words = some_words(rng, fleet)
        if fleet.command(at, words) is None:
            rows += command_rows(at, words)
            at += some_wait(rng, fleet.timeout())
    return fleet, "\n".join(rows) + "\n"


# CAPTURES


def flows_in(fleet, bucket, mux=None):
    """The flows of this bucket; with a mux, those that come through it where the route is by port."""
    for port in range(FIRST_PORT, 65536):
        flow = (CLIENT, SERVICE[0], port, SERVICE[1])
        if fleet.bucket(flow) == bucket and (mux is None or port % fleet.muxes == mux):
            yield flow


def syn(moment, flow):
    return Packet(moment, flow, SYN_SEQ, 0, 0, SYN)


def data(moment, flow, flags=ACK):
    return Packet(moment, flow, SYN_SEQ + 1, 501, 10, flags)


def filler(moment=0):
    """A record that is steered nowhere."""
    return Packet(moment, (CLIENT, SERVICE[0] + 8, FIRST_PORT, SERVICE[1]), 0, 0, 0, ACK, "other-destination")


def in_order(packets):
    """The packets by their moments; the first record is at moment 0."""
    ordered = sorted(packets, key=lambda packet: packet.moment)
    return ordered if ordered and ordered[0].moment == 0 else [filler(), *ordered]


def some_ages(rng, fleet, most):
    """How long after its SYN packets of a connection may come."""
    late = fleet.timeout() - longest_lag(fleet)
    ages = [most, most - rng.randint(0, 100), most + rng.randint(0, 100), late + rng.randint(-100, 100), rng.randint(0, 2 * fleet.timeout())]
    return [max(1, age) for age in ages + [rng.randint(0, max(1, most)) for _ in range(3)]]


def some_connection(rng, fleet, flow, most):
    """A SYN shortly before the flow's mux learns of a change, or at any moment, and packets near the bound."""
    learnt = [moment + rng.choice(fleet.lags) for moment, _, _ in fleet.changes] or [0]
    begin = max(0, rng.choice(learnt) - rng.choice([1, 1, 2, rng.randint(0, SOME_NS), rng.randint(0, fleet.timeout())]))
    yield syn(begin, flow)
    if rng.random() < 0.15:
        yield syn(begin + rng.choice([1, rng.randint(1, SECOND)]), flow)
    for age in rng.sample(some_ages(rng, fleet, most), rng.randint(1, 5)):
        yield data(begin + age, flow, rng.choice([ACK] * 6 + [FIN | ACK]))
    if rng.random() < 0.05:
        yield Packet(begin + rng.randint(0, SECOND), flow, SYN_SEQ + 1, 0, 0, RST)


def some_packets(rng, fleet):
    """A few connections, most of them of a bucket that moves, and others at the same moments, so that clocks run ahead."""
    life = lifetime(fleet)
    most = fleet.timeout() if life is None else life.time
    moved = sorted(moves_of_buckets(fleet)) or [0]
    packets = []
    for number in range(rng.randint(1, 3)):
        flows = flows_in(fleet, rng.choice(moved))
        flow = [next(flows) for _ in range(number + 1)][-1]
        packets += some_connection(rng, fleet, flow, most)
    for packet in rng.sample(packets, min(len(packets), 3)):
        packets += [syn(packet.moment, (CLIENT + 1, SERVICE[0], rng.randint(1, 9), SERVICE[1])) for _ in range(rng.randint(0, 2))]
    return in_order(packets)


# CONNECTIONS THAT LIVE A LITTLE LONGER


def past_timeouts(fleet):
    """For each move of a bucket a mux, a moment just before it learns of the move, and one just after the timeout."""
    mux = fleet.lags.index(longest_lag(fleet))
    for bucket, moves in moves_of_buckets(fleet).items():
        for _, moment in moves:
            learnt = moment + fleet.lags[mux]
            yield bucket, mux, learnt - 1, max(moment + fleet.timeout(), learnt)


def past_moves(fleet):
    """The same for three moves of a bucket: just before a mux learns of the first, and when it learns of the third."""
    for bucket, moves in moves_of_buckets(fleet).items():
        for (_, begin), _, (_, end) in zip(moves, moves[1:], moves[2:]):
            for mux, lag in enumerate(fleet.lags):
                if begin + lag > 0:
                    yield bucket, mux, begin + lag - 1, end + lag


def longer_lives(fleet):
    """Connections that live longer than the script's lifetime, by no more than the slack and two nanoseconds, each as a bucket, a mux and
    the moments of a SYN and of a packet."""
    time = lifetime(fleet).time
    for bucket, mux, begin, end in [*past_moves(fleet), *past_timeouts(fleet)]:
        if time < end - begin <= time + slack(fleet) + 2:
            yield bucket, mux, begin, end


def capture_of_longer_lives(fleet, most):
    """The packets of at most so many such connections. Their records have higher numbers than those that fault rows name."""
    flows, packets = {}, []
    for bucket, mux, begin, end in list(longer_lives(fleet))[:most]:
        key = bucket, mux if fleet.route == "port" else None
        flow = next(flows.setdefault(key, flows_in(fleet, *key)), None)
        if flow:
            packets += [syn(begin, flow), data(end, flow)]
    fillers = [filler() for _ in range(max((row[0] for row in fleet.faults), default=0))]
    return in_order(fillers + packets)


def captures_of_unsteady_lives(fleet):
    """For each move of a bucket the packets of a connection whose SYN comes through the mux with the shortest lag when that learns of the
    move, and whose next packet comes soon after, through the mux with the longest lag."""
    quick, slow = (fleet.lags.index(of(fleet.lags)) for of in (min, max))
    age = min(SOME_NS, fleet.lags[slow] - fleet.lags[quick] - 1)
    for bucket, moves in moves_of_buckets(fleet).items():
        for _, moment in moves:
            begin, flow = moment + fleet.lags[quick], next(flows_in(fleet, bucket))
            packets = [filler() for _ in range(1 + max((row[0] for row in fleet.faults), default=0))]
            for mux, packet in (quick, syn(begin, flow)), (slow, data(begin + age, flow)):
                while (len(packets) + 1) % fleet.muxes != mux:
                    packets.append(filler(packets[-1].moment))
                packets.append(packet)
            yield packets
