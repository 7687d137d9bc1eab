"""Small random stages, kept captures as tshark read them, and how a stage is written to files."""
import csv, json, re, struct, tomllib
from rules import ACK, FIN, M32, RST, SYN, Fleet, Packet, endpoints, flow_of_frame, reason_of_frame

CLIENT, SERVICE, OTHER = 0x0A000001, (0xC0000201, 80), (0xC0000209, 80)
ETHERNET, RAW_IP = 1, 101
# The kinds of random stages.
ANY = "any"
# One connection continues while its bucket moves, mostly within the timeout.
QUICK = "quick"
# The same, with about the timeout between the moves.
SLOW = "slow"
# A bucket goes to another server and comes back, with as much time between, while connections are opened at both.
BOUNCING = "bouncing"
# Servers retire while muxes lag.
LEAVING = "leaving"
# Servers stand in two racks or more where they can.
RACKED = "racked"


def packet_to_service(moment, flow, *shape):
    """A record with a segment, which isn't steered if its flow has another destination."""
    return Packet(moment, flow, *shape, None if (flow[1], flow[3]) == SERVICE else "other-destination")


def some_flow(rng):
    to = SERVICE if rng.random() < 0.95 else OTHER
    return (CLIENT, to[0], rng.choice([1000, 1000, 1000, 1001, 1002, rng.randint(1003, 1010)]), to[1])


def some_step(rng, stage, *steps):
    """How much later a packet or a command comes than the one before."""
    return rng.randint(0, 10**9) if stage in (SLOW, BOUNCING, LEAVING) else rng.choice([*steps, rng.randint(0, 3000), rng.randint(0, 2 * 10**9)])


def some_packets(rng, stage=ANY):
    moment, packets, kinds = 0, [], {ANY: (0, 1), QUICK: (0.15, 1.1), SLOW: (0.15, 1), BOUNCING: (0, 0.6), LEAVING: (0, 0.5), RACKED: (0, 1)}
    for number in range(rng.randint(8 if stage == BOUNCING else 0, 14)):
        kind = 0 if number == 0 else rng.uniform(*kinds[stage])
        seq = rng.choice([100, 101, 101, 111, 121, 95, 105, 70000, M32 - 3])
        if kind < 0.25:
            shape = (rng.choice([100, 100, 100, 200]), 0, 0, SYN)
        elif kind < 0.75:
            shape = (seq, 501, rng.choice([0, 10, 10]), ACK | rng.choice([0, 8]))
        elif kind < 0.88:
            shape = (seq, 501, rng.choice([0, 10]), FIN | ACK)
        else:
            shape = (seq, 0, 0, RST | rng.choice([0, 0, ACK, SYN]))
        flow = (CLIENT, SERVICE[0], 1000, SERVICE[1]) if stage in (QUICK, SLOW, BOUNCING) else some_flow(rng)
        packets.append(packet_to_service(moment, flow, *shape))
        moment += some_step(rng, stage, 0, 1, 2, 500, 1000, 1000)
    return packets


def some_setting(rng, stage):
    setting = {
        "buckets": rng.choice([1, 1, 2, 3, 9]),
        "servers": sorted(rng.sample(range(1, 7), rng.randint(1, 4))),
        "muxes": rng.randint(1, 3),
        "shards": rng.randint(1, 3),
        "capacity": rng.randint(1, 3),
        "timeout_s": rng.choice([1, 1, 2, 60]),
        "route": rng.choice(["port", "turn"]),
    }
    lags = [rng.choice([0, 1, rng.randint(0, 3000), rng.randint(0, 3 * 10**9)]) for _ in range(setting["muxes"])]
    moving = {"buckets": 1, "servers": sorted(rng.sample(range(1, 7), rng.randint(3, 4))), "route": "turn"}
    special = {
        ANY: {},
        QUICK: moving | {"timeout_s": rng.choice([1, 60])},
        SLOW: moving | {"timeout_s": rng.randint(1, 2)},
        BOUNCING: moving | {"servers": [1, 2], "muxes": 1, "timeout_s": 1, "lags_ns": [0]},
        LEAVING: {"buckets": 1, "servers": [1, 2], "muxes": 2, "timeout_s": 1, "route": "turn", "lags_ns": [9 * 10**9, rng.choice([0, 9 * 10**9])]},
        RACKED: {"buckets": rng.choice([2, 3, 4, 9, 9]), "servers": sorted(rng.sample(range(1, 7), rng.randint(2, 5)))},
    }
    setting |= {"lags_ns": lags} | special[stage]
    return setting | some_later_keys(rng, stage, setting["buckets"], setting["servers"])


def some_later_keys(rng, stage, buckets, servers):
    """The version for most scripts, and what only versions 2 and 3 have."""
    version = 3 if stage == RACKED else rng.choice([None, None, None, 1, 2, 2, 2, 2, 3, 3])
    keys = {} if version is None else {"version": version}
    if version in (2, 3) and rng.random() < 0.7:
        keys["weights"] = [some_weight(rng) for _ in servers]
    if stage == RACKED or version == 3 and rng.random() < 0.7:
        racks = [count for count in range(1, buckets + 1) if {(server - 1) % count for server in servers} == set(range(count))]
        keys["racks"] = rng.choice(racks[-2:])
    return keys


def some_weight(rng):
    return rng.choice([1, 1, 2, 3, rng.randint(1, 9), 1000])


def fault_rows(row):
    return ["[[fault]]", f"packet = {row[0]}", f'hop = "{row[1]}"', f"copies = {row[2]}", f"delay_ns = {row[3]}"]


def command_rows(at, words):
    rows = ["[[command]]", f"at_ns = {at}", f'do = "{words[0]}"']
    if words[0] == "move":
        rows.append(f"bucket = {words[1]}")
    if words[0] != "sync":
        rows.append(f"server = {words[2] if words[0] == 'move' else words[1]}")
    if words[0] in ("add", "weight") and words[2:]:
        rows.append(f"weight = {words[2]}")
    if words[0] == "close":
        rows += ['from = "%s"' % endpoints(words[2])[0], 'to = "%s"' % endpoints(words[2])[1]]
    return rows


def some_fleet(rng, stage=ANY):
    """A fleet, the text of its script, and the line of its fault, or None."""
    setting = some_setting(rng, stage)
    fleet, refused = Fleet(setting), None
    rows = [f"{key} = {value!r}".replace("'", '"') for key, value in setting.items()]
    for _ in range(rng.randint(0, 4)):
        row = (rng.randint(1, 14), rng.choice(["direct", "chained"]), rng.choice([0, 0, 1, 2, 3]), rng.choice([0, 0, 1, 500, rng.randint(0, 4 * 10**9)]))
        fleet.faults.append(row)
        rows += fault_rows(row)
    at, wrong = 0, rng.random() < (0.2 if stage == RACKED else 0.05)
    for _ in range(rng.randint(2, 5) if stage == BOUNCING else rng.randint(0, 10)):
        at += some_step(rng, stage, 0, 1, 500, 1000)
        active = sorted(fleet.active)
        elsewhere = [server for server in active if server != fleet.server(len(fleet.changes), 0)]
        server = rng.randint(1, 6) if stage in (ANY, RACKED) else rng.choice(elsewhere if stage != LEAVING and elsewhere else active)
        drained = sorted(fleet.known - set(fleet.active))
        leaving = rng.choice(drained) if drained and rng.random() < 0.8 else server
        weight = (some_weight(rng),) if fleet.version >= 2 else ()
        changes = [("add", server, *weight), ("drain", server), ("drain", server), ("move", rng.randint(0, 2), server), ("move", 0, server), ("move", 0, server)]
        others = [("close", server, some_flow(rng)), ("retire", leaving), ("retire", leaving), ("sync",)]
        weighs = [("weight", server, *weight)] * 3 if weight else []
        several = [("move", rng.randrange(fleet.buckets), server), ("add", server, *weight), ("drain", rng.choice(active))] * 3
        moves, ends = [("move", 0, server)] * 12 + [("sync",)] * 4, [("drain", server), ("retire", leaving)] * 12
        words = rng.choice(changes + weighs + others + {ANY: [], QUICK: moves, SLOW: moves, BOUNCING: moves * 3, LEAVING: ends, RACKED: several}[stage])
        if words[0] == "retire" and leaving in drained and rng.random() < (0.8 if stage == LEAVING else 0.4):
            at += fleet.timeout()
        before = len(fleet.commands)
        refusal = fleet.command(at, words)
        if refusal and not wrong:
            continue
        rows += command_rows(at, words)
        if refusal:
            refused = f"beamer: script command {before + 1}: {refusal}\n"
            break
    return fleet, "\n".join(rows) + "\n", refused


def some_stage(rng):
    """Packets, and a fleet as `some_fleet` gives it."""
    stage = rng.choice([ANY] * 5 + [QUICK] * 5 + [SLOW] * 3 + [BOUNCING] * 3 + [LEAVING] * 2 + [RACKED] * 5)
    return some_packets(rng, stage), *some_fleet(rng, stage)


def some_long_connection(rng, port):
    """A connection that goes on for seconds. Some of its records were captured twice, and its client may end it before its last ones."""
    flow, moment, seq, packets = (CLIENT, SERVICE[0], port, SERVICE[1]), rng.randint(0, 3 * 10**8), 101, []
    for number in range(rng.randint(3, 7)):
        flags, data = (SYN, 0) if number == 0 else rng.choice([(ACK, 0)] + [(ACK, 10)] * 6 + [(FIN | ACK, 0), (RST, 0)])
        shape = (seq - 1, 0, 0, flags) if flags == SYN else (seq, 501, data, flags)
        packets += [packet_to_service(moment + later, flow, *shape) for later in rng.choice([(0,), (0,), (0,), (0, 50_000)])]
        moment, seq = moment + rng.randint(10**6, 10**9), seq + data + bool(flags & FIN)
    return packets


def retiring_stage(rng):
    """Long connections, mostly to a server that is drained and retires when the timeout has passed or a little later; in the form of
    `some_stage`."""
    packets = sorted((packet for port in range(1000, rng.randint(1002, 1005)) for packet in some_long_connection(rng, port)), key=lambda it: it.moment)
    first, muxes = packets[0].moment, rng.randint(1, 2)
    for packet in packets:
        packet.moment -= first
    lags = [rng.choice([0, 0, 2 * 10**9]) for _ in range(muxes)]
    setting = {"buckets": rng.randint(1, 2), "servers": [1, 2], "muxes": muxes, "shards": rng.randint(1, 2), "timeout_s": 1, "lags_ns": lags}
    fleet = Fleet(setting)
    drain = rng.randint(3 * 10**8, 15 * 10**8)
    rows = [f"{key} = {value}" for key, value in setting.items()]
    for at, words in ((drain, ("drain", 1)), (drain + fleet.timeout() + rng.randint(1, 5 * 10**8), ("retire", 1))):
        assert fleet.command(at, words) is None
        rows += command_rows(at, words)
    return packets, fleet, "\n".join(rows) + "\n", None


def fleet_of(servers, shards, muxes):
    """The text of a script with this many of each. A run has a seat for each mux and one more at each shard of each server."""
    return f"servers = {list(range(1, servers + 1))}\nshards = {shards}\nmuxes = {muxes}\n"


def with_muxes(script, muxes):
    """The text of a script with this many muxes, without lags."""
    return f"muxes = {muxes}\n" + re.sub(r"(?m)^(muxes|lags_ns) *=.*\n", "", script)


def with_syncs(script):
    """The text of a script, without its syncs, but with one before and after each moment of its commands, and one each quarter of the timeout
    from there until it is over."""
    says = tomllib.loads(script)
    commands = [command for command in says.get("command", []) if command["do"] != "sync"]
    moments, quarter = sorted({command["at_ns"] for command in commands}), says.get("timeout_s", 240) * 10**9 // 4
    rows = [(moment + number * quarter, 0, "sync", {}) for moment in moments for number in range(5)]
    rows += [(command["at_ns"], 1, command["do"], command) for command in commands]
    rows += [(moment, 2, "sync", {}) for moment in moments]
    text = re.split(r"(?m)^\[\[command\]\]", script)[0]
    for moment, _, do, command in sorted(rows, key=lambda row: row[:2]):
        keys = {"at_ns": moment, "do": do} | command
        text += "".join(["[[command]]\n", *(f"{key} = {json.dumps(value)}\n" for key, value in keys.items())])
    return text


def packet_of_frame(frame, moment, vips):
    """The record of a frame, as tshark read it."""
    reason = reason_of_frame(frame, vips)
    if reason:
        return Packet(moment, None, 0, 0, 0, 0, reason)
    numbers = int(frame["seq"]), int(frame["ack"]), int(frame["tcplen"]), int(frame["flags"], 16)
    return Packet(moment, flow_of_frame(frame), *numbers)


def packets_of_facts(path, vips):
    """The records of a kept capture."""
    packets, moment = [], 0
    with open(path, newline="") as facts:
        for frame in csv.DictReader(facts, delimiter="\t"):
            moment = max(moment, int(frame["t_ns"]))
            packets.append(packet_of_frame(frame, moment, vips))
    return packets


def capture(packets, link=RAW_IP, unit=1, front=b"", began=0):
    """A capture of the packets that begins `began` nanoseconds after 1970. Each packet comes after the octets of a link layer, `front`;
    times are in units of `unit` nanoseconds."""
    magic = {1: 0xA1B23C4D, 1000: 0xA1B2C3D4}[unit]
    octets = bytearray(struct.pack("<IHHiIII", magic, 2, 4, 0, 0, 262144, link))
    for packet in packets:
        body = front + packet.octets()
        seconds, rest = divmod(began + packet.moment, 10**9)
        octets += struct.pack("<IIII", seconds, rest // unit, len(body), len(body)) + body
    return bytes(octets)


def write(path, content):
    with open(path, "wb") as file:
        file.write(content if isinstance(content, bytes) else content.encode())
    return path
