"""The rules of docs/DEFINITIONS.md, docs/FORMATS.md and docs/OPERATING.md that the tests share, each written once and plainly: hashes,
records, fleets with their plans, receivers, verdicts, causes and retirements. Nothing here knows which event comes when."""
import struct

SYN, FIN, RST, ACK = 2, 1, 4, 16
M32, WINDOW = 2**32, 65535


# FLOWS


def fnv(octets):
    """FNV-1a of 64 bits."""
    number = 0xCBF29CE484222325
    for octet in octets:
        number = (number ^ octet) * 0x100000001B3 % 2**64
    return number


def hash_of(flow):
    """FNV-1a of a flow: source and destination address, source and destination port, and 6."""
    return fnv(struct.pack("!IIHHB", *flow, 6))


def dotted(address):
    return ".".join(str(address >> shift & 255) for shift in (24, 16, 8, 0))


def endpoints(flow):
    return f"{dotted(flow[0])}:{flow[2]}", f"{dotted(flow[1])}:{flow[3]}"


def endpoint(text):
    """The address and the port."""
    address, _, port = text.rpartition(":")
    return int.from_bytes(bytes(map(int, address.split("."))), "big"), int(port)


def flow_between(client, service):
    """The flow of two endpoints, as a script and a report name it."""
    (source, sport), (destination, dport) = endpoint(client), endpoint(service)
    return source, destination, sport, dport


# RECORDS


class Packet:
    """A record: its moment, and its segment, or the reason why it isn't steered."""

    def __init__(self, moment, flow, seq, ack, length, flags, reason=None):
        self.moment, self.flow, self.seq, self.ack, self.flags = moment, flow, seq, ack, flags
        self.data, self.reason = length, reason
        self.len = length + (flags >> 1 & 1) + (flags & 1)

    @property
    def steerable(self):
        return self.reason is None

    def opening(self):
        return self.flags & SYN and not self.flags & (ACK | RST | FIN)

    def octets(self):
        """A packet of IPv4 with this segment; its checksums are wrong."""
        tcp = struct.pack("!HHIIBBHHH", self.flow[2], self.flow[3], self.seq, self.ack, 0x50, self.flags, WINDOW, 0, 0)
        header = struct.pack("!BBHHHBBHII", 0x45, 0, 40 + self.data, 0, 0x4000, 64, 6, 0, self.flow[0], self.flow[1])
        return header + tcp + b"a" * self.data


def reason_of_frame(frame, services):
    """Why a frame, as tshark read it, isn't steered to the services, or None."""
    if "ip" not in frame["protos"].split(":") or not frame["src"]:
        return "not-ipv4"
    if frame["frag"] not in ("", "0"):
        return "fragment"
    if frame["proto"] != "6":
        return "not-tcp"
    if f"{frame['dst']}:{frame['dport']}" not in services:
        return "other-destination"
    return None


def flow_of_frame(frame):
    return flow_between(f"{frame['src']}:{frame['sport']}", f"{frame['dst']}:{frame['dport']}")


# THE FLEET

MOST_CHANGES, MOST_MOVES = 4096, 1_000_000
DEFAULTS = {
    "version": 1,
    "buckets": 8,
    "servers": [1, 2],
    "racks": 1,
    "muxes": 1,
    "shards": 4,
    "capacity": 4096,
    "timeout_s": 240,
    "vips": ["192.0.2.1:80"],
    "route": "port",
}


class Fleet:
    """A setting, and the plan and commands that its script makes. A command is ("change", at, version), ("close", at, server, flow),
    ("retire", at, server) or ("sync", at). A change is its moment, the words that made it, and the new server of each bucket that moves."""

    def __init__(self, setting):
        says = DEFAULTS | setting
        self.buckets, self.servers, self.racks, self.muxes = says["buckets"], says["servers"], says["racks"], says["muxes"]
        self.shards, self.capacity, self.timeout_s = says["shards"], says["capacity"], says["timeout_s"]
        self.vips, self.route = says["vips"], says["route"]
        self.lags = says.get("lags_ns", [0] * self.muxes)
        self.faults, self.commands, self.changes = [], [], []
        self.version = says["version"]
        # the weight of each active server
        self.active, self.known = dict(zip(self.servers, says.get("weights", [1] * len(self.servers)))), set(self.servers)

    def timeout(self):
        return self.timeout_s * 10**9

    def bucket(self, flow):
        return hash_of(flow) % self.buckets

    def shard(self, flow):
        return hash_of(flow) // 2**32 % self.shards

    def mux(self, number, flow):
        return (flow[2] if self.route == "port" else number) % self.muxes

    def fate(self, packet, hop):
        """How many copies a sending has, and how late they are."""
        return next((row[2:] for row in self.faults if row[:2] == (packet, hop)), (1, 0))

    # TABLES

    def server(self, version, bucket):
        moves = next((moves for _, _, moves in reversed(self.changes[:version]) if bucket in moves), None)
        return moves[bucket] if moves else self.servers[bucket % len(self.servers)]

    def entry(self, version, bucket):
        """The servers of a bucket at a version: the one that has it, without a moment, and the last two that had it before, each with
        the moment at which it lost it."""
        servers = [(self.server(version, bucket), None)]
        for number in range(version, 0, -1):
            moment, _, moves = self.changes[number - 1]
            if bucket in moves and len(servers) <= 2:
                servers.append((self.server(number - 1, bucket), moment))
        return servers

    def moves_between(self, bucket, low, high):
        return sum(bucket in moves for _, _, moves in self.changes[low:high])

    def retirement(self, published, server, at):
        """The reply to a command to retire the server at this moment, when this many changes are published."""
        changes = self.changes[:published]
        if not any(words == ("drain", server) for _, words, _ in changes):
            return "not-drained"
        late = [
            bucket
            for number, (moment, _, moves) in enumerate(changes)
            for bucket in moves
            if self.server(number, bucket) == server and moment + self.timeout() >= at
        ]
        return f"too-early {min(late)}" if late else "done"

    # THE CONTROLLER

    def rack(self, server):
        return (server - 1) % self.racks

    def quotas(self, count, active):
        """How many of this many buckets each server is to own by its weight: whole shares, and one more for the largest remainders, of
        equal ones for the lowest numbers."""
        whole = sum(active.values())
        quotas = {server: count * weight // whole for server, weight in active.items()}
        order = sorted(active, key=lambda server: (-(count * active[server] % whole), server))
        for server in order[: count - sum(quotas.values())]:
            quotas[server] += 1
        return quotas

    def rebalance(self, active):
        """The moves that bring each active server to its quota of the buckets of its rack, in rising order. A bucket's rack is its number
        modulo the racks."""
        moves = {}
        for rack in range(self.racks):
            within = {server: weight for server, weight in active.items() if self.rack(server) == rack}
            moves |= self.rebalance_rack(range(rack, self.buckets, self.racks), within)
        return dict(sorted(moves.items()))

    def rebalance_rack(self, buckets, active):
        """The moves within a rack: servers give their highest buckets, and the first servers are filled first. A server of another rack
        gives all that it has of these buckets."""
        owners, quotas = {b: self.server(len(self.changes), b) for b in buckets}, self.quotas(len(buckets), active)
        owned = {}
        for bucket, server in owners.items():
            owned.setdefault(server, []).append(bucket)
        given = [bucket for server, own in owned.items() for bucket in own[quotas.get(server, 0) :]]
        takers = [s for s in sorted(active) for _ in range(quotas[s] - min(quotas[s], len(owned.get(s, []))))]
        return dict(zip(sorted(given), takers))

    def change(self, at, words, moves):
        """Puts a change into the plan, or returns the limit that it would pass."""
        if len(self.changes) == MOST_CHANGES:
            return "limit changes"
        if sum(len(of) for _, _, of in self.changes) + len(moves) > MOST_MOVES:
            return "limit moves"
        self.changes.append((at, words, moves))
        self.commands.append(("change", at, len(self.changes)))
        return None

    def command(self, at, words):
        """Carries out a command in the plan, or returns why it is refused."""
        do = words[0]
        if do in ("add", "drain", "weight"):
            server = words[1]
            if do == "add" and server in self.known:
                return "known server"
            if do != "add" and server not in self.known:
                return "unknown server"
            if do != "add" and server not in self.active:
                return "not active"
            if do == "drain" and len(self.active) == 1:
                return "last server"
            if do == "drain" and not any(self.rack(other) == self.rack(server) for other in self.active if other != server):
                return "last in rack"
            active = {s: weight for s, weight in self.active.items() if s != server}
            if do != "drain":
                active[server] = words[2] if words[2:] else 1
            moves = self.rebalance(active)
            self.active = active
            self.known.add(server)
            return self.change(at, words, moves)
        elif do == "move":
            bucket, server = words[1:]
            if bucket >= self.buckets:
                return "bad bucket"
            if server not in self.known:
                return "unknown server"
            if server not in self.active:
                return "not active"
            if self.rack(server) != bucket % self.racks:
                return "wrong rack"
            if self.server(len(self.changes), bucket) == server:
                return "same server"
            return self.change(at, words, {bucket: server})
        elif do == "sync":
            self.commands.append(("sync", at))
        else:
            if words[1] not in self.known:
                return "unknown server"
            self.commands.append((do, at) + tuple(words[1:]))
        return None


def words_of(command):
    """The words of a command table of a script: what it does, and to what."""
    if command["do"] == "close":
        return "close", command["server"], flow_between(command["from"], command["to"])
    return command["do"], *(command[key] for key in ("bucket", "server", "weight") if key in command)


# RECEIVERS


def ahead(a, b):
    return (a - b) % M32


def acceptable(receiver, packet):
    if packet.len == 0:
        return ahead(packet.seq, receiver["next"]) < WINDOW
    return ahead(packet.seq, receiver["next"]) < WINDOW or ahead(packet.seq + packet.len - 1, receiver["next"]) < WINDOW


def taken(receiver, packet):
    if packet.opening():
        return "duplicate" if packet.seq == receiver["start"] else "challenge"
    if packet.flags & RST:
        if ahead(packet.seq, receiver["next"]) >= WINDOW:
            return "outside"
        return "ended" if packet.seq == receiver["next"] else "challenge"
    if packet.flags & SYN:
        return "challenge"
    if not acceptable(receiver, packet):
        return "duplicate" if ahead(receiver["next"], packet.seq + packet.len) < 2**31 else "outside"
    if ahead(receiver["next"], packet.seq) < packet.len or (packet.len == 0 and packet.seq == receiver["next"]):
        return "advance"
    return "ahead"


def opened(packet):
    """The receiver of a connection that the packet opens."""
    return {"start": packet.seq, "next": (packet.seq + packet.len) % M32, "finished": False}


def after(receiver, verdict, packet):
    """The receiver of a held connection after it processed the packet, or None if that ended it."""
    if verdict == "process ended":
        return None
    if verdict != "process advance":
        return receiver
    return receiver | {
        "next": (packet.seq + packet.len) % M32,
        "finished": receiver["finished"] or bool(packet.flags & FIN),
    }


# HOPS

# The hops of copies that weren't forwarded, were forwarded once, and were forwarded twice.
HOPS = ["direct", "chained", "twice"]


def next_hop(hop):
    return HOPS[HOPS.index(hop) + 1]


def arrives_at(entry, hop):
    """The server of an entry at which a copy of this hop arrives."""
    return entry[HOPS.index(hop)][0]


def onward(entry, hop):
    """The server of an entry to which a copy of this hop may be forwarded, and the moment at which that server lost the bucket;
    or None."""
    return next(iter(entry[HOPS.index(hop) + 1 :]), None)


# VERDICTS AND CAUSES


def verdict_of(retired, receiver, full, timeout, clock, hop, entry, packet):
    """The verdict by the first row of the table of verdicts that applies. `retired` and `full` say whether the shard is; `receiver` is
    that of the flow, or None if the shard doesn't hold it."""
    if retired:
        return "drop retired"
    if receiver:
        if receiver["finished"] and hop == "direct" and packet.opening() and packet.seq != receiver["start"]:
            return "accept"
        return "process " + taken(receiver, packet)
    if hop == "direct" and packet.opening():
        return "drop full" if full else "accept"
    to, lost_at = onward(entry, hop) or (None, None)
    if to and clock <= lost_at + timeout:
        return f"forward {to}"
    if packet.flags & RST:
        return "drop silent"
    return "reset " + ("chain-expired" if to else "no-previous" if hop == "direct" else "chained-unknown")


def needs_cause(verdict, server, owner, packet):
    """Whether the arrival is a drop, a reset or a stray; `owner` is the owner's server, or None if there is no owner."""
    stray = verdict.startswith("process") and server != owner and not packet.opening()
    return stray or verdict.startswith(("drop", "reset"))


def cause_of_opening(verdict):
    return {"drop full": "full", "drop retired": "old-table"}[verdict]


def first_broken(fleet, packet, version, hop, server, clock, owner, holds, elsewhere):
    """The first broken premise, or None, for a copy of this hop that arrives at a server, of a packet that opens no connection and was
    steered with this version. `owner` is a server and the version of the packet that it accepted, or None; `holds` says whether it still
    holds what it accepted, and `elsewhere` whether another server holds the flow."""
    bucket = fleet.bucket(packet.flow)
    if owner is None:
        return "never-accepted"
    if not holds:
        return "not-held"
    if version < owner[1]:
        return "stale-mux"
    if fleet.moves_between(bucket, owner[1], version) >= 3:
        return "moved-thrice"
    beyond = onward(fleet.entry(version, bucket), hop)
    if server != owner[0] and beyond and clock > beyond[1] + fleet.timeout():
        return "chain-late"
    return "syn-elsewhere" if elsewhere else None
