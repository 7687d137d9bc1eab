"""The connections of a replay, and what `beamer-connections` tells of them and of their stories, derived from the events that
`beamer replay` reports, by docs/FORMATS.md and docs/DEFINITIONS.md."""
import json, tomllib
from collections import Counter, defaultdict
from datetime import UTC, datetime
from lifetime import report_line
from rules import ACK, FIN, RST, SYN, endpoints, onward

SECOND = 10**9
# The names of the fields in their order.
NAMES = (
    "client,service,opened,opened_at,last,last_at,server,accepted,processed,forwarded,dropped,reset,stray,"
    "broken,broken_at,broken_by,verdict,cause,forward,forward_at,forward_by,forward_wait,"
    "refused,refused_at,refused_by,refused_verdict,refused_cause,rack,why,end,after_its_end,losing_data"
)
# The reasons against steering, in the order in which they are told.
REASONS = (
    "short-link,not-ipv4,short-ip,not-version-4,bad-header-length,bad-total-length,fragment,not-tcp,short-tcp,bad-offset,other-destination,"
    "too-long"
).split(",")
# How many moves ago a copy of each hop was sent to the server that had the bucket then.
HOPS = {"direct": 0, "chained": 1, "twice": 2}


def without_changes(script):
    """The text of a script without the commands that change the table, and without closes and retires of servers that they bring."""
    says = tomllib.loads(script)
    opening = says.get("servers", [1, 2])
    text = script.split("[[command]]")[0]
    for command in says.get("command", []):
        if command["do"] == "sync" or command["do"] in ("close", "retire") and command["server"] in opening:
            text += "[[command]]\n" + "".join(f"{key} = {json.dumps(value)}\n" for key, value in command.items())
    return text


class Connection:
    """What became of the packets of a flow."""

    def __init__(self, flow, number, packet):
        self.flow = flow
        self.first = self.last = number, packet.moment
        self.server = self.broken = self.forward = self.fault = self.why = None
        self.tally = Counter()
        self.gone = self.fin = self.data = self.closed = self.losing = False

    def see(self, number, packet):
        """Adds a record. Returns whether it concerns more than the farewell, so that data is lost if it isn't processed."""
        self.fin = not packet.opening() and (self.fin or bool(packet.flags & FIN))
        in_the_middle = not self.fin and not packet.opening() and not packet.flags & RST
        risky, self.data = packet.data > 0 or self.data or in_the_middle, packet.data > 0
        self.last = number, packet.moment
        return risky

    def refused(self):
        return self.fault if self.server is None else None

    def end(self):
        return "close" if self.closed else "rst" if self.gone else "fin" if self.fin else "open"

    def is_whole(self):
        return self.server is not None and not self.broken

    def go_on(self, e, packet, stray):
        """Notes whether an arrival, a stray or not, ends the connection or opens it anew. Returns whether it comes after the end."""
        over = self.gone and not packet.opening()
        ends = bool(packet.flags & RST) and e["verdict"] == "process ended" and not stray
        self.gone = ends or over
        return over

    def take(self, e, wait, packet, risky):
        """Adds an arrival; `wait` is how long ago the server to which it may be forwarded lost the bucket. Returns whether it is a break
        that counts."""
        verb = e["verdict"].split()[0]
        stray = verb == "process" and e["because"] is not None
        over = self.go_on(e, packet, stray)
        self.tally[verb] += 1
        self.tally["stray"] += stray
        if verb == "forward":
            self.forward = e["packet"], e["server"], e["clock"], wait
        fault = stray or verb in ("drop", "reset")
        self.tally["over"] += fault and over
        if fault and not over:
            self.fault = self.fault or e
            if self.server is not None:
                self.broken = self.broken or e
                self.losing = self.losing or risky
        if verb == "accept":
            self.server, self.closed = e["server"], False
        return fault and not over


class Table:
    """The connections of a replay, and what is counted and found beside them."""

    def __init__(self, fleet, packets, events):
        self.fleet, self.packets, self.events = fleet, packets, events
        self.found, self.risky, self.most, self.late, self.causes = {}, {}, Counter(), [], Counter()
        # the longest needs of changes, of third changes and of servers that retired: how long, and for which flow
        self.changes, self.thirds, self.retired = {}, {}, {}
        for number, packet in enumerate(packets, 1):
            if packet.steerable:
                connection = self.found.setdefault(packet.flow, Connection(packet.flow, number, packet))
                self.risky[number] = connection.see(number, packet)
        self.connections = list(self.found.values())
        self.play()

    def play(self):
        versions, owners, accepted, retired_at = {}, {}, {}, {}
        # what servers hold, and would hold if none retired: the place of the Accept of each flow
        held, kept = defaultdict(dict), defaultdict(dict)
        for place, e in enumerate(self.events):
            if e["what"] == "steer":
                versions[e["packet"]] = e["version"]
                owners[e["packet"]] = accepted.get(self.packets[e["packet"] - 1].flow)
            elif e["what"] == "arrive":
                flow = self.packets[e["packet"] - 1].flow
                wait, counts = self.arrive(e, flow, versions[e["packet"]])
                third = self.need(e, counts, flow, versions[e["packet"]], owners[e["packet"]], kept, retired_at)
                self.late += [wait] if counts and self.came_late(e, wait, third) else []
                for holds in (held, kept):
                    if e["verdict"] == "accept":
                        holds[e["server"]][flow] = place
                    elif e["verdict"] == "process ended":
                        holds[e["server"]].pop(flow, None)
                if e["verdict"] == "accept":
                    accepted[flow] = place, e["server"], versions[e["packet"]]
            elif e["what"] == "close" and e["closed"]:
                held[e["server"]].pop(e["flow"], None)
                kept[e["server"]].pop(e["flow"], None)
                if e["flow"] in self.found:
                    self.found[e["flow"]].closed = True
            elif e["what"] == "retire" and e["result"] == "done":
                retired_at.setdefault((e["server"], e["shard"]), e["at"])
                for flow in [flow for flow in held[e["server"]] if self.fleet.shard(flow) == e["shard"]]:
                    del held[e["server"]][flow]
            for server, flows in held.items():
                shards = Counter(map(self.fleet.shard, flows))
                self.most[server] = max(self.most[server], *shards.values(), 0)

    def arrive(self, e, flow, version):
        beyond = onward(self.fleet.entry(version, self.fleet.bucket(flow)), e["hop"])
        wait = max(0, e["clock"] - beyond[1]) if beyond else None
        counts = self.found[flow].take(e, wait, self.packets[e["packet"] - 1], self.risky[e["packet"]])
        self.causes[e["because"]] += counts
        return wait, counts

    def came_late(self, e, wait, third):
        """Whether a break that counts, with this third change or none, is one that a longer timeout mends: a packet that is refused."""
        late = e["because"] == "chain-late" or e["because"] == "moved-thrice" and third is None
        return late and e["verdict"].split()[0] in ("drop", "reset") and wait is not None and wait > self.fleet.timeout()

    def moves_of(self, flow, version):
        """The numbers of the changes up to this version that move the flow's bucket."""
        bucket = self.fleet.bucket(flow)
        return [number for number, (_, _, moves) in enumerate(self.fleet.changes[:version], 1) if bucket in moves]

    def away_since(self, flow, server, version):
        """The number of the last change up to this version that took the flow's bucket from the server, or None if there is none or the
        version gives it the bucket."""
        at = [self.fleet.server(before, self.fleet.bucket(flow)) for before in range(version + 1)]
        left = [number for number in self.moves_of(flow, version) if at[number - 1] == server]
        return left[-1] if left and at[version] != server else None

    def need(self, e, counts, flow, version, owner, kept, retired_at):
        """What an arrival needs: the server that a change took its bucket from; if it is a break that counts, a later third change, which is
        returned, or a server that has retired."""
        verb = e["verdict"].split()[0]
        if verb == "forward":
            number = self.moves_of(flow, version)[-1 - HOPS[e["hop"]]]
            self.longest(self.changes, number, e["clock"] - self.fleet.changes[number - 1][0], e, flow)
        third = None
        if counts and e["because"] == "moved-thrice":
            first = self.away_since(flow, owner[1], version)
            for number in [number for number in self.moves_of(flow, version) if first and number >= first][2:3]:
                late = max(0, self.found[flow].last[1] - self.fleet.changes[number - 1][0]) + 1
                self.longest(self.thirds, number, late, e, flow)
                third = number
        if counts and e["because"] == "not-held" and owner and kept[owner[1]].get(flow) == owner[0]:
            at = retired_at.get((owner[1], self.fleet.shard(flow)))
            if at is not None:
                self.longest(self.retired, owner[1], max(0, e["clock"] - at), e, flow)
        return third

    @staticmethod
    def longest(needs, number, time, e, flow):
        if number not in needs or needs[number][0] < time:
            needs[number] = time, e["clock"], flow

    def compare(self, base):
        """Says of each broken connection whether it is whole in the table of the base, and whether any is broken or refused that is."""
        for c, other in zip(self.connections, base.connections, strict=True):
            c.why = ("by-the-change" if other.is_whole() else "anyway") if c.broken else None
        self.fails = any((c.broken or c.refused()) and other.is_whole() for c, other in zip(self.connections, base.connections))

    def left_open(self):
        """For each change, the connections that are open at the end, and whose server it took the bucket from for good."""
        left = defaultdict(list)
        for c in self.connections:
            if c.is_whole() and c.end() == "open":
                left[self.away_since(c.flow, c.server, len(self.fleet.changes))].append(c)
        return [left[number] for number in range(1, len(self.fleet.changes) + 1)]

    def copies(self):
        """How many records look like copies, of how many that may."""
        before, copies, numbered = {}, 0, 0
        for p in self.packets:
            if p.steerable:
                last, before[p.flow] = before.get(p.flow), p
                numbered += p.len > 0
                same = last and (p.seq, p.ack, p.len, p.flags) == (last.seq, last.ack, last.len, last.flags)
                copies += bool(p.len > 0 and same and p.moment - last.moment <= 10**6)
        return copies, numbered


# TIMES


def seconds(ns):
    """Nanoseconds as seconds."""
    return f"{ns // SECOND}.{ns % SECOND:09}"


def time_of(moment, began):
    """A moment in seconds, or in UTC if it is known when the capture began."""
    if began is None:
        return seconds(moment)
    day = datetime.fromtimestamp((began + moment) // SECOND, UTC)
    return f"{day:%Y-%m-%dT%H:%M:%S}.{(began + moment) % SECOND:09}Z"


# LINES


def words_of(e, began):
    because = f" because {e['because']}" if e["because"] else ""
    return f"{e['packet']} {e['verdict']}{because} at {time_of(e['clock'], began)}"


def end_of(c, began):
    if c.broken:
        return f"broken {words_of(c.broken, began)} {c.why}{' losing-data' * c.losing}"
    if c.refused():
        return f"refused {words_of(c.refused(), began)}"
    return "unaccepted" if c.server is None else "whole"


def forward_of(c, began):
    if c.forward is None:
        return ""
    packet, server, clock, wait = c.forward
    return f"last-forward {packet} by {server} at {time_of(clock, began)} after {seconds(wait)} "


def rack_of(fleet, server):
    """The rack of a server, or None if there is no server, or only one rack."""
    return None if server is None or fleet.racks == 1 else fleet.rack(server)


def with_rack(fleet, server):
    """A server, and its rack if there is more than one."""
    rack = rack_of(fleet, server)
    return ("none" if server is None else f"{server}") + ("" if rack is None else f" rack {rack}")


def line_of(fleet, c, began):
    counts = " ".join(f"{word} {c.tally[verb]}" for word, verb in (("processed", "process"), ("forwarded", "forward"), ("dropped", "drop"), ("reset", "reset"), ("stray", "stray")))
    counts += f" after-its-end {c.tally['over']} end {c.end()}"
    seen = f"opened {c.first[0]} at {time_of(c.first[1], began)} last {c.last[0]} at {time_of(c.last[1], began)}"
    return f"connection {' '.join(endpoints(c.flow))} {seen} accepted {with_rack(fleet, c.server)} times {c.tally['accept']} {counts} {forward_of(c, began)}{end_of(c, began)}"


def answer_line(table):
    connections = table.connections
    counts = {
        "connections": len(connections),
        "broken": sum(c.broken is not None for c in connections),
        "by-the-change": sum(c.why == "by-the-change" for c in connections),
        "losing-data": sum(c.losing for c in connections),
        "refused": sum(c.refused() is not None for c in connections),
        "open-at-end": sum(map(len, table.left_open())),
    }
    timeout = {"timeout_s": -(-max(table.late) // SECOND)} if table.late else {}
    return " ".join(["answer", *(f"{word} {count}" for word, count in (counts | timeout).items())])


def server_lines(table):
    fleet = table.fleet
    arrivals = [e for e in table.events if e["what"] == "arrive"]
    count = lambda server, verb: sum(e["server"] == server and e["verdict"].split()[0] == verb for e in arrivals)
    for s in servers_of(fleet):
        yield f"server {with_rack(fleet, s)} accepted {count(s, 'accept')} processed {count(s, 'process')} most-held {table.most[s]} of {fleet.capacity}"


def servers_of(fleet):
    return fleet.servers + [words[1] for _, words, _ in fleet.changes if words[0] == "add"]


def owns(fleet, version):
    """The servers that have buckets in the table of a version, and how many."""
    counts = Counter(fleet.server(version, bucket) for bucket in range(fleet.buckets))
    return " ".join(f"{server}:{counts[server]}" for server in sorted(counts))


def homeward(fleet, version, moves):
    """How many moves of the change that makes this version bring a bucket home to its rack."""
    return sum(fleet.rack(fleet.server(version - 1, bucket)) != bucket % fleet.racks for bucket in moves)


def change_lines(fleet, began):
    for version, (moment, words, moves) in enumerate(fleet.changes, 1):
        said = " ".join(map(str, words[:2] if words[0] == "add" else words))
        home = homeward(fleet, version, moves)
        home = f" home {home}" if fleet.racks > 1 and home else ""
        yield f"change {version} at {time_of(moment, began)} {said} buckets {len(moves)} of {fleet.buckets}{home} owns {owns(fleet, version)}"


def need_words(need, began):
    time, clock, flow = need
    until = f" until {time_of(clock, began)}" if began is not None else ""
    return f"for {seconds(time)} by {endpoints(flow)[0]}{until}"


def left_lines(table):
    end = table.packets[-1].moment if table.packets else 0
    for version, left in enumerate(table.left_open(), 1):
        if left:
            yield f"open-at-end change {version} connections {len(left)} longest-idle {seconds(max(end - c.last[1] for c in left))}"


def third_lines(table):
    for third, (time, _, flow) in sorted(table.thirds.items()):
        first, second = table.moves_of(flow, third - 1)[-2:]
        yield f"moved-thrice changes {first} {second} {third} by {seconds(time)} for {endpoints(flow)[0]}"


def after_lines(table):
    after = [c.tally["over"] for c in table.connections if c.tally["over"]]
    if after:
        yield f"after-its-end packets {sum(after)} connections {len(after)}"


def unsteered_lines(table):
    counts = Counter(p.reason for p in table.packets if not p.steerable)
    if counts:
        yield " ".join(["unsteered", str(counts.total()), *(f"{reason} {counts[reason]}" for reason in REASONS if counts[reason])])


def replies(events, began):
    """What servers replied to closes, and their first shards to retirements; the other shards have to reply the same."""
    first = None
    for e in events:
        if e["what"] == "close":
            yield f"close {e['server']} {' '.join(endpoints(e['flow']))} at {time_of(e['clock'], began)} {'closed' if e['closed'] else 'none'}"
        elif e["what"] == "retire" and e["shard"] == 0:
            first = e
            yield f"retire {e['server']} at {time_of(e['at'], began)} {e['result']}"
        elif e["what"] == "retire" and e["result"] != first["result"]:
            yield f"shard {e['shard']} of server {e['server']} replies {e['result']}"


def advice_lines(table, causes, texts):
    fleet, packets = table.fleet, table.packets
    for cause in causes:
        yield f"advice {cause}: {texts[cause]}"
    if any(table.left_open()):
        yield f"advice open-at-end: {texts['open-at-end']}"
    copies, numbered = table.copies()
    if numbered // 10 < copies:
        yield f"advice copies: {copies} of {numbered} {texts['copies']}"
    if not table.connections:
        yield f"advice nothing-steered: {texts['nothing-steered']}"
    end = max((packet.moment for packet in packets), default=-1)
    if fleet.changes and end < fleet.changes[-1][0]:
        yield f"advice change-after-the-end: {texts['change-after-the-end']}"
    moved = [moment for moment, _, moves in fleet.changes if moves]
    if moved and moved[-1] <= end < moved[-1] + fleet.timeout():
        yield f"advice timeout-after-the-end: {texts['timeout-after-the-end']}"


def lines(table, texts, began, cut):
    """All lines; `texts` has the advice by its word."""
    fleet, connections = table.fleet, table.connections
    causes = [cause for cause in texts if table.causes[cause]]
    yield answer_line(table)
    yield from (line_of(fleet, c, began) for c in connections)
    yield from server_lines(table)
    yield from change_lines(fleet, began)
    yield report_line(fleet, [c.last[1] - c.first[1] for c in connections])
    for number, need in sorted(table.changes.items()):
        yield f"needed change {number} {need_words(need, began)}"
    yield from left_lines(table)
    yield from replies(table.events, began)
    for server in servers_of(fleet):
        if server in table.retired:
            yield f"needed retire {server} {need_words(table.retired[server], began)}"
    for cause in causes:
        by_cause = lambda fault: fault is not None and fault["because"] == cause
        broken, refused = sum(by_cause(c.broken) for c in connections), sum(by_cause(c.refused()) for c in connections)
        yield f"cause {cause} packets {table.causes[cause]} broken {broken} refused {refused}"
    if table.late:
        yield f"chain-late longest {seconds(max(table.late))} timeout_s {-(-max(table.late) // SECOND)}"
    yield from third_lines(table)
    yield from after_lines(table)
    yield from unsteered_lines(table)
    if cut:
        yield f"note record {len(table.packets) + 1} cut short"
    yield from advice_lines(table, causes, texts)


# STORIES


def is_told(table, e, flow):
    """Whether an event is of a packet of the flow, a close of it, or of a change that moves its bucket."""
    if "packet" in e:
        return table.packets[e["packet"] - 1].flow == flow
    if e["what"] == "close":
        return e["flow"] == flow
    return e["what"] in ("publish", "switch") and e["version"] in table.moves_of(flow, e["version"])


def packet_words(packet):
    words = [word for word, flag in (("SYN", SYN), ("FIN", FIN), ("RST", RST), ("ACK", ACK)) if packet.flags & flag]
    return " ".join(["flags", *words, "length", str(packet.len)])


def story_lines(table, report, flow, began):
    """A line for each event of a flow's story, with the line of the report on it."""
    texts = [text for text in report.splitlines() if text[:1].isdigit()]
    for e, text in zip(table.events, texts, strict=True):
        if is_told(table, e, flow):
            words = [packet_words(table.packets[e["packet"] - 1])] if "packet" in e else []
            yield " ".join(["story", time_of(e["clock"], began), *words, text])


# FIELDS AND JSON


def break_or_null(e, began):
    return e and {"packet": e["packet"], "at_ns": e["clock"] + began, "server": e["server"], "verdict": e["verdict"].split()[0], "cause": e["because"]}


def value_of(fleet, c, began):
    """The JSON of a connection, whose moments count from `began` nanoseconds before record 1."""
    client, service = endpoints(c.flow)
    forward = c.forward and dict(zip(("packet", "server", "at_ns", "wait_ns"), c.forward))
    if forward:
        forward["at_ns"] += began
    sight = lambda number, moment: {"packet": number, "at_ns": moment + began}
    verbs = {"accepted": "accept", "processed": "process", "forwarded": "forward", "dropped": "drop", "reset": "reset", "stray": "stray", "after_its_end": "over"}
    return {
        "client": client,
        "service": service,
        "opened": sight(*c.first),
        "last": sight(*c.last),
        "server": c.server,
        "rack": rack_of(fleet, c.server),
        "arrivals": {word: c.tally[verb] for word, verb in verbs.items()},
        "broken": break_or_null(c.broken, began),
        "refused": break_or_null(c.refused(), began),
        "forward": forward,
        "outcome": {"end": c.end(), "losing_data": c.losing, "why": c.why},
    }


def fields_of(fleet, c, began):
    """The fields of a connection by name."""
    v = value_of(fleet, c, 0)
    told = lambda e: e and {key: time_of(n, began) if key == "at_ns" else seconds(n) if key == "wait_ns" else n for key, n in e.items()}
    v |= {key: told(v[key]) for key in ("opened", "last", "broken", "refused", "forward")}
    fault = lambda e, names: dict(zip(names, [e[key] for key in ("packet", "at_ns", "server", "verdict", "cause")] if e else [""] * 5))
    forward = v["forward"] or dict.fromkeys(("packet", "server", "at_ns", "wait_ns"), "")
    row = {key: v[key] for key in ("client", "service", "server", "rack")} | v["arrivals"]
    row |= {"opened": v["opened"]["packet"], "opened_at": v["opened"]["at_ns"], "last": v["last"]["packet"], "last_at": v["last"]["at_ns"]}
    row |= fault(v["broken"], ("broken", "broken_at", "broken_by", "verdict", "cause"))
    row |= fault(v["refused"], ("refused", "refused_at", "refused_by", "refused_verdict", "refused_cause"))
    row |= {"forward": forward["packet"], "forward_at": forward["at_ns"], "forward_by": forward["server"], "forward_wait": forward["wait_ns"]}
    row |= {"why": c.why, "end": c.end(), "losing_data": "losing-data" if c.losing else ""}
    return {name: "" if value is None else str(value) for name, value in row.items()}


def json_line(value):
    """An object on a line, without spaces, its members sorted by name."""
    return json.dumps(value, sort_keys=True, separators=(",", ":")) + "\n"


def row_of(fleet, c, began):
    """The fields of a connection, in order."""
    fields = fields_of(fleet, c, began)
    return ",".join(fields[name] for name in NAMES.split(","))
