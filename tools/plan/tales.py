"""The stories of some clients' connections in words, for a terminal, and as JSON."""
import json
from plan.answers import Judge
from plan.engine import Connection
from plan.moments import clock_text, seconds
from plan.scripts import words_of
from plan.stories import Stories
from plan.text import CAUSES, changes_json, connection_json, of_changes, of_traffic, search_json, search_lines, traffic_json

# What stands for a segment with no other flag than this.
PLAIN = "ACK"
# The most lines that are told of a connection.
MOST_STEPS = 30
VERDICTS = {"forward": "forwards it to server", "reset": "resets it", "drop": "drops it"}


class Tales(Judge):
    """The stories of some clients by a script. `broken` has those of their connections that the changes break or have refused."""

    def __init__(self, engine, script, traffic, zero, clients):
        super().__init__(engine, script)
        self.traffic, self.zero, self.replay = traffic, zero, engine.replay(script)
        self.tales = [Tale(text, script, traffic.begin - zero) for text in Stories(self, [], clients).texts.values()]
        told = {it.connection.flow for it in self.tales}
        self.broken = [it for it in self.by_the_change(self.replay) if it.flow in told]
        for tale in self.tales:
            tale.is_by_the_change = tale.connection.flow in {it.flow for it in self.broken}


class Tale:
    """One connection's story. `lines` are those of the program, and `steps` says them in words. The captures begin at `begin`."""

    def __init__(self, text, script, begin):
        first, *self.lines = text.splitlines()
        self.connection, self.changes, self.begin = Connection(first), script.changes, begin
        self.has_muxes = script.fleet.get("muxes", 1) != 1
        self.steps = joined(self.each())

    def each(self):
        """A step for each packet and for each other event, in the order in which they begin."""
        found = {}
        for number, line in enumerate(self.lines):
            time, segment, event = parts_of(line)
            of_packet = event[0] in ("steer", "arrive", "lost")
            key = event[1] if of_packet else -number
            step = found.setdefault(key, Step(time, self.segment(time, segment) if of_packet else ""))
            step.words += self.words_of(event)
        return [step for step in found.values() if step.words]

    def segment(self, time, segment):
        return "SYN, given" if segment == "SYN" and time < self.begin else segment

    def words_of(self, event):
        """An event in words, or nothing where it goes without saying."""
        match event:
            case ["steer", *_]:
                return []
            case ["switch", mux, number]:
                return [f"mux {mux} begins to use change {number}"] if self.has_muxes else []
            case ["publish", number]:
                return [f"change {number}, {words_of(self.changes[int(number) - 1])}, moves its bucket"]
            case ["arrive", _, _, server, *verdict]:
                return [f"server {server} {verdict_words(*verdict)}"]
            case ["lost", *_]:
                return ["a copy of it is lost"]
        return [" ".join(event)]


def parts_of(line):
    """The time of a story's line, what its packet is, and the words of its event."""
    _, time, *words = line.split(" ")
    if words[0] != "flags":
        return seconds(time), "", words[1:]
    place = words.index("length")
    flags, length = " ".join(words[1:place]), int(words[place + 1])
    return seconds(time), f"{length} octets" if flags == PLAIN and length else flags, words[place + 3 :]


def verdict_words(verdict, *rest):
    """What a server does with a packet, and the cause where it has one."""
    cause = f": {rest[-1]}" if "because" in rest else ""
    if verdict == "accept":
        return f"accepts the connection{cause}"
    if verdict == "process":
        return f"processes it{'' if rest[0] == 'advance' else f' ({rest[0]})'}{cause}"
    return VERDICTS[verdict] + (f" {rest[0]}" if verdict == "forward" else cause)


class Step:
    """What becomes of a packet, or of several in a row that fare alike."""

    def __init__(self, time, segment):
        self.time, self.last, self.segment, self.words, self.count = time, time, segment, [], 1

    def takes(self, other):
        """Whether the other one, which comes next, fares alike. What opens or ends a connection has a line of its own."""
        are_plain = all(it.segment == PLAIN or it.segment.endswith(" octets") for it in (self, other))
        return are_plain and self.words == other.words


def joined(steps):
    found = []
    for step in steps:
        if found and found[-1].takes(step):
            found[-1].count += 1
            found[-1].last = step.time
        else:
            found.append(step)
    return found


# TEXT AND JSON


def told_steps(tale, zero):
    """A line for each step, and of very many the first and the last."""
    steps = [(clock_text(zero + it.time, 3), f"{it.count} packets" if it.count > 1 else it.segment, until(it, zero)) for it in tale.steps]
    width = max((len(segment) for _, segment, _ in steps), default=0)
    lines = [f"  {time}  {segment.ljust(width)}  {words}" for time, segment, words in steps]
    if len(lines) <= MOST_STEPS:
        return lines
    half = MOST_STEPS // 2
    return [*lines[:half], f"  .. {len(lines) - 2 * half:,} more (--json has all)", *lines[-half:]]


def until(step, zero):
    words, first, last = "; ".join(step.words), clock_text(zero + step.time, 3), clock_text(zero + step.last, 3)
    return f"{words}, until {last}" if last != first else words


def outcome(tale, zero):
    """What becomes of a connection."""
    it = tale.connection
    if not it.cause:
        return "nothing breaks it" if it.server is not None else "no server accepts it"
    by = "by the change" if tale.is_by_the_change else "without the change too"
    losing = ", and loses data" if it.is_losing_data else ""
    return f"{'breaks' if it.is_broken else 'is refused'} at {clock_text(zero + it.at, 3)}, {by}{losing}"


def tale_lines(tale, zero):
    it = tale.connection
    yield f"{it.client} to {it.service}: {outcome(tale, zero)}"
    yield from told_steps(tale, zero)
    if it.cause:
        yield f"  {it.cause}: {CAUSES[it.cause]}"


def tales_lines(paths, tales, search=None):
    yield from of_traffic(paths, tales.traffic)
    yield ""
    if search:
        yield from search_lines(search)
        yield ""
    yield from of_changes(tales)
    for tale in tales.tales:
        yield ""
        yield from tale_lines(tale, tales.zero)


def tales_json(paths, tales, search=None):
    """The stories as a JSON object, with the program's own lines."""
    found = {"search": search_json(search)} if search else {}
    told = [
        connection_json(tales, it.connection) | {"is_by_the_change": it.is_by_the_change, "lines": it.lines} for it in tales.tales
    ]
    head = {"timeout_s": tales.script.timeout_s, "changes": changes_json(tales)}
    return json.dumps(traffic_json(paths, tales.traffic) | found | head | {"stories": told})
