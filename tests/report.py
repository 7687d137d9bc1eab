"""Turns events into the lines of a report, by docs/FORMATS.md, and back. An event is a dictionary with its clock and what it is."""
import re
from rules import endpoints, flow_between

ENDS = {"accept": "accepted", "process": "processed", "reset": "reset", "drop": "dropped"}
TOTALS = "packets steered unsteered accepted processed forwarded reset dropped lost stray".split()
# the fields of each event whose words are all fields; all but TEXTS are numbers
FIELDS = {
    "publish": ["version"],
    "switch": ["mux", "version"],
    "steer": ["packet", "mux", "version", "bucket"],
    "lost": ["packet", "hop"],
    "sync": [],
}
TEXTS = ("hop",)
# the possible words of each field that isn't a number
WORDS = {
    "hop": "direct|chained|twice",
    "verdict": r"accept|process (advance|duplicate|ahead|outside|challenge|ended)|forward (0|[1-9]\d*)"
    "|reset (no-previous|chain-expired|chained-unknown)|drop (silent|full|retired)",
    "because": "never-accepted|not-held|stale-mux|moved-thrice|chain-late|syn-elsewhere|full|old-table",
    "result": r"done|not-drained|too-early (0|[1-9]\d*)",
}
# how many bits the number in a field has
BITS = {"clock": 64, "at": 64, "version": 32, "packet": 32, "bucket": 32, "mux": 16, "server": 16, "shard": 16, "verdict": 16, "result": 32}
PORT_BITS = 16
# The kinds that many random stages have to have, as `kinds_of` names them.
KINDS = {"publish", "switch", "steer", "lost direct", "lost chained", "close closed", "close none", "sync"}
KINDS |= {"retire done", "retire not-drained", "retire too-early", *WORDS["because"].split("|")}
KINDS |= {f"arrive direct {words}" for words in ("accept", "process", "forward", "reset no-previous", "reset chain-expired", "drop")}
KINDS |= {f"arrive chained {words}" for words in ("process", "forward", "reset chain-expired", "reset chained-unknown", "drop")}
KINDS |= {f"arrive twice {words}" for words in ("process", "reset chained-unknown", "drop")}


def line(e):
    """The line of an event."""
    what = e["what"]
    if what in FIELDS:
        words = [e[field] for field in FIELDS[what]]
    elif what == "arrive":
        words = [e["packet"], e["hop"], e["server"], e["verdict"]]
        words += ["because", e["because"]] if e["because"] else []
    elif what == "close":
        words = [e["server"], *endpoints(e["flow"]), "closed" if e["closed"] else "none"]
    else:
        words = [e["server"], e["shard"], "at", e["at"], e["result"]]
    return " ".join(map(str, [e["clock"], what] + words))


def number(word):
    if not word.isdecimal():
        raise ValueError(f"no number: {word}")
    return int(word)


def number_in(value):
    """The number that a field is, or that its last word is; 0 if there is none."""
    last = str(value).split(" ")[-1]
    return int(last) if last.isdecimal() else 0


def fits(e):
    """Whether no number of an event has more bits than its field."""
    ports = e["flow"][2:] if "flow" in e else ()
    fields = all(number_in(e[field]) < 2**bits for field, bits in BITS.items() if field in e)
    return fields and all(0 <= port < 2**PORT_BITS for port in ports)


def event(text):
    """The event of a line; ValueError if it isn't one."""
    clock, what, *words = text.split(" ")
    e = {"clock": number(clock), "what": what}
    if what in FIELDS:
        e |= {field: word if field in TEXTS else number(word) for field, word in zip(FIELDS[what], words, strict=True)}
    elif what == "arrive":
        packet, hop, server, *rest = words
        verdict, _, because = " ".join(rest).partition(" because ")
        e |= {"packet": number(packet), "hop": hop, "server": number(server), "verdict": verdict, "because": because or None}
    elif what == "close":
        server, client, service, closed = words
        e |= {"server": number(server), "flow": flow_between(client, service), "closed": closed == "closed"}
    elif what == "retire":
        server, shard, _, at, *result = words
        e |= {"server": number(server), "shard": number(shard), "at": number(at), "result": " ".join(result)}
    known = all(re.fullmatch(words, e[key], re.A) for key, words in WORDS.items() if e.get(key) is not None)
    if what not in (*FIELDS, "arrive", "close", "retire") or not known or not fits(e) or line(e) != text:
        raise ValueError(f"no line of an event: {text}")
    return e


def kinds_of(events):
    """For each event its first word, with a copy's hop and the first word of its verdict (for a reset also the reason), or with the
    reply; and its cause, if any."""
    for e in events:
        verdict = e.get("verdict", "")
        words = e.get("hop"), verdict if verdict.startswith("reset") else verdict.split(" ")[0], e.get("result", "").split(" ")[0]
        if e["what"] == "close":
            words = ["closed" if e["closed"] else "none"]
        yield " ".join([e["what"], *filter(None, words)])
        if e.get("because"):
            yield e["because"]


def ends_of(packets, events):
    """The lines of the records."""
    words = {n: [] if p.steerable else [f"unsteered {p.reason}"] for n, p in enumerate(packets, 1)}
    for e in events:
        if e["what"] == "lost":
            words[e["packet"]].append("lost")
        elif e["what"] == "arrive" and not e["verdict"].startswith("forward"):
            words[e["packet"]].append(f"{ENDS[e['verdict'].split()[0]]} {e['server']}")
    return [" ".join([f"packet {n}"] + ends) for n, ends in words.items()]


def totals_of(packets, events):
    """The last line."""
    arrivals = [e for e in events if e["what"] == "arrive"]
    count = lambda verb: sum(e["verdict"].split()[0] == verb for e in arrivals)
    strays = sum(e["verdict"].startswith("process") and e["because"] is not None for e in arrivals)
    steered = sum(p.steerable for p in packets)
    totals = [len(packets), steered, len(packets) - steered, count("accept"), count("process"), count("forward")]
    totals += [count("reset"), count("drop"), sum(e["what"] == "lost" for e in events), strays]
    return "total " + " ".join(f"{name} {total}" for name, total in zip(TOTALS, totals))


def closing(packets, events, cut=False):
    """The lines after those of the events; `cut` says whether a cut record follows the packets."""
    note = [f"note record {len(packets) + 1} cut short"] if cut else []
    return ends_of(packets, events) + note + [totals_of(packets, events)]


def events_of(text, packets, cut=False):
    """The events of a report; ValueError if the lines after them aren't the expected ones."""
    lines = text.split("\n")
    count = len(lines) - 1 - len(packets) - cut - 1
    if lines.pop() != "" or count < 0:
        raise ValueError("the report is cut")
    events = [event(text) for text in lines[:count]]
    if not all(1 <= e["packet"] <= len(packets) for e in events if "packet" in e):
        raise ValueError("an event of a packet that isn't there")
    for wanted, text in zip(closing(packets, events, cut), lines[count:], strict=True):
        if text != wanted:
            raise ValueError(f"{text!r} in place of {wanted!r}")
    return events
