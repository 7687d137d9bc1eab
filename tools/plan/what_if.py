"""Several scripts for one capture: those that are named, or those that an option makes. Each is a row of a table."""
import math, re
from concurrent.futures import ThreadPoolExecutor
from typing import NamedTuple
from plan.answers import Judgement
from plan.faults import SCRIPT, USAGE, Refusal
from plan.moments import MINUTE, SECOND, after, moment_of
from plan.scripts import DEFAULT_SERVERS, MOST_WEIGHT, Dated, Script, dated, words_of
from plan.told import needed_changes
from plan.workers import processors

# The waits between the steps of a slow start, and the most rows of a table.
WAITS = SECOND, 10 * SECOND, MINUTE, 10 * MINUTE
MOST_ROWS, LAST_SERVER, MOST_STEPS = 1_000, 1_024, 100
START = re.compile(r"([0-9]{1,9})=([0-9]{1,9})/([0-9]{1,9})@(.+)")


class Variant(NamedTuple):
    """A script, and its name in the table."""

    name: str
    script: Script


class Times(NamedTuple):
    """When the captures begin and end, and the time from which a script's moments count."""

    begin: int
    end: int
    zero: int


def wait_text(wait):
    """A wait as one says it: `10 s`, `10 min`."""
    if wait and wait % MINUTE == 0:
        return f"{wait // MINUTE} min"
    return f"{wait / SECOND:g} s"


def wait_of(text, option):
    wait = after(f"+{text}")
    if wait is None:
        raise Refusal(USAGE, f"{option}: {text!r} isn't a wait: say 1s, 2.5s, 10m or 1h30m")
    return wait


def listed(text, option):
    """The words between commas, each once."""
    words = text.split(",")
    twice = next((word for at, word in enumerate(words) if word in words[:at]), None)
    if twice is not None:
        raise Refusal(USAGE, f"{option} {text}: {twice or 'nothing'} is said twice")
    return words


def servers_of(script):
    """The servers that a script begins with, where it says them as it should."""
    servers = script.fleet.get("servers", DEFAULT_SERVERS)
    if not isinstance(servers, list) or not all(type(server) is int for server in servers):
        raise Refusal(SCRIPT, "servers isn't an array of whole numbers")
    return servers


# EACH SERVER AT EACH MOMENT


def drains_at(script, text, words, times):
    """Each server's drain, at each of the moments."""
    moments = listed(text, "--drains-at")
    for server in servers_of(script):
        for moment in moments:
            more = [*words, ("drain", f"{server}@{moment}")]
            yield Variant(f"drain {server} at {moment}", dated(script, more, *times))


# ALL SERVERS


def drain_all(script, text, words, times):
    """The drains of all servers, with each of the waits between them. A server comes back under a new number when the next one goes."""
    waits, at, when = text.partition("@")
    option = "--drain-all-with-waits"
    first = moment_of(when, times.begin, times.end) if at else times.begin
    for wait in [wait_of(it, option) for it in listed(waits, option)]:
        rounds = list(rolling(script, first, wait, f"{option} {text}"))
        yield Variant(f"drain all, {wait_text(wait)} apart", dated(script, words, *times, rounds))


def rolling(script, time, wait, origin):
    """The drain of each server and its return, in order."""
    known = {it["server"] for it in script.commands if it.get("do") == "add" and type(it.get("server")) is int} | set(servers_of(script))
    back = None
    for server in servers_of(script):
        if back:
            yield Dated(time, origin, back)
        yield Dated(time, origin, {"do": "drain", "server": server})
        back = return_of(script, server, known)
        known.add(back["server"])
        time += wait
    yield Dated(time, origin, back)


def return_of(script, server, known):
    """The command that brings a server back, in its rack and with its weight, under a number that isn't known."""
    racks = script.fleet.get("racks", 1)
    racks = racks if type(racks) is int and racks > 0 else 1
    number = next((it for it in range(max(known) + 1, LAST_SERVER + 1) if (it - server) % racks == 0), None)
    if number is None:
        raise Refusal(USAGE, f"--drain-all-with-waits: no number up to {LAST_SERVER:,} is left for server {server} to come back")
    weight = {"weight": weights_of(script).get(server, 1)} if script.fleet.get("version", 1) != 1 else {}
    return {"do": "add", "server": number} | weight


def weights_of(script):
    """The weights of the servers that a script begins with."""
    weights = script.fleet.get("weights", [])
    return dict(zip(servers_of(script), weights)) if isinstance(weights, list) else {}


# A SLOW START


def slow_start(script, text, words, times):
    """The addition of a server at once, and in steps of its weight with each of several waits between them."""
    read = START.fullmatch(text)
    if not read:
        raise Refusal(USAGE, f"--slow-start {text}: say --slow-start SERVER=WEIGHT/STEPS@MOMENT, like 4=10/5@21:02:11")
    server, weight, steps = map(int, read.groups()[:3])
    if not 1 <= steps <= MOST_STEPS or not weight:
        raise Refusal(USAGE, f"--slow-start {text}: a weight of at least 1, in 1 to {MOST_STEPS} steps")
    time, factor = moment_of(read[4], *times[:2]), steps // math.gcd(weight, steps)
    fleet = weighing(script, factor, max(weight * factor, factor), text)
    origin = f"--slow-start {text}"
    for wait in [None, *WAITS][: 1 if steps == 1 else None]:
        parts = [steps] if wait is None else range(1, steps + 1)
        weights = [weight * factor * part // steps for part in parts]
        commands = [{"do": "weight" if at else "add", "server": server, "weight": it} for at, it in enumerate(weights)]
        name = f"add {server} at once" if wait is None else f"add {server} in {steps} steps, {wait_text(wait)} apart"
        more = [Dated(time + at * (wait or 0), origin, it) for at, it in enumerate(commands)]
        yield Variant(name, dated(fleet, words, *times, more))


def weighing(script, factor, most, text):
    """The script of a version with weights, each so many times as great: shares stay as they are."""
    servers = servers_of(script)
    weights = [weights_of(script).get(server, 1) for server in servers]
    commands = [it | {"weight": it.get("weight", 1) * factor} if it.get("do") in ("add", "weight") else it for it in script.commands]
    if any(type(it) is not int for it in weights) or any(type(it.get("weight", 1)) is not int for it in commands):
        raise Refusal(SCRIPT, "weights aren't whole numbers")
    if max([most, *[it * factor for it in weights], *[it.get("weight", 1) for it in commands]]) > MOST_WEIGHT:
        raise Refusal(USAGE, f"--slow-start {text}: steps of whole weights need weights above {MOST_WEIGHT:,}: take fewer steps")
    fleet = {"version": max(2, script.fleet.get("version", 1))} | {key: value for key, value in script.fleet.items() if key != "version"}
    values = {**fleet, "weights": [it * factor for it in weights], "command": commands}
    return Script(values, script.origins, script.file)


# THE TABLE


class Row:
    """What is told of a script: how many connections its changes break or refuse and how many of those lose data, how many are open at
    the end, a timeout that keeps them and what breaks with it, how long old servers are needed after each change, its lifetime, and how
    many of its changes come after the captures' end."""

    def __init__(self, variant, judgement, end_ns):
        self.name, self.timeout_s = variant.name, variant.script.timeout_s
        self.broken = sum(it.is_broken for it in judgement.broken)
        self.refused = sum(it.is_refused for it in judgement.broken)
        self.losing = sum(it.is_losing_data for it in judgement.broken)
        self.open = judgement.replay.open
        self.is_late = any(it.cause == "chain-late" for it in judgement.broken)
        self.keeping_s, self.left = judgement.keeping_s, len(judgement.kept or [])
        self.changes = variant.script.changes
        self.needed = needed_changes(judgement.lasting)
        self.lifetime = judgement.lifetime
        self.after_end = variant.script.changes_after(end_ns)

    @property
    def breaks(self):
        return self.broken + self.refused > 0


def variants_of(given, script, times):
    """The scripts that options make of one."""
    words = given.said or []
    makers = (drains_at, given.drains_at), (drain_all, given.drain_all), (slow_start, given.slow_start)
    return [variant for make, text in makers if text is not None for variant in make(script, text, words, times)]


def rows_of(engine, variants, times):
    """The rows, in order. Their replays run side by side."""
    if len(variants) > MOST_ROWS:
        raise Refusal(USAGE, f"{len(variants):,} scripts are more than the {MOST_ROWS:,} that a table has")
    progress, engine.progress = engine.progress, None
    progress.stage("scripts")
    progress.add(len(variants))

    def row(variant):
        found = Row(variant, Judgement(engine, variant.script), times.end - times.zero)
        progress.step()
        return found

    pool = ThreadPoolExecutor(processors())
    try:
        return list(pool.map(row, variants))
    finally:
        engine.stop()
        pool.shutdown(cancel_futures=True)
