"""An answer as text for a terminal, in UTC, and as JSON."""
import json
from plan.moments import SECOND, clock_text, date, seconds_text
from plan.sample import WHOLE, of_sample
from plan.scripts import DEFAULT_BUCKETS, DEFAULT_SERVERS, endpoint_text, words_of
from plan.traffic import COPIES

# How many broken connections are listed.
LISTED = 10
CAUSES = {
    "never-accepted": "no server had accepted the connection when the packet came",
    "not-held": "the server had given the connection up: it was closed or retired, or its client had reset it",
    "stale-mux": "the packet's mux had an older table than the one that took the connection's SYN",
    "moved-thrice": "the bucket had moved three times or more since the SYN",
    "chain-late": "the packet came later than the timeout after its bucket had left the server that has the connection",
    "syn-elsewhere": "another server had accepted a second SYN of the connection",
    "full": "the server's shard was full",
    "old-table": "an old table led the SYN to a retired server",
}
RED, GREEN, PLAIN = "\x1b[31m", "\x1b[32m", "\x1b[0m"


def plural(count, word):
    return f"{count:,} {word}{'' if count == 1 else 's'}"


def coloured(text, colour, has_colours):
    return f"{colour}{text}{PLAIN}" if has_colours else text


def of_traffic(paths, traffic):
    """What was read, and what wasn't used."""
    names = ", ".join("standard input" if path == "-" else path for path in paths)
    services = ", ".join(sorted(endpoint_text(*it) for it in traffic.services))
    told = f"{plural(traffic.packets, 'packet')} to {services} in {plural(traffic.connections, 'connection')}"
    yield f"{names}: {told}"
    yield f"  on {date(traffic.begin)}, {clock_text(traffic.begin, 3)} to {clock_text(traffic.end, 3)} UTC"
    if traffic.opened:
        yield f"  {plural(traffic.opened, 'connection')} had no SYN: each was given one at the captures' beginning"
    for name in traffic.cut:
        yield f"  {name} ends within a record: what came after it isn't known"
    for why, count in traffic.left_out.most_common():
        yield f"  not used: {plural(count, 'packet')} {why}"
    if 10 * traffic.copies > traffic.packets + traffic.opened and not traffic.left_out[COPIES]:
        told = "look like copies of one before: capture on one interface, or leave them out by --no-copies"
        yield f"  {plural(traffic.copies, 'packet')} {told}"
    yield from of_sample(traffic.sample)


def at_most(lines, indent=""):
    """The first of many lines, and how many more there are."""
    lines = list(lines)
    yield from lines[:LISTED]
    if len(lines) > LISTED:
        yield f"{indent}and {len(lines) - LISTED:,} more (--json lists all)"


def of_changes(answer):
    yield from at_most(
        f"{words_of(command)} at {clock_text(answer.zero + command['at_ns'], 3)}: moves {moves:,} of {plural(buckets, 'bucket')}"
        for command, (moves, buckets) in zip(answer.script.changes, answer.replay.moved)
    )
    if not answer.script.changes:
        yield "the script changes nothing"
    late = answer.script.changes_after(answer.traffic.end - answer.zero)
    if late:
        yield of_late(late, len(answer.script.changes))


def of_late(count, of):
    """That so many changes come when the captures have ended."""
    verb, what = ("comes", "this one breaks") if count == 1 else ("come", "these break")
    return f"{count:,} of {plural(of, 'change')} {verb} after the captures' end, so they don't show what {what}"


def left_open(replay):
    """What a sentence adds that says that nothing breaks."""
    return f"; {replay.open:,} {'is' if replay.open == 1 else 'are'} open at the end" if replay.open else ""


def headline(answer):
    """The answer in a sentence."""
    count, refused = sum(it.is_broken for it in answer.broken), sum(it.is_refused for it in answer.broken)
    what, have = ("the change breaks", "has") if len(answer.script.changes) == 1 else ("the changes break", "have")
    of = f"of {plural(answer.replay.count, 'connection')}, with a timeout of {answer.script.timeout_s} s"
    more = f", and {have} {refused} refused," if refused else ""
    return f"{what} {count or 'none'}{more} {of}{'' if answer.broken else left_open(answer.replay)}"


def of_broken(answer):
    broken = answer.broken
    width = max([len(it.client) for it in broken[:LISTED]], default=0)
    how = {True: "breaks", False: "is refused"}
    yield from at_most(
        (f"  {it.client.ljust(width)}  {how[it.is_broken]} at {clock_text(answer.zero + it.at, 3)}  {it.cause}" for it in broken), "  "
    )
    yield from of_losses(answer)
    for cause in sorted({it.cause for it in broken}):
        yield f"  {cause}: {CAUSES[cause]}"
    yield from of_others(answer)


def of_losses(answer):
    losing = sum(it.is_losing_data for it in answer.broken)
    if losing:
        yield f"  {losing:,} of them {'loses' if losing == 1 else 'lose'} data"


def of_others(answer):
    if answer.anyway:
        yield f"  {plural(len(answer.anyway), 'connection')} more {'breaks' if len(answer.anyway) == 1 else 'break'} without the change too"


def of_timeout(answer):
    """Which timeout keeps what a timeout can keep, and for how long old servers are needed."""
    if answer.keeping_s:
        left = len(answer.kept)
        told = f"it breaks {left:,}" if left else f"it breaks none{left_open(answer.lasting)}"
        yield f"with timeout_s = {answer.keeping_s} {told} (replayed)"
    elif any(it.cause == "chain-late" for it in answer.broken):
        yield "no timeout was found that keeps the connections that come too late"
    needed = answer.lasting.needed
    if needed:
        yield f"an old server was needed for up to {seconds_text(needed.wait)} after a change, by {needed.client}"
    wait = f"{answer.keeping_s or answer.script.timeout_s} s{' and the longest lag' if any(answer.script.lags) else ''}"
    yield from at_most(
        f"server {server} may be switched off at {clock_text(-(-time // SECOND) * SECOND)}: {wait} after its drain"
        for server, time in answer.switch_off()
    )


def of_open(answer):
    replay = answer.replay
    if replay.open:
        are = "is" if replay.open == 1 else "are"
        idle = f"the longest idle for {seconds_text(replay.idle)}"
        yield f"{plural(replay.open, 'connection')} {are} open at the end, away from their server, {idle}:"
        yield "  the captures can't tell whether the change breaks them later"


def of_lifetime(answer):
    if answer.lifetime is None:
        yield "whatever the traffic, no change of this script breaks a connection"
        return
    kept = "" if answer.kept_lifetime is None else f" (with timeout_s = {answer.keeping_s}: {seconds_down(answer.kept_lifetime)})"
    yield f"whatever the traffic, connections that live at most {seconds_down(answer.lifetime)} are safe{kept}"


def seconds_down(wait):
    """A wait in seconds, to milliseconds, rounded down."""
    return seconds_text(wait // 10**6 * 10**6)


def search_lines(search):
    """What a search found, and how many replays it took."""
    breaks = "it breaks" if len(search.said.changes) == 1 else "they break"
    least = f"; with {search.timeout_s - 1} s {breaks} {search.less:,}" if search.less else ""
    replays = plural(search.tries, "replay")
    if search.is_found:
        yield f"found after {replays}: with timeout_s = {search.timeout_s} and these waits nothing breaks{least}"
        if search.why:
            yield f"  lower timeouts weren't all tried: {search.why}"
    else:
        yield f"nothing was found after {replays}: {search.why}"
        yield "  what follows is the answer for the last script that was tried"
    yield from at_most(
        (
            f"  {words_of(search.said.changes[number - 1])} comes {seconds_text(wait)} later than said, for {search.clients[number]}"
            for number, wait in sorted(search.waits.items())
        ),
        "  ",
    )
    later = sum(now["at_ns"] > said["at_ns"] for now, said in zip(search.script.changes, search.said.changes))
    if later and not search.waits:
        yield f"  {plural(later, 'change')} {'comes' if later == 1 else 'come'} later than said, after a retire that waits for its timeout"
    elif not later and search.is_found:
        yield "  no change has to come later than said"


def text_lines(paths, answer, has_colours, search=None):
    yield from of_traffic(paths, answer.traffic)
    yield ""
    if search:
        yield from search_lines(search)
        yield ""
    yield from of_changes(answer)
    yield ""
    yield coloured(headline(answer).upper() if has_colours else headline(answer), RED if answer.broken else GREEN, has_colours)
    yield from of_broken(answer)
    yield ""
    for part in (of_timeout, of_open, of_lifetime):
        yield from part(answer)
    if answer.schedules:
        yield from answer.schedules.lines()


def of_check(path, script, replay):
    """What is told of a script that has no fault."""
    servers = script.fleet.get("servers", DEFAULT_SERVERS)
    buckets = script.fleet.get("buckets", DEFAULT_BUCKETS)
    owned = [f"{server}: {len(range(at, buckets, len(servers))):,}" for at, server in enumerate(servers)]
    yield f"{path}: ok"
    yield f"  buckets by server at first: {', '.join(owned)}"
    for number, (command, (moves, _)) in enumerate(zip(script.changes, replay.moved), 1):
        yield f"  change {number}, {words_of(command)}: moves {moves:,} of {plural(buckets, 'bucket')}"


# JSON


def at(answer, moment):
    return answer.zero + moment


def connection_json(answer, it):
    return {
        "client": it.client,
        "service": it.service,
        "opened_ns": at(answer, it.opened),
        "last_ns": at(answer, it.last),
        "server": it.server,
        "how": "broken" if it.is_broken else "refused" if it.is_refused else "whole",
        "at_ns": it.at and at(answer, it.at),
        "verdict": it.verdict,
        "cause": it.cause,
        "losing_data": it.is_losing_data,
        "ended": it.ended,
    }


def changes_json(answer):
    return [{**command, "at_ns": at(answer, command["at_ns"])} for command in answer.script.changes]


def traffic_json(paths, traffic):
    """What was read. The answer for a sample says so."""
    sample = {} if traffic.sample is WHOLE else {"sample": traffic.sample.number, "of_connections": traffic.sample.counts[1]}
    return {
        "captures": list(paths),
        "packets": traffic.packets,
        "connections": traffic.connections,
        "opened": traffic.opened,
        "not_used": dict(traffic.left_out),
        "cut": traffic.cut,
        "begin_ns": traffic.begin,
        "end_ns": traffic.end,
    } | sample


def search_json(search):
    """What a search found, and how many replays it took."""
    return {
        "is_found": search.is_found,
        "replays": search.tries,
        "why_not": search.why,
        "broken_with_a_second_less": search.less,
        "put_off": [{"change": number, "wait_ns": wait, "client": search.clients[number]} for number, wait in sorted(search.waits.items())],
    }


def json_of(paths, answer, search=None):
    """The answer as a JSON object. Times are nanoseconds since 1970, waits are nanoseconds."""
    needed = answer.lasting.needed
    found = {"search": search_json(search)} if search else {}
    if answer.schedules:
        found |= {"schedules": answer.schedules.number, "packets_otherwise": answer.schedules.others}
    return json.dumps(traffic_json(paths, answer.traffic) | found | {
        "timeout_s": answer.script.timeout_s,
        "changes": changes_json(answer),
        "by_the_change": [connection_json(answer, it) for it in answer.broken],
        "anyway": [connection_json(answer, it) for it in answer.anyway],
        "keeping_timeout_s": answer.keeping_s,
        "by_the_change_then": answer.kept and [connection_json(answer, it) for it in answer.kept],
        "needed_ns": needed and needed.wait,
        "open_at_end": answer.replay.open,
        "longest_idle_ns": answer.replay.idle if answer.replay.open else None,
        "lifetime_ns": answer.lifetime,
    })
