"""The page that `--html` writes: one file with the answer, what breaks, drawings over time, stories of connections, and the calls."""
import base64, hashlib, html, json, os, re
from bisect import bisect_right
from plan.engine import TOP
from plan.faults import USAGE, WRITE, Refusal
from plan.moments import seconds_text
from plan.scripts import service, words_of
from plan.stories import Stories
from plan.text import CAUSES, headline, of_changes, of_lifetime, of_losses, of_open, of_others, of_timeout, of_traffic, search_lines
from plan.text import seconds_down

FOLDER = os.path.dirname(os.path.realpath(__file__))
# The most connections that the page has one by one, and the most calls that it lists.
MOST_DRAWN, MOST_CALLS = 20_000, 40
# At how many moments open connections are counted, of how many servers by themselves, and how many steps the curve of timeouts has.
MOMENTS, MOST_SERVERS, MOST_STEPS = 1_200, 11, 1_000
# What became of a connection, in the order in which they are drawn.
KINDS = BROKEN, REFUSED, BROKEN_ANYWAY, REFUSED_ANYWAY, FORWARDED, OPEN, OTHER = range(7)
CAUSE_ROW = re.compile(r"\| `([a-z-]+)` \| (.+?) \| (.+?) \|")


def look(given):
    """Refuses words of the page that don't fit the others, and a file that can't be written."""
    path = given.html
    if not path:
        return
    if given.check or given.is_table:
        raise Refusal(USAGE, f"--html is for the replay of one script, not for {'--check' if given.check else 'a table'}")
    if os.path.lexists(path):
        raise Refusal(WRITE, f"{path}: it exists, and isn't overwritten")
    folder = os.path.dirname(path) or "."
    if not os.path.isdir(folder):
        raise Refusal(WRITE, f"{path}: there is no folder {folder}: make it first")
    if given.keep_script and os.path.abspath(given.keep_script) == os.path.abspath(path):
        raise Refusal(USAGE, f"--html and --keep-script both name {path}")


class Page:
    """The page of an answer. `command` is the call that it answers."""

    def __init__(self, given, answer, search, command):
        self.given, self.answer, self.search, self.command = given, answer, search, command
        self.rows = Rows(answer)
        self.stories = Stories(answer, [it for it in self.rows.drawn if self.rows.kinds[it.flow] < FORWARDED], given.story or [])
        self.calls = calls_of(answer)

    def text(self):
        """The page. Each part of the template is put in once, so what is put in isn't looked at again."""
        script, style = (source("page.js") + source("page_time.js")), source("page.css")
        parts = {
            "script": script, "style": style, "script_hash": digest(script), "style_hash": digest(style),
            "headline": shown(sentence(headline(self.answer))), "verdict": "breaks" if self.answer.broken else "keeps",
            "traffic": paragraphs(of_traffic(self.given.captures, self.answer.traffic)),
            "answer": paragraphs(self.answer_lines()), "changes": paragraphs(of_changes(self.answer)),
            "figures": "".join(figure(*it) for it in self.figures()), "causes": self.causes(),
            "command": shown(self.command), "replayed": shown(self.answer.script.text()), "calls": self.call_lines(),
            "data": embedded(self.data()),
        }  # fmt: skip
        return re.sub(r"@@(\w+)@@", lambda found: parts[found[1]], source("page.html"))

    def answer_lines(self):
        if self.search:
            yield from search_lines(self.search)
        yield from map(str.strip, [*of_losses(self.answer), *of_others(self.answer)])
        for part in (of_timeout, of_open, of_lifetime):
            yield from part(self.answer)

    def figures(self):
        """Numbers with what they count, and whether one is bad."""
        answer = self.answer
        broken, refused = sum(it.is_broken for it in answer.broken), sum(it.is_refused for it in answer.broken)
        needed = answer.lasting.needed
        yield f"{len(answer.replay.connections):,}", "connections", False
        yield f"{broken:,}", "broken by the changes", broken
        yield f"{refused:,}", "refused by the changes", refused
        yield f"{sum(it.is_losing_data for it in answer.broken):,}", "of them lose data", any(it.is_losing_data for it in answer.broken)
        yield f"{answer.replay.open:,}", "moved, open at the end", False
        yield f"{answer.script.timeout_s:,} s", "timeout of the script", False
        if answer.keeping_s:
            yield f"{answer.keeping_s:,} s", f"timeout that keeps {'what a timeout can keep' if answer.kept else 'all'}", False
        yield seconds_text(needed.wait) if needed else "-", "old servers needed", False
        yield "unbounded" if answer.lifetime is None else seconds_down(answer.lifetime), "safe lifetime", False

    def causes(self):
        """The words of each cause, first those that occur."""
        told = {it.cause for it in self.answer.replay.connections.values() if it.cause}
        known = known_causes()
        there = [cause_row(cause, known) for cause in CAUSES if cause in told]
        others = [cause_row(cause, known) for cause in CAUSES if cause not in told]
        summary = "The other causes" if there else "No packet had a cause. All causes"
        rest = f"<details><summary>{summary}</summary><dl>{''.join(others)}</dl></details>"
        return (f"<dl>{''.join(there)}</dl>" if there else "") + (rest if others else "")

    def call_lines(self):
        more = len(self.calls) - MOST_CALLS
        return shown("\n".join([*self.calls[:MOST_CALLS], *([f"and {more:,} more"] if more > 0 else [])]))

    def data(self):
        """What the page's script shows."""
        answer = self.answer
        return {
            "zero": str(answer.zero), "begin": answer.traffic.begin - answer.zero, "end": answer.traffic.end - answer.zero,
            "timeout_s": answer.script.timeout_s, "services": self.rows.services,
            "changes": [
                {"at": it["at_ns"], "words": words_of(it), "moved": moved, "of": of}
                for it, (moved, of) in zip(answer.script.changes, answer.replay.moved)
            ],
            "connections": [self.rows.row(it) for it in self.rows.drawn], "left": self.rows.left,
            "held": held(answer), "curve": curve(answer), "stories": self.stories.texts,
        }  # fmt: skip


# CONNECTIONS


class Rows:
    """The connections that the page has one by one, in the order in which they are drawn, and how many more there are of each kind."""

    def __init__(self, answer):
        by_the_change, moments = {it.flow for it in answer.broken}, [it["at_ns"] for it in answer.script.changes]
        connections = answer.replay.connections
        self.kinds = {flow: kind_of(it, flow in by_the_change, moments) for flow, it in connections.items()}
        ordered = sorted(connections.values(), key=lambda it: (self.kinds[it.flow], it.opened))
        self.drawn, rest = ordered[:MOST_DRAWN], ordered[MOST_DRAWN:]
        self.left = [sum(self.kinds[it.flow] == kind for it in rest) for kind in KINDS]
        self.services = sorted({it.service for it in self.drawn}, key=service)
        self.numbers = {name: number for number, name in enumerate(self.services)}

    def row(self, it):
        """A connection as an array: what every one has, then what was forwarded of it, then what broke or refused it."""
        kind = self.kinds[it.flow]
        row = [it.client, self.numbers[it.service], it.server, it.opened, it.last, it.ended, kind]
        if kind <= FORWARDED:
            row += [it.forward, it.wait]
        if kind < FORWARDED:
            row += [it.at, it.verdict, it.cause, it.is_losing_data]
        return row


def kind_of(it, is_by_the_change, moments):
    if it.is_broken or it.is_refused:
        return (BROKEN if it.is_broken else REFUSED) if is_by_the_change else BROKEN_ANYWAY if it.is_broken else REFUSED_ANYWAY
    if it.wait is not None:
        return FORWARDED
    return OPEN if bisect_right(moments, it.opened) < bisect_right(moments, it.last) else OTHER


def held(answer):
    """How many connections are open at equal steps of time, for the servers with the most of them, and for the others together."""
    begin, end = answer.traffic.begin - answer.zero, answer.traffic.end - answer.zero
    step = max(1, -(-(end - begin) // MOMENTS))
    number = (end - begin) // step + 1
    changes = {}
    for it in answer.replay.connections.values():
        first, last = max(0, -(-(it.opened - begin) // step)), (it.last - begin) // step
        if it.server is not None:
            counts = changes.setdefault(it.server, [0] * (number + 2))
            counts[first] += first <= last
            counts[last + 1] -= first <= last
    busiest = sorted(sorted(changes, key=lambda server: -max(sums(changes[server])))[:MOST_SERVERS])
    told = [{"server": server, "counts": sums(changes[server])[:number]} for server in busiest]
    rest = [counts for server, counts in changes.items() if server not in busiest]
    if rest or not told:
        told.append({"server": None, "counts": sums(map(sum, zip(*rest, [0] * number)))})
    return {"begin": begin, "step": step, "servers": told}


def sums(changes):
    total, found = 0, []
    for change in changes:
        total += change
        found.append(total)
    return found


def curve(answer):
    """For timeouts up to the one with which old servers are needed longest, how many connections that they kept it would keep: a timeout
    keeps those whose last forwarded packet came no later after its bucket's move. `replayed` has those of the timeouts that were tried."""
    kept = [it for it in answer.lasting.connections.values() if it.wait is not None and not it.is_broken and not it.is_refused]
    waits = sorted(it.wait for it in kept)
    points = [(wait, number) for number, wait in enumerate(waits, 1) if number == len(waits) or waits[number] != wait]
    thin = points[:: -(-len(points) // MOST_STEPS) or 1]
    timeout_s, first = answer.script.timeout_s, answer.replay.connections
    now = sum(not first[it.flow].is_broken and not first[it.flow].is_refused for it in kept)
    replayed = {timeout_s: now} | {answer.keeping_s or timeout_s: len(kept)}
    return {"points": thin + points[-1:] if thin[-1:] != points[-1:] else thin, "replayed": list(replayed.items())}


# CALLS


def calls_of(answer):
    """The calls of the programs, with names in place of paths. Scripts that are the same have one name."""
    names, found = {}, {}
    for words in answer.engine.calls:
        if "--of" not in words:
            found[" ".join(["beamer-connections", *[name_of(word, names) for word in words]])] = None
    labels = {answer.script.without_changes().text(): "without its changes", answer.script.text(): "the script that was replayed"}
    if answer.keeping_s:
        labels |= {answer.script.with_timeout(answer.keeping_s).text(): f"with timeout_s = {answer.keeping_s}"}
    told = [f"{name}: {labels.get(text, 'a script of the search')}" for text, name in names.items()]
    return [*found, "", *told]


def name_of(word, names):
    """A word of a call; a script gets the name of the first one with its text."""
    if not word.endswith(".toml"):
        return os.path.basename(word)
    with open(word) as file:
        return names.setdefault(file.read(), os.path.basename(word))


# HTML


def source(name):
    with open(os.path.join(FOLDER, name), encoding="utf-8") as file:
        return file.read()


def digest(text):
    """The hash by which the page's policy allows this script or style and no other."""
    return "sha256-" + base64.b64encode(hashlib.sha256(text.encode()).digest()).decode()


def embedded(data):
    """JSON that can't end its element: in JSON these letters stand in strings alone."""
    text = json.dumps(data, separators=(",", ":"))
    return text.replace("<", "\\u003c").replace(">", "\\u003e").replace("&", "\\u0026")


def shown(text):
    return html.escape(text)


def sentence(line):
    line = line.strip().rstrip(":")
    return line[:1].upper() + line[1:] + "."


def paragraphs(lines):
    """Lines of the text as paragraphs; an indented line goes on with the one before."""
    return "".join(f"<p{' class=more' if line.startswith(' ') else ''}>{shown(line.strip())}</p>\n" for line in lines)


def figure(value, what, is_bad):
    return f"<div{' class=bad' if is_bad else ''}><dd>{shown(value)}</dd><dt>{shown(what)}</dt></div>"


def known_causes():
    """What happened and what to look at, of each cause, as docs/OPERATING.md has it."""
    with open(os.path.join(TOP, "docs", "OPERATING.md"), encoding="utf-8") as file:
        rows = map(CAUSE_ROW.match, file)
        return {row[1]: row.groups()[1:] for row in rows if row}


def cause_row(cause, known):
    happened, look_at = known.get(cause, (CAUSES[cause], "docs/OPERATING.md"))
    return f"<dt><code>{shown(cause)}</code></dt><dd>{with_code(happened)}</dd><dd class=todo>{with_code(look_at)}</dd>"


def with_code(text):
    """Text of Markdown with its code."""
    return re.sub("`([^`]+)`", r"<code>\1</code>", shown(text))
