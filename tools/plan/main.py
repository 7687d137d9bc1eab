"""The command line of `beamer-plan`."""
import argparse, os, shlex, signal, sys, tempfile
from contextlib import ExitStack
from datetime import datetime
from plan import page
from plan.answers import Answer
from plan.engine import TOP, UNPROVED, Engine, is_unproved
from plan.faults import BREAKS, USAGE, WRITE, Refusal
from plan.hosts import Hosts
from plan.moments import of_datetime
from plan.parts import write_capture
from plan.progress import Progress
from plan.sample import WHOLE, sample_of
from plan.scripts import Script, dated, endpoint_text, service
from plan import schedules
from plan.schedules import Schedules
from plan.search import TRIES, Search
from plan.table import table_json, table_lines
from plan.tales import Tales, tales_json, tales_lines
from plan.text import json_of, of_check, text_lines
from plan.traffic import read_traffic
from plan.what_if import Times, Variant, rows_of, variants_of
from plan.where import text_of, values_of

ABOUT = """Tells which connections of a capture a planned change of a Beamer fleet breaks, and what would keep them. The captures are
replayed by the proved program beamer-connections; this command reads, splits and converts for it, and each answer is what that program
says."""
AFTER = """A MOMENT is a time of day in UTC (21:02:11), with an offset (23:02:11+02:00), with a date (2026-11-27T21:02:11Z), or after the
captures' beginning (+5m, +1h30m, +2.5s). A WAIT is a time like 10s, 2.5s, 10m or 1h. Exit status: 0: the changes break nothing (in a
table: those of one script at least); 10: they break something; 1: the words; 2: a file can't be read; 3: a capture; 4: a script;
5: writing failed; 6 and 7: memory and limits of the program."""


SIGNALS = signal.SIGINT, signal.SIGTERM, signal.SIGHUP


class Said(argparse.Action):
    """Gathers changes in the order in which they are said."""

    def __call__(self, parser, given, value, option):
        given.said = [*(given.said or []), (option.removeprefix("--"), value)]


class Words(argparse.ArgumentParser):
    def error(self, message):
        self.print_usage(sys.stderr)
        raise Refusal(USAGE, message)


def parser():
    words = Words(prog="beamer-plan", description=ABOUT, epilog=AFTER)
    words.add_argument("captures", nargs="*", metavar="CAPTURE", help="classic or pcapng, compressed or not; - is standard input")
    words.add_argument("--fleet", metavar="FILE", help="the fleet: a script without commands (docs/FORMATS.md)")
    words.add_argument("--script", metavar="FILE", action="append", dest="scripts", help="a script; `at = 2026-11-27T21:02:11Z` may "
                       "stand for at_ns in it. Of several there is a table")
    words.add_argument("--check", metavar="SCRIPT", help="judge a script alone: where its fault is, or what its changes move")
    words.add_argument("--drain", metavar="SERVER@MOMENT", action=Said, dest="said", help="take a server out")
    words.add_argument("--add", metavar="SERVER[=WEIGHT]@MOMENT", action=Said, dest="said", help="add a server")
    words.add_argument("--weight", metavar="SERVER=WEIGHT@MOMENT", action=Said, dest="said", help="give a server another weight")
    words.add_argument("--timeout", metavar="SECONDS", type=int, help="timeout_s in place of the script's")
    words.add_argument("--vip", metavar="ADDRESS:PORT", action="append", help="a service, in place of the script's vips")
    words.add_argument("--no-copies", action="store_true", help="leave out packets that were captured twice within a millisecond")
    words.add_argument("--no-open", action="store_true", help="don't open connections from before the captures")
    words.add_argument("--keep-script", metavar="FILE", help="write the script that was replayed")
    words.add_argument("--sample", metavar="1/N", help="only one of N connections, each as a whole, by a hash of its addresses and ports")
    words.add_argument("--hosts", metavar="FILE", help="replay on these machines, one in a line, by GNU parallel through ssh")
    words.add_argument("--ssh-config", metavar="FILE", help="the file of settings that ssh reads for --hosts, in place of yours")
    table = words.add_argument_group("tables", "one row for each script, with what it breaks and what would keep that")
    table.add_argument("--what-if", action="store_true", help="a table, though there is one script")
    table.add_argument("--drains-at", metavar="MOMENT,..", help="rows: each server's drain at each moment")
    table.add_argument("--drain-all-with-waits", metavar="WAIT,..[@MOMENT]", dest="drain_all", help="rows: all servers are drained, with "
                       "each of these waits between them, from MOMENT on or from the captures' beginning; each comes back under a new "
                       "number when the next one goes")
    table.add_argument("--slow-start", metavar="SERVER=WEIGHT/STEPS@MOMENT", help="rows: a server is added at once, and in so many steps "
                       "of its weight, 1 s, 10 s, 1 min and 10 min apart")
    words.add_argument("--schedules", metavar="N", type=int, help="play the script N times by threads too (beamer run), with a sync each "
                       "quarter of the timeout, and say whether a packet ended otherwise")
    search = words.add_argument_group("search")
    search.add_argument("--search", action="store_true", help="find the least waits between the changes, and the least timeout_s for them, "
                        "with which they break nothing in the captures; no change comes earlier than said, nor sooner after the last")
    search.add_argument("--tries", metavar="N", type=int, help=f"the most replays of a search ({TRIES} if it isn't said)")
    words.add_argument("--json", action="store_true", help="the answer as a JSON object")
    words.add_argument("--html", metavar="FILE", help="write the answer as a page for a browser too (docs/PLANNING.md)")
    words.add_argument("--story", metavar="CLIENT", action="append", help="the story of this client (ADDRESS:PORT) in place of the "
                       "answer; with --html the page has it in any case")
    return words


class Plan:
    """The script that is meant: the one of this file, with what options put in place of its values."""

    def __init__(self, given, path):
        self.given, self.path = given, path
        source = text_of(path) if path else ""
        self.script = Script(values_of(path, source), file=(path, source))
        if given.fleet and self.script.commands:
            raise Refusal(USAGE, f"{given.fleet} has commands: say --script for it")
        if given.vip:
            self.script.fleet["vips"] = [endpoint_text(*service(it)) for it in given.vip]
        if given.timeout is not None:
            self.script.fleet["timeout_s"] = given.timeout

    def dated(self, times):
        return dated(self.script, self.given.said or [], *times)


def look(given):
    """Refuses words that don't fit together."""
    scripts = given.scripts or []
    if given.fleet and scripts:
        raise Refusal(USAGE, "say --fleet or --script, not both")
    twice = next((path for at, path in enumerate(scripts) for other in scripts[:at] if is_same(path, other)), None)
    if twice:
        raise Refusal(USAGE, f"--script {twice}: it is named twice")
    makers = [word for word in ("drains_at", "drain_all", "slow_start") if getattr(given, word) is not None]
    if makers and len(scripts) > 1:
        raise Refusal(USAGE, "name one script, or a fleet, from which the rows of the table are made")
    given.is_table = given.what_if or len(scripts) > 1 or bool(makers)
    for word in ("search", "keep_script", "schedules", "story"):
        if given.is_table and getattr(given, word):
            raise Refusal(USAGE, f"--{word.replace('_', '-')} is for one script, not for a table")
    if given.story and given.schedules and not given.html:
        raise Refusal(USAGE, "--schedules is for the answer, and --story tells the story in place of it: say one of them")
    schedules.look(given.schedules)
    if given.ssh_config and not given.hosts:
        raise Refusal(USAGE, "--ssh-config is for --hosts")
    if given.tries is not None and (given.tries < 1 or not given.search):
        raise Refusal(USAGE, "--tries N is for --search, and at least 1")
    if given.keep_script and os.path.lexists(given.keep_script):
        raise Refusal(WRITE, f"{given.keep_script}: it exists, and isn't overwritten")
    page.look(given)


def is_same(path, other):
    return path == other or os.path.exists(path) and os.path.exists(other) and os.path.samefile(path, other)


def plans_of(given):
    """The scripts that are named, which have to have one and the same services."""
    plans = [Plan(given, path) for path in given.scripts or [given.fleet]]
    for plan in plans:
        plan.script.look()
        if plan.script.services != plans[0].script.services:
            raise Refusal(USAGE, f"{plans[0].path} and {plan.path} have different vips: name services by --vip")
    return plans


def variants(given, plans, times):
    """The scripts of a table: those that are named, and those that are made of one."""
    made = variants_of(given, plans[0].script, times)
    is_told = not made or given.what_if or plans[0].script.changes or given.said
    named = [Variant("as said" if given.fleet or not plan.path else plan.path, plan.dated(times)) for plan in plans if is_told]
    return named + made


class Told:
    """An answer, or a table, or stories, or what a search found with its answer: as text, as JSON, and as a status."""

    def __init__(self, given, plans, traffic, engine):
        self.given, self.traffic, self.search, self.rows = given, traffic, None, None
        times = Times(traffic.begin, traffic.end, traffic.zero)
        if given.is_table:
            self.rows = rows_of(engine, variants(given, plans, times), times)
            return
        script = plans[0].dated(times)
        if given.search:
            self.search = Search(engine, script, given.tries or TRIES)
            script = self.search.script
        if given.story and not given.html:
            self.answer = Tales(engine, script, traffic, times.zero, given.story)
            return
        self.answer = Answer(engine, script, traffic, times.zero)
        if given.schedules:
            self.answer.schedules = Schedules(engine, script, given.schedules, traffic.end - traffic.zero)

    def text(self, has_colours):
        paths = self.given.captures
        if self.rows is not None:
            return table_json(paths, self.traffic, self.rows) if self.given.json else "\n".join(table_lines(paths, self.traffic, self.rows))
        if isinstance(self.answer, Tales):
            return tales_json(paths, self.answer, self.search) if self.given.json else "\n".join(tales_lines(paths, self.answer, self.search))
        if self.given.json:
            return json_of(paths, self.answer, self.search)
        return "\n".join([*text_lines(paths, self.answer, has_colours, self.search)])

    @property
    def status(self):
        if self.rows is not None:
            return BREAKS if all(row.breaks for row in self.rows) else 0
        return BREAKS if self.answer.broken or self.search and not self.search.is_found else 0


def engine_of(given, *words):
    return Hosts(*words, given.hosts, given.ssh_config) if given.hosts else Engine(*words)


def told_of(given):
    look(given)
    plans = plans_of(given)
    sample = WHOLE if given.sample is None else sample_of(given.sample)
    with ExitStack() as stack:
        progress = stack.enter_context(Progress())
        services = plans[0].script.services
        folder = stack.enter_context(tempfile.TemporaryDirectory(prefix="beamer-plan-"))
        traffic = read_traffic(folder, given.captures, services, given.no_copies, not given.no_open, sample, progress)
        progress.stage("replays")
        told = Told(given, plans, traffic, stack.enter_context(engine_of(given, folder, traffic.paths, progress)))
        if given.html:
            keep(given.html, page.Page(given, told.answer, told.search, shlex.join(sys.argv)))
    if given.keep_script:
        keep(given.keep_script, told.answer.script)
    return told


def check_of(given):
    """The lines for a script alone."""
    page.look(given)
    if given.story:
        raise Refusal(USAGE, "--check judges a script alone, and a story needs a capture: say --script in place of --check")
    plan = Plan(given, given.check)
    times = [of_datetime(it["at"]) for it in plan.script.commands if isinstance(it.get("at"), datetime)]
    begin, end = min(times, default=0), max(times, default=0)
    script = plan.dated((begin, end, begin))
    with tempfile.TemporaryDirectory(prefix="beamer-plan-") as folder:
        path = os.path.join(folder, "empty.pcap")
        write_capture(path, [], 0)
        with Engine(folder, [path]) as engine:
            replay = engine.replay(script)
    return "\n".join(of_check(plan.path, script, replay))


def keep(path, told):
    """Writes the text of a script or of a page to a new file. If that fails or is stopped, no file is left."""
    try:
        with open(path, "x", encoding="utf-8", errors="backslashreplace") as file:
            try:
                file.write(told.text())
                file.flush()
            except BaseException:
                os.unlink(path)
                raise
    except FileExistsError:
        raise Refusal(WRITE, f"{path}: it exists, and isn't overwritten") from None
    except OSError as wrong:
        raise Refusal(WRITE, f"{path}: {wrong.strerror.lower()}") from None


def tell(told):
    if sys.stdout is None:
        raise Refusal(WRITE, "standard output is closed")
    print(told.text(sys.stdout.isatty() and "NO_COLOR" not in os.environ), flush=True)
    return told.status


def stopped(number, frame):
    """Ends the program by a signal: once, so that a second one doesn't disturb what is put away."""
    for it in SIGNALS:
        signal.signal(it, signal.SIG_IGN)
    sys.exit(128 + number)


def main():
    try:
        for number in SIGNALS:
            if signal.getsignal(number) != signal.SIG_IGN:
                signal.signal(number, stopped)
        given = parser().parse_args()
        if (given.check or given.captures) and is_unproved():
            print(f"beamer-plan: {UNPROVED.format(os.path.join(os.path.relpath(TOP), 'tools', 'prove'))}", file=sys.stderr, flush=True)
        if given.check:
            print(check_of(given), flush=True)
        elif given.captures:
            sys.exit(tell(told_of(given)))
        else:
            raise Refusal(USAGE, "name a capture, or - for standard input; --help tells more")
    except Refusal as refusal:
        print(f"beamer-plan: {refusal}", file=sys.stderr)
        sys.exit(refusal.status)
    except BrokenPipeError:
        os.dup2(os.open(os.devnull, os.O_WRONLY), sys.stdout.fileno())
        sys.exit(WRITE)
    except OSError as wrong:
        print(f"beamer-plan: {wrong.strerror.lower()}", file=sys.stderr)
        sys.exit(WRITE)
