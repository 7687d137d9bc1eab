"""The proved program `beamer-connections`, which answers for captures and scripts."""
import os, re, signal, subprocess, threading
from concurrent.futures import Future, ThreadPoolExecutor
from functools import cached_property
from typing import NamedTuple
from plan.faults import READ, SCRIPT, Refusal
from plan.moments import seconds
from plan.selection import write
from plan.where import explained_of
from plan.workers import processors

TOP = os.path.dirname(os.path.dirname(os.path.dirname(os.path.realpath(__file__))))
CONNECTION = re.compile(
    r"connection (?P<client>\S+) (?P<service>\S+) opened \d+ at (?P<opened>\S+) last \d+ at (?P<last>\S+) "
    r"accepted (?P<server>\d+|none)(?: rack \d+)? times \d+ processed \d+ forwarded \d+ dropped \d+ reset \d+ stray \d+ "
    r"after-its-end \d+ end (?P<ended>open|fin|rst|close)"
    r"(?: last-forward \d+ by \d+(?: rack \d+)? at (?P<forward>\S+) after (?P<wait>\S+))? "
    r"(?:(?P<end>broken|refused) \d+ (?P<verdict>.+) because (?P<cause>\S+) at (?P<at>\S+)"
    r"(?: (?P<why>by-the-change|anyway)(?P<losing> losing-data)?)?|whole|unaccepted)"
)
ANSWER = re.compile(
    r"answer connections \d+ broken \d+ by-the-change \d+ losing-data \d+ refused \d+ open-at-end (?P<open>\d+)"
    r"(?: timeout_s (?P<late_s>\d+))?"
)
CHANGE = re.compile(r"change \d+ at \S+ (?:add \d+|drain \d+|move \d+ \d+|weight \d+ \d+) buckets (\d+) of (\d+)(?: home \d+)? owns .+")
NEEDED = re.compile(r"needed change \d+ for (\S+) by (\S+)")
OPEN_END = re.compile(r"open-at-end change \d+ connections \d+ longest-idle (\S+)")


UNPROVED = """no proved program is built, or a source is newer: each replay compiles the source first, without proof, for a minute or two; \
{} proves and builds it"""
# What stands before a fault: the program's name, and that of a part or of a script.
FILE = re.compile(r"beamer(?:-connections: .*?/(?:part|script)[-\w.]*)?: ")


def is_unproved():
    """Whether `beamer-connections` has no proved program to run, and compiles its source instead."""
    crate = "bm_connections_app"
    words = [os.path.join(TOP, "tools", "crates"), "stale", os.path.join(TOP, "crates", crate, "out", crate), crate]
    return "CONNECTIONS" not in os.environ and subprocess.run(words, stdout=subprocess.DEVNULL).returncode == 0


def faults_of(path):
    """The file with the faults of a process whose output is in this one."""
    return f"{path}-faults"


class Connection:
    """What the program tells of a connection. Times are nanoseconds after the moment 0. `forward` is that of the last packet that was
    forwarded, and `wait` how long before it the bucket had left the server to which it went."""

    __slots__ = (
        *("client", "service", "verdict", "cause", "opened", "last", "ended", "server", "at"),
        *("is_broken", "is_refused", "is_by_the_change", "is_losing_data", "forward", "wait"),
    )

    def __init__(self, line):
        read = CONNECTION.fullmatch(line)
        self.client, self.service, self.verdict, self.cause = read["client"], read["service"], read["verdict"], read["cause"]
        self.opened, self.last, self.ended = seconds(read["opened"]), seconds(read["last"]), read["ended"]
        self.server = None if read["server"] == "none" else int(read["server"])
        self.at = read["at"] and seconds(read["at"])
        self.is_broken, self.is_refused = read["end"] == "broken", read["end"] == "refused"
        self.is_by_the_change, self.is_losing_data = read["why"] == "by-the-change", bool(read["losing"])
        self.forward, self.wait = read["forward"] and seconds(read["forward"]), read["wait"] and seconds(read["wait"])

    @property
    def flow(self):
        return self.client, self.service


class Need(NamedTuple):
    """How long after a change an old server was needed, and by which client."""

    wait: int
    client: str


class Outcome:
    """What the program tells of a replay of one part: how many connections there are, those that are broken or refused, and all lines
    that aren't of connections. The file of this name has what it said."""

    def __init__(self, path):
        self.path = path
        with open(path, "rb") as file:
            text = file.read()
        self.count = text.count(b"\nconnection ")
        last = text.rfind(b"\nconnection ")
        rest = text[text.find(b"\n", last + 1) + 1 if last >= 0 else text.find(b"\n") + 1 :]
        self.lines = [text[: text.find(b"\n")].decode(), *rest.decode().splitlines()]
        self.failed = list(map(Connection, lines_with(text, b" because ")))

    def of_clients(self, clients):
        """The connections of these clients in the part."""
        begins = tuple(f"connection {client} " for client in clients)
        with open(self.path) as file:
            yield from (Connection(line.rstrip("\n")) for line in file if line.startswith(begins))

    def connections(self):
        """All connections of the part."""
        with open(self.path) as file:
            yield from (Connection(line.rstrip("\n")) for line in file if line.startswith("connection "))


def lines_with(text, word):
    """The lines of octets that have this word."""
    place = text.find(word)
    while place >= 0:
        end = text.find(b"\n", place)
        yield text[text.rfind(b"\n", 0, place) + 1 : end].decode()
        place = text.find(word, end)


class Replay:
    """What the program tells of a replay of all parts of a capture: how many connections there are, those that are broken or refused by
    flow, how many buckets each change moves, of how many, the least timeout that is long enough where packets came too late, the longest
    need of an old server, and how many connections are open at the end, away from their server, with the longest time since the last packet
    of one. `lines` has all lines that aren't of connections."""

    def __init__(self, outcomes):
        self.outcomes, self.lines = outcomes, [line for it in outcomes for line in it.lines]
        self.count, self.failed = sum(it.count for it in outcomes), {one.flow: one for it in outcomes for one in it.failed}
        answers = [ANSWER.fullmatch(it.lines[0]) for it in outcomes]
        self.late_s = max(int(it["late_s"] or 0) for it in answers) or None
        self.open = sum(int(it["open"]) for it in answers)
        self.moved = [tuple(map(int, CHANGE.fullmatch(line).groups())) for line in outcomes[0].lines if line.startswith("change ")]
        needs = [Need(seconds(read[1]), read[2]) for read in map(NEEDED.fullmatch, self.lines) if read]
        self.needed = max(needs, key=lambda it: it.wait, default=None)
        self.idle = max([0, *(seconds(read[1]) for read in map(OPEN_END.fullmatch, self.lines) if read)])

    @cached_property
    def connections(self):
        """All connections by flow."""
        return {one.flow: one for it in self.outcomes for one in it.connections()}


class Engine:
    """Replays the parts of a capture by scripts, as many at a time as there are processors. Several threads may ask for replays."""

    # Where processes write what isn't output, if not to a file of their own.
    errors = None

    def __init__(self, folder, paths, progress=None):
        self.program = os.environ.get("CONNECTIONS", os.path.join(TOP, "beamer-connections"))
        self.folder, self.paths, self.progress = folder, paths, progress
        self.running, self.bases, self.files, self.is_stopped, self.calls = set(), {}, 0, False, []
        self.lock, self.pool = threading.Lock(), ThreadPoolExecutor(processors())

    def __enter__(self):
        return self

    def __exit__(self, *wrong):
        self.stop()

    def stop(self):
        """Ends what runs, and begins nothing more."""
        with self.lock:
            self.is_stopped = True
            for process in self.running:
                if process.poll() is None:
                    self.kill(process)
        self.pool.shutdown(wait=False, cancel_futures=True)

    def kill(self, process):
        os.killpg(process.pid, signal.SIGKILL)

    def begun(self, words, path, source=subprocess.DEVNULL):
        """A process that writes to this file, and its faults to another, in a group of its own, so that what it starts ends with it."""
        with self.lock, open(path, "xb") as file, open(faults_of(path), "xb") as faults:
            if self.is_stopped:
                raise Refusal(READ, "the replays were stopped")
            try:
                process = subprocess.Popen(words, stdin=source, stdout=file, stderr=self.errors or faults, process_group=0)
            except OSError as wrong:
                raise Refusal(READ, f"{words[0]}: {wrong.strerror.lower()}; tools/prove builds it") from None
            self.running.add(process)
            self.calls.append(words)
            return process

    def ended(self, process):
        with self.lock:
            self.running.discard(process)

    def answered(self, script, *words, program=None):
        """The name of a file with the output of a program for this script, where its status is 0. `beamer` tells of faults there too."""
        path = self.new("told")
        with self.begun([program or self.program, *words], path) as process:
            status = process.wait()
        self.ended(process)
        told = faults_of(path)
        self.look_at(script, told if os.path.getsize(told) else path, status)
        return path

    def look_at(self, script, path, status):
        """Refuses what the program refused. The last line of this file says why, with the name of a temporary file."""
        if status:
            with open(path, errors="replace") as file:
                line = FILE.sub("", file.read(65_536).strip().rpartition("\n")[2])
            told = explained_of(script, line) if status == SCRIPT else line or f"{self.program} ended with status {status}"
            raise Refusal(status if 2 <= status <= 7 else READ, told)

    def new(self, name):
        """The name of a new file in the folder."""
        with self.lock:
            self.files += 1
            return os.path.join(self.folder, f"{name}-{self.files}")

    def written(self, script):
        path = self.new("script")
        write(path, [script.text().encode()])
        return path

    def replay(self, script):
        """What the program tells of a replay by this script."""
        path = self.written(script)
        if self.progress:
            self.progress.add(len(self.paths))
        return Replay(list(self.pool.map(lambda part: self.replayed(script, part, path), self.paths)))

    def replayed(self, script, part, path):
        outcome = Outcome(self.answered(script, part, path))
        if self.progress:
            self.progress.step()
        return outcome

    def base(self, script):
        """The replay of a script without its changes. Scripts that differ in their changes alone have one."""
        without = script.without_changes()
        text = without.text()
        with self.lock:
            is_new = text not in self.bases
            known = self.bases.setdefault(text, Future())
        if is_new:
            try:
                known.set_result(self.replay(without))
            except BaseException as wrong:
                known.set_exception(wrong)
        return known.result()

    def lifetime(self, script):
        """How long a connection may live by the script, in nanoseconds; None without a bound."""
        with open(self.answered(script, "--lifetime", self.written(script))) as file:
            word = file.readline().split()[1]
        return None if word == "unbounded" else seconds(word)

