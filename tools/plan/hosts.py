"""Replays parts of a capture on several machines: GNU parallel hands them out through ssh."""
import base64, io, os, re, shlex, shutil, signal, subprocess, tarfile
from concurrent.futures import ThreadPoolExecutor
from contextlib import suppress
from plan.engine import Engine, Outcome, Replay
from plan.faults import READ, USAGE, Refusal
from plan.selection import write
from plan.where import text_of

MARK = b"=--=\n"
# What a machine does with a part and a script. Its points go through the connection, so that it ends what it does when that breaks.
REMOTE = """\
job=
folder=$(mktemp -d "${TMPDIR:-/tmp}/beamer-plan-XXXXXX") || exit
trap '[ -z "$job" ] || kill -s KILL -- "-$job"; rm -rf "$folder"' EXIT
trap 'exit 1' HUP INT TERM
trap '' PIPE
base64 -d | tar xz -C "$folder" || exit
setsid PROGRAM "$folder/part.pcap" "$folder/script.toml" < /dev/null > "$folder/told" 2> "$folder/faults" & job=$!
(while sleep 0.5 > /dev/null 2>&1; do echo . || { kill -s KILL -- "-$job"; exit; }; done) 2> /dev/null & points=$!
wait $job
status=$? job=
kill $points
[ "$status" = 0 ] && cat "$folder/told" || tail -n 1 "$folder/faults"
echo "ended $status"
"""
ENDED = re.compile(rb"^ended (\d+)\n", re.M)
# The status of ssh where a machine can't be reached.
NO_HOST = 255


def hosts_of(path):
    """The machines that a file names, one in a line. N/ before one is how many replays it does at a time."""
    lines = [line.partition("#")[0].strip() for line in text_of(path).splitlines()]
    for number, line in enumerate(lines, 1):
        if line and not re.fullmatch(r"(?:[1-9]\d*/)?[^\s/]+", line):
            raise Refusal(USAGE, f"{path}:{number}: say a host for ssh, like 4/user@host, where 4 is how many replays it does at a time")
    if not any(lines):
        raise Refusal(USAGE, f"{path}: it names no host")
    return list(filter(None, lines))


def look_for_parallel():
    if shutil.which("parallel"):
        told = subprocess.run(["parallel", "--will-cite", "--version"], stdin=subprocess.DEVNULL, capture_output=True, text=True).stdout
        if told.startswith("GNU parallel"):
            return
    raise Refusal(READ, "--hosts: GNU parallel isn't installed (`apt-get install parallel`)")


class Hosts(Engine):
    """Replays the parts of a capture on the machines that a file names. Lifetimes, which need no capture, are computed here."""

    errors = subprocess.DEVNULL

    def __init__(self, folder, paths, progress, file, configuration):
        super().__init__(folder, paths, progress)
        self.name, hosts, self.file = file, hosts_of(file), self.new("hosts")
        write(self.file, [f"{host}\n".encode() for host in hosts])
        own = ["-F", os.path.abspath(configuration)] if configuration else []
        self.ssh = ["ssh", "-o", "BatchMode=yes", "-o", "ConnectTimeout=10", *own]
        look_for_parallel()
        with ThreadPoolExecutor(len(hosts)) as pool:
            list(pool.map(self.look, [host.rpartition("/")[2] for host in hosts]))

    def look(self, host):
        """Refuses a machine that can't be reached, or lacks the program."""
        words = [*self.ssh, host, "test", "-x", shlex.quote(self.program)]
        done = subprocess.run(words, stdin=subprocess.DEVNULL, capture_output=True, text=True, process_group=0)
        if done.returncode == NO_HOST:
            told = done.stderr.strip().splitlines()[-1:] or ["ssh failed"]
            raise Refusal(READ, f"{host}: it can't be reached: {told[0].strip().removeprefix('ssh: ')}")
        if done.returncode:
            raise Refusal(READ, f"{host}: it has no {self.program}: build the programs there, under the same name")

    def replay(self, script):
        return self.pool.submit(self.replayed_there, script).result()

    def replayed_there(self, script):
        path, told = self.written(script), self.new("told")
        if self.progress:
            self.progress.add(len(self.paths))
        with suppress(BrokenPipeError), self.begun(self.words(), told, subprocess.PIPE) as process:
            for part in self.paths:
                process.stdin.write(packed({"part.pcap": part, "script.toml": path}) + MARK)
        self.ended(process)
        return Replay([self.outcome(script, *answer) for answer in self.split(told)])

    def kill(self, process):
        """Ends GNU parallel and each ssh that it started, which are in groups of their own."""
        os.kill(process.pid, signal.SIGSTOP)
        for number in with_children(process.pid):
            with suppress(ProcessLookupError):
                os.kill(number, signal.SIGKILL)

    def words(self):
        """The words by which GNU parallel gives each machine some parts, which are parts of its standard input."""
        remote = f"sh -c {shlex.quote(REMOTE.replace('PROGRAM', shlex.quote(self.program)))}"
        words = ["--will-cite", "--pipe", "-N1", "--recend", MARK.decode().replace("\n", "\\n"), "--rrs", "--keep-order", "--block", "64M"]
        return ["parallel", *words, "--ssh", shlex.join(self.ssh), "--sshloginfile", self.file, remote]

    def split(self, told):
        """The output for each part, in a file of its own, with its status."""
        with open(told, "rb") as file:
            text = file.read()
        os.unlink(told)
        ends = list(ENDED.finditer(text))
        if len(ends) != len(self.paths):
            raise Refusal(READ, f"{self.name}: a host ended before it had answered; is each of them still there, with room in its /tmp?")
        begin = 0
        for end in ends:
            path = self.new("told")
            write(path, [text[begin : end.start()].lstrip(b".\n")])
            begin = end.end()
            yield path, int(end[1])

    def outcome(self, script, path, status):
        self.look_at(script, path, status)
        if self.progress:
            self.progress.step()
        return Outcome(path)


def with_children(number):
    """The numbers of a process, of what it started, and so on."""
    found = [number]
    for one in found:
        with suppress(OSError), open(f"/proc/{one}/task/{one}/children") as file:
            found += map(int, file.read().split())
    return found


def packed(files):
    """Files as a compressed archive, in letters."""
    octets = io.BytesIO()
    with tarfile.open(fileobj=octets, mode="w:gz", compresslevel=1) as archive:
        for name, path in files.items():
            archive.add(path, name)
    return base64.b64encode(octets.getvalue())
