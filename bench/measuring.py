"""Measures calls of programs, for the scripts of this folder, and lets them import the modules of tests/."""
import collections, json, os, statistics, subprocess, sys

sys.path.append(os.path.join(os.path.dirname(os.path.dirname(os.path.realpath(__file__))), "tests"))

# The status of a call, its seconds by the clock and of processors, and its peak memory in MiB.
Call = collections.namedtuple("Call", "status wall spent peak")
# The memory of the process that starts a program counts as the program's, so a small process starts it.
STARTER = """
import json, os, sys, time
out = [(os.POSIX_SPAWN_OPEN, 1, sys.argv[1], os.O_WRONLY | os.O_CREAT | os.O_TRUNC, 0o600)]
began = time.time()
_, status, usage = os.wait4(os.posix_spawnp(sys.argv[2], sys.argv[2:], os.environ, file_actions=out), 0)
took = time.time() - began, usage.ru_utime + usage.ru_stime, usage.ru_maxrss / 1024
print(json.dumps([os.waitstatus_to_exitcode(status), *took]))
"""


def large_pages():
    """Has the programs ask for large pages, as ./beamer does."""
    os.environ.setdefault("GLIBC_TUNABLES", "glibc.malloc.hugetlb=1")


def ended(words, out=os.devnull, processors=None):
    """A call whose output goes to `out`, on the first processors if their number is given."""
    pin = processors and (lambda: os.sched_setaffinity(0, range(processors)))
    starter = [sys.executable, "-S", "-c", STARTER, out, *words]
    done = subprocess.run(starter, stdout=subprocess.PIPE, preexec_fn=pin, check=True)
    return Call(*json.loads(done.stdout))


def measure(words, out=os.devnull, processors=None):
    """The same of a call that has to end with status 0."""
    call = ended(words, out, processors)
    if call.status:
        sys.exit(f"status {call.status} of {words}")
    return call


def medians(calls):
    """The medians of several calls."""
    return Call(*map(statistics.median, zip(*calls)))
