"""Plays a script by threads, in whatever order they come, and compares where each packet ends with the replay."""
import os
from plan.engine import TOP
from plan.faults import USAGE, Refusal
from plan.moments import SECOND

# The most syncs: a script has at most 4,096 commands.
MOST_SYNCS, MOST = 2_000, 1_000


def synced(script, end_ns):
    """The script with a sync each quarter of its timeout until this moment, or fewer if these are too many. Without them the threads of
    the muxes run ahead of each other, by more than the muxes of a fleet do, and break what a replay keeps."""
    apart = max(script.timeout_s * SECOND // 4, -(-end_ns // MOST_SYNCS))
    syncs = [({"at_ns": at, "do": "sync"}, "--schedules") for at in range(apart, end_ns, apart)]
    commands = sorted([*zip(script.commands, script.origins), *syncs], key=lambda it: it[0]["at_ns"])
    return script.with_commands([it for it, _ in commands], [origin for _, origin in commands])


def endings(path):
    """The lines of a report that say where a packet ended."""
    with open(path) as file:
        return sorted(line for line in file if line.startswith("packet "))


class Schedules:
    """How a script was played by threads so many times: how many packets ended otherwise than in the replay in one of these at least."""

    def __init__(self, engine, script, number, end_ns):
        self.number, self.others, self.is_alone = number, 0, script.fleet.get("muxes", 1) == 1
        script, program = synced(script, end_ns), os.environ.get("BEAMER", os.path.join(TOP, "beamer"))
        path = engine.written(script)
        for part in engine.paths:
            self.others += len(others(engine, script, [program, part, path], number))

    def lines(self):
        times = f"played {self.number:,} {'time' if self.number == 1 else 'times'} by threads, with syncs"
        if self.others:
            end = "packet ends" if self.others == 1 else "packets end"
            yield f"{times}: {self.others:,} {end} otherwise than in the replay at least once"
        else:
            yield f"{times}: each packet ends as in the replay"
        if self.is_alone:
            yield "  the fleet has one mux, so one thread steers all packets: `muxes = N` in the fleet says how many it has"


def others(engine, script, words, number):
    """The packets of a part that ended otherwise."""
    program, part, path = words

    def told(form):
        file = engine.answered(script, form, part, path, program=program)
        lines = endings(file)
        os.unlink(file)
        return set(lines)

    wanted, found = told("replay"), set()
    for _ in range(number):
        found |= {line.split()[1] for line in told("run") ^ wanted}
    return found


def look(number):
    """Refuses a number of schedules that is none."""
    if number is not None and not 1 <= number <= MOST:
        raise Refusal(USAGE, f"--schedules N: from 1 to {MOST:,}")
