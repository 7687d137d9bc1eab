"""What a plan breaks, what would keep it, and what the captures can't tell."""
from functools import cached_property
from plan.moments import SECOND
from plan.scripts import LONGEST_TIMEOUT_S

# How many timeouts are tried.
TRIES = 8


class Judge:
    """Tells of replays of a script with other waits and timeouts what its changes break."""

    def __init__(self, engine, script):
        self.engine, self.script = engine, script

    @cached_property
    def failed(self):
        """The flows that are broken or refused without the changes."""
        return self.engine.base(self.script).failed

    def by_the_change(self, replay):
        """The connections that the changes break in this replay, as the program says, and those that they have refused."""
        found = [it for it in replay.failed.values() if it.is_by_the_change or it.is_refused and it.flow not in self.failed]
        return sorted(found, key=lambda it: it.at)


class Judgement(Judge):
    """What replays say of a script: its replay, the flows that the changes break or refuse, and a timeout that keeps what a timeout can
    keep, with its replay."""

    def __init__(self, engine, script):
        super().__init__(engine, script)
        self.replay = engine.replay(script)
        self.broken = self.by_the_change(self.replay)
        self.keeping_s, self.kept = self.keeping()
        self.lifetime = engine.lifetime(script)

    def keeping(self):
        """The least timeout that is found with which no packet comes too late, and what the changes break then. Each is replayed. None
        where no packet comes too late now, or where no timeout is enough."""
        replay, timeout_s = self.replay, None
        for _ in range(TRIES):
            if replay.late_s is None or not any(it.cause == "chain-late" for it in self.by_the_change(replay)):
                return timeout_s, timeout_s and self.by_the_change(replay)
            if replay.late_s > LONGEST_TIMEOUT_S:
                break
            timeout_s = replay.late_s
            replay = self.engine.replay(self.script.with_timeout(timeout_s))
            self.kept_replay = replay
        return None, None

    @property
    def lasting(self):
        """The replay that tells how long the old servers are needed: with the timeout that keeps connections, if one was found."""
        return self.kept_replay if self.keeping_s else self.replay


class Answer(Judgement):
    """The answer for a script: what replays say of it, what breaks without its changes too, and, if that was asked, how threads play it."""

    schedules = None

    def __init__(self, engine, script, traffic, zero):
        super().__init__(engine, script)
        self.traffic, self.zero = traffic, zero
        broken = {it.flow for it in self.broken}
        self.anyway = [it for flow, it in self.replay.failed.items() if flow not in broken]
        self.kept_lifetime = engine.lifetime(script.with_timeout(self.keeping_s)) if self.keeping_s else None

    def switch_off(self):
        """For each server that is drained, the time from which it may be switched off: the timeout and the longest lag after its drain."""
        wait = (self.keeping_s or self.script.timeout_s) * SECOND + max(self.script.lags, default=0)
        return [(it["server"], self.zero + it["at_ns"] + wait) for it in self.script.changes if it["do"] == "drain"]
