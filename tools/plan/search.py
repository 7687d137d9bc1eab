"""The least waits between the changes of a script, and the least timeout for them, with which they break nothing in a capture."""
from plan.answers import Judge
from plan.faults import USAGE, Refusal
from plan.moments import MILLISECOND, SECOND
from plan.scripts import CHANGES, LONGEST_TIMEOUT_S
from plan.told import first_third, needed_changes

# How many replays are tried, if it isn't said.
TRIES = 100
# By how much a retirement comes later than its timeout: more than the clocks of a replay run ahead of its moments.
SLACK = 13 * MILLISECOND


class NotFound(Exception):
    """Why there are no such waits and no such timeout."""


class Search(Judge):
    """Puts changes off and sets the timeout, each as little as is needed, until the changes break nothing. `waits` says of each change
    that was put off by how much, and for which client; `less` how many connections break with the next lower timeout. If none were
    found, `why` says why, and `script` is the last one that was replayed. If `why` is there though they were found, lower ones weren't
    all tried."""

    def __init__(self, engine, script, tries):
        if not script.changes:
            raise Refusal(USAGE, "--search: the script changes nothing; say --drain, --add or --weight, or a script with commands")
        super().__init__(engine, script)
        self.said, self.most, self.tries, self.timeout_s = script, tries, 0, LONGEST_TIMEOUT_S
        self.waits, self.clients, self.less, self.why, self.is_found = {}, {}, None, None, False
        try:
            self.put_off()
            self.raise_timeout()
            self.is_found = True
            self.lower_timeout()
        except NotFound as wrong:
            self.why = str(wrong)
        if self.is_found:
            self.script = spaced(script, self.waits, self.timeout_s)

    def broken(self, timeout_s):
        """The connections that the changes break with this timeout, and the replay."""
        if self.tries >= self.most:
            raise NotFound(f"--tries {self.most} was reached")
        self.tries += 1
        self.script = spaced(self.said, self.waits, timeout_s)
        replay = self.engine.replay(self.script)
        return self.by_the_change(replay), replay

    def put_off(self):
        """Puts off each change that comes too early as a third one, and all later ones with it. The timeout is the longest, so no packet
        comes too late. Since a change is put off before later ones are looked at, its wait is the least."""
        broken, replay = self.broken(self.timeout_s)
        while self.waits_for(broken, replay):
            broken, replay = self.broken(self.timeout_s)
        self.timeout_s = longest_wait_s(replay)

    def waits_for(self, broken, replay):
        """Whether a change has to wait, which is then put off."""
        third = first_third(replay)
        if third is None or not any(it.cause == "moved-thrice" for it in broken):
            return False
        self.waits[third.change] = self.waits.get(third.change, 0) + -(-third.wait // MILLISECOND) * MILLISECOND
        self.clients[third.change] = third.client
        return True

    def raise_timeout(self):
        """Raises the timeout until the changes break nothing. Retirements that are put off may put changes off."""
        broken, replay = self.broken(self.timeout_s)
        while broken:
            if any(it.cause == "chain-late" for it in broken) and replay.late_s:
                self.timeout_s = max(self.timeout_s + 1, replay.late_s)
            elif not self.waits_for(broken, replay):
                causes = ", ".join(sorted({it.cause for it in broken}))
                raise NotFound(f"neither waits nor a timeout keep {len(broken):,} connections ({causes})")
            if self.timeout_s > LONGEST_TIMEOUT_S:
                raise NotFound(f"no timeout up to {LONGEST_TIMEOUT_S:,} s is enough")
            broken, replay = self.broken(self.timeout_s)

    def lower_timeout(self):
        """Lowers the timeout as long as the changes break nothing: first by a second, then by halves."""
        low, middle = 0, self.timeout_s - 1
        while low < middle:
            broken, _ = self.broken(middle)
            if broken:
                low, self.less = middle, len(broken)
            else:
                self.timeout_s = middle
            middle = (low + self.timeout_s) // 2


def longest_wait_s(replay):
    """The least timeout in whole seconds with which each packet is forwarded that was forwarded here."""
    return max(1, -(-max(needed_changes(replay).values(), default=0) // SECOND))


def spaced(script, waits, timeout_s):
    """The script with this timeout, its changes put off by these waits, and retirements put off until the timeout has passed. What comes
    after a command is put off with it."""
    shift, number, drained, commands = 0, 0, {}, []
    for command in script.commands:
        number += command.get("do") in CHANGES
        shift += waits.get(number, 0) if command.get("do") in CHANGES else 0
        server, verb = command.get("server"), command.get("do")
        if verb == "retire" and server in drained and timeout_s < LONGEST_TIMEOUT_S:
            due = drained[server] + timeout_s * SECOND + max(script.lags, default=0) + SLACK
            shift = max(shift, due - command["at_ns"])
        commands.append({**command, "at_ns": command["at_ns"] + shift})
        if verb == "drain":
            drained[server] = command["at_ns"] + shift
    return script.with_commands(commands, script.origins).with_timeout(timeout_s)
