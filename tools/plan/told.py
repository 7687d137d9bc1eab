"""What lines of a replay say besides those of connections, of all parts of a capture together."""
import re
from typing import NamedTuple
from plan.moments import seconds

NEEDED = re.compile(r"needed change (\d+) for (\S+) by (\S+)")
THIRD = re.compile(r"moved-thrice changes (\d+) (\d+) (\d+) by (\S+) for (\S+)")


class Third(NamedTuple):
    """A third change that breaks connections, how much later it has to come, and the client for which."""

    change: int
    wait: int
    client: str


def read_by(pattern, replay):
    return [found for found in map(pattern.match, replay.lines) if found]


def needed_changes(replay):
    """For each change because of which packets were forwarded, how long after it the last of them came."""
    longest = {}
    for number, wait, _ in (found.groups() for found in read_by(NEEDED, replay)):
        longest[int(number)] = max(seconds(wait), longest.get(int(number), 0))
    return longest


def first_third(replay):
    """The first change that comes too early since it moves a bucket a third time, and None if there is none. Of several connections
    that of the longest wait is told."""
    thirds = [Third(int(found[3]), seconds(found[4]), found[5]) for found in read_by(THIRD, replay)]
    return min(thirds, key=lambda it: (it.change, -it.wait), default=None)
