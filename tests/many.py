"""Stands for beamer-connections where a page of many connections is tested: prints lines in its form for so many connections, which are
made up by their numbers. Server 2 of eleven is drained at 8 seconds.

usage: MANY=COUNT python3 tests/many.py PART SCRIPT [--of CLIENT SERVICE] | --lifetime SCRIPT
"""
import os, random, re, sys
from decimal import Decimal

DRAIN, LATE_S = 8, 18
CHANGE = "change 1 at 8.000000000 drain 2 buckets 92 of 1009 owns 1:101"


def seconds(time):
    return f"{Decimal(time):.9f}"


def line(number, timeout_s):
    """The line of a connection; without a timeout that of one that nothing changes."""
    rng = random.Random(number)
    opened, server = rng.uniform(0, 20), number % 11 + 1
    last = min(opened + rng.choice([0.01, 0.2, 0.5, rng.uniform(0.1, 25)]), 25.9)
    client = f"10.0.{number >> 14}.{number % 200}:{1024 + number}"
    begin = f"connection {client} 127.0.0.1:8080 opened 1 at {seconds(opened)} last 9 at {seconds(last)}"
    end = rng.choice(["fin", "rst", "open"])
    counts = f"accepted {server} times 1 processed 9 forwarded 0 dropped 0 reset 0 stray 0 after-its-end 0 end {end}"
    wait = last - DRAIN
    if timeout_s is None or server != 2 or opened > DRAIN or wait < 0:
        return f"{begin} {counts} whole"
    if wait <= timeout_s:
        return f"{begin} {counts} last-forward 8 by 1 at {seconds(last)} after {seconds(wait)} whole"
    at = seconds(min(last, DRAIN + timeout_s + rng.random()))
    return f"{begin} {counts} broken 7 reset chain-expired because chain-late at {at} by-the-change{' losing-data' if number % 2 else ''}"


def replayed(count, timeout_s):
    lines = [line(number, timeout_s) for number in range(count)]
    broken = sum(" broken 7 " in it for it in lines)
    late = f" timeout_s {LATE_S}" if broken else ""
    head = f"answer connections {count} broken {broken} by-the-change {broken} losing-data 0 refused 0 open-at-end 0{late}"
    return [head, *lines, *([] if timeout_s is None else [CHANGE])]


def main():
    count, words = int(os.environ["MANY"]), sys.argv[1:]
    with open(words[1]) as file:
        script = file.read()
    timeout_s = int(re.search(r"timeout_s = (\d+)", script)[1]) if "[[command]]" in script else None
    if words[0] == "--lifetime":
        print("lifetime 1.987740160")
    elif "--of" in words:
        port = int(words[3].rpartition(":")[2])
        print(line(port - 1024, timeout_s), "story 8.000000001 8000000001 publish 1", sep="\n")
    else:
        print("\n".join(replayed(count, timeout_s)))


main()
