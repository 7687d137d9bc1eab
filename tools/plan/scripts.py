"""Scripts: a fleet, and what is to be changed in it."""
import heapq, ipaddress, json, re
from datetime import datetime
from typing import NamedTuple
from plan.faults import SCRIPT, USAGE, Refusal
from plan.moments import moment_of, of_datetime, within

CHANGES = "add", "drain", "move", "weight"
DEFAULT_SERVICES, DEFAULT_SERVERS, DEFAULT_BUCKETS = ["192.0.2.1:80"], [1, 2], 8
DEFAULT_TIMEOUT_S, LONGEST_TIMEOUT_S, MOST_WEIGHT = 240, 86_400, 1_000
MARK = b"\xef\xbb\xbf"


def endpoint_text(address, port):
    return f"{ipaddress.IPv4Address(address)}:{port}"


def service(text):
    """The address and the port of a service, as `vips` names it."""
    address, _, port = text.rpartition(":") if isinstance(text, str) else ("", "", "")
    try:
        if re.fullmatch("[1-9][0-9]{0,4}", port) and int(port) <= 65535:
            return int(ipaddress.IPv4Address(address)), int(port)
    except ValueError:
        pass
    raise Refusal(SCRIPT, f"{text!r} isn't a service: say ADDRESS:PORT, like 192.0.2.1:80")


def written(value):
    """A value of a script in TOML."""
    if isinstance(value, dict):
        return "{" + ", ".join(f"{key} = {written(item)}" for key, item in value.items()) + "}"
    return "[" + ", ".join(map(written, value)) + "]" if isinstance(value, list) else json.dumps(value)


class Script:
    """The values of a script. `origins` says for each command where it is from: its number in the file, or the option that says it. `file`
    is the name and the text of that file."""

    def __init__(self, values, origins=None, file=(None, "")):
        self.file = file
        self.fleet = {key: value for key, value in values.items() if key != "command"}
        self.commands = values.get("command", [])
        if not isinstance(self.commands, list) or not all(isinstance(it, dict) for it in self.commands):
            raise Refusal(SCRIPT, "command isn't an array of tables: write [[command]] above each")
        self.origins = origins or list(range(1, len(self.commands) + 1))

    @property
    def services(self):
        vips = self.fleet.get("vips", DEFAULT_SERVICES)
        if not isinstance(vips, list):
            raise Refusal(SCRIPT, "vips isn't an array")
        return set(map(service, vips))

    @property
    def timeout_s(self):
        return self.fleet.get("timeout_s", DEFAULT_TIMEOUT_S)

    @property
    def lags(self):
        """The lags of the muxes in nanoseconds, where the script has them as it should."""
        lags = self.fleet.get("lags_ns", [])
        return lags if isinstance(lags, list) and all(type(lag) is int for lag in lags) else []

    def look(self):
        """Refuses what goes by the numbers of records, since the packets are numbered anew."""
        if self.fleet.get("fault"):
            told = "its fault tables name records of one capture, and packets are numbered anew here"
            raise Refusal(SCRIPT, f"{told}: use ./beamer-connections")
        if self.fleet.get("route") == "turn" and len(set(self.lags)) > 1:
            raise Refusal(SCRIPT, 'with route = "turn" and unequal lags the muxes go by the numbers of records: use ./beamer-connections')

    @property
    def changes(self):
        return [command for command in self.commands if command.get("do") in CHANGES]

    def changes_after(self, moment):
        """How many of its changes come after this moment."""
        return sum(it["at_ns"] > moment for it in self.changes)

    def with_timeout(self, timeout_s):
        return Script({**self.fleet, "timeout_s": timeout_s, "command": self.commands}, self.origins, self.file)

    def with_commands(self, commands, origins):
        """The script with these commands in place of its own."""
        return Script({**self.fleet, "command": commands}, origins, self.file)

    def without_changes(self):
        """The script without its changes, and without what is asked of servers that only an `add` brings."""
        added = {command.get("server") for command in self.commands if command.get("do") == "add"}
        rest = [
            (it, origin)
            for it, origin in zip(self.commands, self.origins)
            if it.get("do") not in CHANGES and it.get("server") not in added
        ]
        return self.with_commands([it for it, _ in rest], [origin for _, origin in rest])

    def text(self):
        """The script in TOML, as the programs read it."""
        lines = [f"{key} = {written(value)}" for key, value in self.fleet.items()]
        for command in self.commands:
            lines += ["", "[[command]]", *[f"{key} = {written(value)}" for key, value in command.items()]]
        return "\n".join(lines) + "\n"


# COMMANDS


def said(verb, text):
    """The command that is said in a word like `2@21:02:11`, and its moment's text."""
    what, at, when = text.partition("@")
    server, equals, weight = what.partition("=")
    numbers = [server, weight] if equals else [server]
    is_wrong = any(not re.fullmatch("[0-9]{1,9}", it) for it in numbers)
    if not at or is_wrong or (verb == "weight") > bool(equals) or (verb == "drain") and equals:
        form = {"add": "SERVER@MOMENT or SERVER=WEIGHT@MOMENT", "drain": "SERVER@MOMENT", "weight": "SERVER=WEIGHT@MOMENT"}[verb]
        raise Refusal(USAGE, f"--{verb} {text}: say --{verb} {form}")
    command = {"do": verb, "server": int(server)} | ({"weight": int(weight)} if equals else {})
    return command, when


class Dated(NamedTuple):
    """A command with its time, and where it is from."""

    time: int
    origin: object
    command: dict


def dated(script, words, begin, end, zero, more=()):
    """The script with the commands that were said among its own, and with times as moments after `zero`. `words` has verbs and what was
    said of each, and `more` has commands with their times. The captures last from `begin` to `end`."""
    own = [Dated(time_of(it, begin, end), origin, it) for it, origin in zip(script.commands, script.origins)]
    more = list(more)
    for verb, text in words:
        command, when = said(verb, text)
        more.append(Dated(moment_of(when, begin, end), f"--{verb} {text}", command))
    every = list(heapq.merge(own, sorted(more, key=lambda it: it.time), key=lambda it: it.time))
    fleet = dict(script.fleet)
    if any("weight" in it.command for it in more) and fleet.get("version", 1) == 1:
        fleet = {"version": 2} | {key: value for key, value in fleet.items() if key != "version"}
    commands = [{"at_ns": it.time - zero} | {key: value for key, value in it.command.items() if key not in ("at", "at_ns")} for it in every]
    return Script({**fleet, "command": commands}, [it.origin for it in every], script.file)


def time_of(command, begin, end):
    """The time of a command of a script: `at`, in UTC, or `at_ns`, after the captures' beginning."""
    at = command.get("at")
    if at is None:
        at_ns = command.get("at_ns")
        if type(at_ns) is not int or at_ns < 0:
            raise Refusal(SCRIPT, f"a command that is to {command.get('do', 'do something')} has neither `at` nor a whole `at_ns`")
        return begin + at_ns
    if not isinstance(at, datetime):
        raise Refusal(SCRIPT, f"at = {at} is no date and time: write it like 2026-11-27T21:02:11Z")
    return within(of_datetime(at), str(at), begin, end)


def words_of(command):
    """A command as one says it."""
    verb, server = command["do"], command.get("server")
    weight = f" weight {command['weight']}" if "weight" in command else ""
    if verb == "move":
        return f"move bucket {command.get('bucket')} to server {server}"
    return f"{'give' if verb == 'weight' else verb} server {server}{weight}"
