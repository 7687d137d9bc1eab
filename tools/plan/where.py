"""Where in a script a fault is that the program names, and what to write instead."""
import re, tomllib
from plan.faults import SCRIPT, Refusal, of_file
from plan.scripts import MARK

FAULT = re.compile(r"(?:(?P<table>fault|command) (?P<number>\d+): )?(?P<what>.+)")
KEYED = re.compile(r"(?:unknown key|missing|bad value of) (\S+)")
# What to do about the words of a fault; the first that fits counts.
REMEDIES = {
    "unknown key weights": "write `version = 2` above it",
    "unknown key racks": "write `version = 3` above it",
    "unknown key weight": "write `version = 2` above all tables",
    "bad value of do": "say add, drain, move, close, retire or sync; `weight` wants `version = 2` above all tables",
    "bad value of at_ns": "moments are whole nanoseconds after the first record, and must not fall",
    "bad value of vips": 'say addresses, not names: vips = ["192.0.2.1:80"]',
    "unknown key": "look for a misspelt key; keys of the fleet stand above commands",
    "missing": "write it",
    "bad value of": "docs/FORMATS.md has the range of each key",
    "known server": "the server was there before; give the new one another number",
    "unknown server": "name a server that is among `servers` or was added before",
    "not active": "the server was drained before",
    "last server": "add another server before",
    "last in rack": "add another server to its rack before",
    "bad bucket": "buckets count from 0 to one less than `buckets`",
    "wrong rack": "bucket b stays in rack b mod racks",
    "same server": "the bucket is there already",
}


def remedy(what):
    return next((told for words, told in REMEDIES.items() if what.startswith(words)), "docs/FORMATS.md says what a script may have")


def lines_of(text):
    """For each line of a script its number, its table (`fault`, `command` or nothing) and which of them, and its key."""
    table, counts = "", {}
    for number, line in enumerate(text.splitlines(), 1):
        header = re.match(r"\s*\[\[\s*(\w+)\s*\]\]", line)
        if header:
            table = header[1]
            counts[table] = counts.get(table, 0) + 1
        key = re.match(r"\s*([\w-]+)\s*=", line)
        yield number, table, counts.get(table, 0), key and key[1]


def line_of(text, table, number, key):
    """The line of that key in that table, or else the table's first line, and None if neither is found."""
    inside = [(at, name) for at, its, count, name in lines_of(text) if its == (table or "") and count == number]
    return next((at for at, name in inside if name == key), inside[0][0] if inside and table else None)


def explained(path, text, line):
    """What a program says of a script's fault: where in this text it is, and what to do."""
    read = FAULT.fullmatch(line)
    if not read:
        return f"{path}: {line}"
    key = KEYED.match(read["what"])
    keys = {"at": "at_ns"}
    found = line_of(text, read["table"], int(read["number"] or 0), key and keys.get(key[1], key[1]))
    place = f"{path}:{found}" if found else f"{path}{f': {read[1]} {read[2]}' if read['table'] else ''}"
    return f"{place}: {read['what']}; {remedy(read['what'])}"


def explained_of(script, line):
    """What a program says of the fault of a script that was put together: what it means, where it is, and what to do."""
    path, text = script.file
    read = re.match(r"command (\d+): (.*)", line)
    origin = read and script.origins[int(read[1]) - 1]
    if isinstance(origin, str):
        return f"{origin}: {read[2]}; {remedy(read[2])}"
    return explained(path or "the fleet", text, f"command {origin}: {read[2]}" if read else line)


def text_of(path):
    try:
        with open(path, "rb") as file:
            return file.read().removeprefix(MARK).decode()
    except OSError as wrong:
        raise of_file(path, wrong) from None
    except UnicodeDecodeError:
        raise Refusal(SCRIPT, f"{path}: it is no text; is it a capture?") from None


def values_of(path, text):
    """The values of a script, or the refusal with the line of its fault."""
    try:
        return tomllib.loads(text)
    except tomllib.TOMLDecodeError as wrong:
        place = re.search(r"(.*) \(at line (\d+), column \d+\)", str(wrong))
        raise Refusal(SCRIPT, f"{path}:{place[2]}: {place[1].lower()}" if place else f"{path}: {wrong}") from None
    except RecursionError:
        raise Refusal(SCRIPT, f"{path}: its arrays or tables are nested too deeply") from None
