"""The table of several scripts, as text and as JSON."""
import json
from plan.moments import seconds_text
from plan.scripts import words_of
from plan.text import of_late, of_traffic, seconds_down, traffic_json

HEADS = "script", "broken", "losing data", "open at end", "timeout to keep", "old servers needed", "lifetime"
# After how many changes it is told how long old servers are needed.
LISTED = 6


def of_broken(row):
    """How many the changes break, and how many they have refused."""
    return f"{row.broken:,}" + (f" + {row.refused:,} refused" if row.refused else "")


def of_timeout(row):
    """The timeout with which none comes too late, and what breaks with it."""
    if row.keeping_s:
        return f"{row.keeping_s} s" + (f", breaks {row.left:,}" if row.left else "")
    if row.is_late:
        return "none found"
    return "none" if row.breaks else f"{row.timeout_s} s"


def of_needed(row):
    """How long the old server is needed that is needed longest."""
    return seconds_text(max(row.needed.values())) if row.needed else "-"


def of_lifetime(row):
    return "unbounded" if row.lifetime is None else seconds_down(row.lifetime)


def cells(row):
    return row.name, of_broken(row), f"{row.losing:,}", f"{row.open:,}", of_timeout(row), of_needed(row), of_lifetime(row)


def aligned(lines):
    """The lines of a table with columns: names to the left, numbers to the right."""
    widths = [max(map(len, column)) for column in zip(*lines)]
    for line in lines:
        texts = [text.rjust(width) if at else text.ljust(width) for at, (text, width) in enumerate(zip(line, widths))]
        yield "  ".join(texts)


def table_lines(paths, traffic, rows):
    yield from of_traffic(paths, traffic)
    yield ""
    yield from aligned([HEADS, *map(cells, rows)])
    told = [*map(needs, rows), *map(ends, rows), fewest(rows)]
    if any(told):
        yield ""
        yield from filter(None, told)


def needs(row):
    """How long old servers are needed after each change, of a script with several changes."""
    if len(row.changes) < 2 or not row.needed:
        return None
    waits = [f"{short(row.changes[number - 1])}: {seconds_text(wait)}" for number, wait in sorted(row.needed.items())]
    more = [f"{len(waits) - LISTED:,} more (--json lists all)"] if len(waits) > LISTED else []
    return f"{row.name}: old servers needed after {', '.join(waits[:LISTED] + more)}"


def short(command):
    return words_of(command).replace("server ", "")


def ends(row):
    """That changes come after the captures' end."""
    return f"{row.name}: {of_late(row.after_end, len(row.changes))}" if row.after_end else None


def fewest(rows):
    """The rows that break the fewest connections, where rows differ in that. Of a row with changes after the captures' end that isn't
    known."""
    known = {row.name: row.broken + row.refused for row in rows if not row.after_end}
    least = [name for name, count in known.items() if count == min(known.values())]
    if len(least) == len(known):
        return None
    more = f" and {len(least) - LISTED:,} more" if len(least) > LISTED else ""
    return f"fewest broken or refused: {min(known.values()):,}, by {', '.join(least[:LISTED])}{more}"


def row_json(row):
    return {
        "script": row.name,
        "timeout_s": row.timeout_s,
        "broken": row.broken,
        "refused": row.refused,
        "losing_data": row.losing,
        "open_at_end": row.open,
        "keeping_timeout_s": row.keeping_s,
        "broken_then": row.left if row.keeping_s else None,
        "needed": [{"change": number, "wait_ns": wait} for number, wait in sorted(row.needed.items())],
        "lifetime_ns": row.lifetime,
        "changes": len(row.changes),
        "changes_after_end": row.after_end,
    }


def table_json(paths, traffic, rows):
    """The table as a JSON object. Waits are nanoseconds."""
    return json.dumps(traffic_json(paths, traffic) | {"rows": [row_json(row) for row in rows]})
