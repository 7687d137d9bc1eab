"""Checks drawings of captures with few and many connections against the table of the same capture.

usage: python3 tests/drawn.py PROGRAM FOLDER [COUNT..]
PROGRAM is beamer-connections; FOLDER takes the captures. The counts of connections are 10, 300, 1,500 and 20,000 by default.
"""
import csv, os, random, re, subprocess, sys
from datetime import UTC, datetime, timedelta
from xml.etree import ElementTree
from rules import ACK, FIN, SYN, Packet
from stages import capture, write

SECOND = 10**9
# The captures begin at 2026-11-27T21:02:04.330000000Z.
BEGAN = 1_795_813_324_330_000_000
SERVICE = 0xC0000201, 80
SERVERS = list(range(1, 13))
# The changes come close together, and in no packet's moment.
CHANGES = [(8 * SECOND + number * SECOND // 5 + 500, words) for number, words in enumerate(["drain 2", "add 14", "drain 3", "drain 5", "add 15"])]
MOST_ROWS, MOST_HEIGHT = 180, 1500
SVG = "{http://www.w3.org/2000/svg}"


def packets(count):
    """Packets of connections in 24 seconds: most are short, some long, some lack a SYN, and some an end."""
    rng, all_packets = random.Random(count), []
    for number in range(count):
        flow = (0x0A000000 + number // 50_000, SERVICE[0], 1024 + number % 50_000, SERVICE[1])
        begins = rng.randrange(20 * 10**6)
        ends = begins + rng.choice([1000, 200_000, 200_000, rng.randrange(1000, 24 * 10**6 - begins)])
        moments = sorted({begins, ends, *(rng.randint(begins, ends) for _ in range(3))})
        for place, moment in enumerate(moments):
            flags = SYN if place == 0 and rng.random() < 0.99 else FIN | ACK if moment == ends and rng.random() < 0.9 else ACK
            all_packets.append(Packet(moment * 1000, flow, 100 if flags == SYN else 101, 0 if flags == SYN else 501, 0, flags))
    return sorted(all_packets, key=lambda packet: packet.moment)


def script():
    rows = [f"servers = {SERVERS}", "timeout_s = 2"]
    for at, words in CHANGES:
        verb, server = words.split()
        rows += ["[[command]]", f"at_ns = {at}", f'do = "{verb}"', f"server = {server}"]
    return "\n".join(rows) + "\n"


def nanoseconds(text):
    whole, rest = text.split(".")
    return int(whole) * SECOND + int(rest)


def part(row):
    """0 for a broken connection, 1 for a refused one, 2 for one that was forwarded, 3 for one that was open at a change, or 4."""
    for place, field in enumerate(("broken", "refused", "forward")):
        if row[field]:
            return place
    opened, last = nanoseconds(row["opened_at"]), nanoseconds(row["last_at"])
    return 3 if any(opened < at <= last for at, _ in CHANGES) else 4


def due(table):
    """The rows that are drawn, in their order, and the words of the rows that count the others."""
    rows = sorted(table, key=part)
    if len(rows) <= MOST_ROWS:
        return rows, []
    touched = [row for row in rows if part(row) < 4]
    cut, folded = len(touched) - MOST_ROWS, len(rows) - len(touched)
    said = [f"{cut} more connections that were broken, refused, forwarded or open at a change"] if cut > 0 else []
    return touched[:MOST_ROWS], said + ([f"{folded} connections that no change touched"] if folded else [])


def check_rows(picture, table):
    rows, counted = due(table)
    drawn = [group for group in picture.iter(SVG + "g") if (group.findtext(SVG + "title") or "").startswith("client ")]
    assert len(drawn) == len(rows), f"{len(drawn)} connections are drawn, and not {len(rows)}"
    for row, group in zip(rows, drawn):
        title = group.findtext(SVG + "title")
        assert title.startswith(f"client {row['client']} service {row['service']} server {row['server'] or 'none'} "), title
        assert (" forwarded from " in title) == bool(row["forward"]) == (group.find(f"{SVG}g") is not None), title
        marks = [mark.get("fill") for mark in group.iter(SVG + "circle")]
        assert marks == (["#e0001b"] if row["broken"] else ["#ffffff"] if row["refused"] else []), title
    said = [text.text for text in picture.iter(SVG + "text") if "connections" in text.text]
    assert said == counted, said
    used = {group.get("stroke") for group, row in zip(drawn, rows) if row["server"]}
    assert len(used) == len({row["server"] for row in rows if row["server"] and int(row["server"]) <= 12}), used
    assert "#e0001b" not in used


def check_words(picture):
    """The words of a change are drawn above and below, and no two overlap."""
    words = {words for _, words in CHANGES}
    labels = [(int(text.get("y")), int(text.get("x")), text.text) for text in picture.iter(SVG + "text") if text.text in words]
    assert len(labels) >= 6, labels
    for y, x, text in labels:
        assert not [other for other in labels if other[0] == y and x < other[1] < x + 64], labels


def check_axis(picture):
    """Each tick of the axis is where its time of day is, or the one before or after by rounding."""
    texts = [text for text in picture.iter(SVG + "text") if re.fullmatch(r"\d\d:\d\d:\d\d(\.\d+)?", text.text)]
    assert len(texts) >= 8 and len({text.get("y") for text in texts}) == 2
    began = datetime.fromtimestamp(BEGAN // SECOND, UTC) + timedelta(microseconds=BEGAN % SECOND // 1000)
    places = {}
    for text in texts:
        time = datetime.combine(began.date(), datetime.strptime(text.text[:8], "%H:%M:%S").time(), UTC)
        places[(time - began).total_seconds()] = int(text.get("x"))
    (first, left), *_, (last, right) = sorted(places.items())
    for moment, x in places.items():
        assert abs(left + (right - left) * (moment - first) / (last - first) - x) <= 1, places


def check(program, folder, count):
    files = [write(os.path.join(folder, f"{count}.pcap"), capture(packets(count), unit=1000, began=BEGAN)), write(os.path.join(folder, "s.toml"), script())]
    call = lambda *options: subprocess.run([program, *files, *options], check=True, stdout=subprocess.PIPE).stdout.decode()
    table = list(csv.DictReader(call("--csv").splitlines()))
    text = call("--svg", "--clock")
    write(os.path.join(folder, f"{count}.svg"), text)
    picture = ElementTree.fromstring(text)
    height = int(picture.get("height"))
    assert len(table) == count and height <= MOST_HEIGHT, (len(table), height)
    check_rows(picture, table)
    check_words(picture)
    check_axis(picture)
    return height


def main():
    program, folder, *counts = sys.argv[1:]
    heights = {int(count): check(program, folder, int(count)) for count in counts or (10, 300, 1500, 20_000)}
    print("drawings of", ", ".join(f"{count} connections are {height}" for count, height in heights.items()), "pixels high, and show the table's rows")


main()
