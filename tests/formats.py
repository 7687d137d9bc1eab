"""A reader of captures and scripts, written from docs/FORMATS.md alone: it gives the expected answer for the octets of both.

Captures of the pcapng form are read by tests/pcapng/ng_reader.py. Scripts are read with Python's tomllib, which knows TOML 1.0;
`plainer` turns what TOML 1.1 adds into that. tests/rules.py has what the commands do to the plan.
"""
import math, os, re, struct, sys, tomllib

sys.path.insert(0, os.path.join(os.path.dirname(os.path.abspath(__file__)), "pcapng"))
import ng_reader
from rules import DEFAULTS, Fleet, Packet, endpoint, words_of

MOST_RECORDS, MOST_OCTETS, LONGEST, LONGEST_SCRIPT = 200_000, 268_435_456, 262_144, 1_048_576
MOST_SEATS = 65_536
LINKS = (1, 101, 113, 228, 276)
BLOCKS = b"\x0a\x0d\x0d\x0a"


class Fault(Exception):
    """What is answered in place of a report."""

    def __init__(self, status, text):
        self.status, self.text = status, text


def named(line, capture, script):
    """The line of `beamer-connections` for a fault that `beamer` tells by this line. It has the file's name in place of its kind."""
    text = line.removeprefix("beamer: ")
    kind, _, said = text.partition(" ")
    name = capture if kind.startswith("capture") or said.strip() in ("packets", "capture-octets") else script
    return f"beamer-connections: {name}: {text if kind == 'limit' else said}"


# CAPTURES

# The status and the line of each fault of a capture; its numbers follow its name.
CAPTURE_FAULTS = {
    "NotACapture": (3, "capture: not a capture"),
    "BadVersion": (3, "capture: bad version"),
    "BadLink": (3, "capture: bad link type {}"),
    "BadBlock": (3, "capture block {}: bad block"),
    "BadLength": (3, "capture record {}: bad length {}"),
    "TooManyPackets": (7, "limit packets"),
    "TooLarge": (7, "limit capture-octets"),
}


def capture_fault(said):
    """The fault with this name and these numbers."""
    name, *numbers = said.split()
    status, text = CAPTURE_FAULTS[name]
    return Fault(status, text.format(*numbers))


class Unsteered(Exception):
    pass


def ethernet(frame):
    at = 12
    for _ in range(2):
        if frame[at : at + 2] in (b"\x81\x00", b"\x88\xa8"):
            at += 4
    if len(frame) < at + 2:
        raise Unsteered("short-link")
    return frame[at : at + 2], at + 2


def network_part(link, frame):
    if link not in LINKS:
        raise Unsteered("not-ipv4")
    if link == 1:
        kind, at = ethernet(frame)
    elif link == 101:
        if not frame:
            raise Unsteered("short-link")
        kind, at = b"\x08\x00" if frame[0] >> 4 == 4 else b"", 0
    elif link == 228:
        kind, at = b"\x08\x00", 0
    else:
        at, place = (16, 14) if link == 113 else (20, 0)
        if len(frame) < at:
            raise Unsteered("short-link")
        kind = frame[place : place + 2]
    if kind != b"\x08\x00":
        raise Unsteered("not-ipv4")
    return frame[at:]


def ip_part(octets):
    """The packet, its header's length, and the stated length of its payload."""
    if len(octets) < 20:
        raise Unsteered("short-ip")
    if octets[0] >> 4 != 4:
        raise Unsteered("not-version-4")
    header = octets[0] % 16 * 4
    if header < 20:
        raise Unsteered("bad-header-length")
    if len(octets) < header:
        raise Unsteered("short-ip")
    total = octets[2] * 256 + octets[3]
    if 0 < total < header:
        raise Unsteered("bad-total-length")
    packet = octets[:total] if total else octets
    if (octets[6] * 256 + octets[7]) & 0x3FFF:
        raise Unsteered("fragment")
    if octets[9] != 6:
        raise Unsteered("not-tcp")
    return packet, header, (total or len(octets)) - header


def data_of(link, frame):
    """The captured data octets of a segment."""
    packet, header, _ = ip_part(network_part(link, frame))
    return packet[header + packet[header + 12] // 16 * 4 :]


def segment_of(link, frame, services):
    """The flow, sequence number, acknowledgment number, data octets and flags of a segment to a service."""
    packet, header, stated = ip_part(network_part(link, frame))
    tcp = packet[header:]
    if len(tcp) < 20:
        raise Unsteered("short-tcp")
    offset = tcp[12] // 16 * 4
    if offset < 20 or offset > stated:
        raise Unsteered("bad-offset")
    source, destination = struct.unpack("!II", packet[12:20])
    sport, dport, seq, ack = struct.unpack("!HHII", tcp[:12])
    if (destination, dport) not in services:
        raise Unsteered("other-destination")
    if len(packet) > 65_479:
        raise Unsteered("too-long")
    return (source, destination, sport, dport), seq, ack, stated - offset, tcp[13]


class Header:
    def __init__(self, octets):
        orders = {b"\xa1\xb2\xc3\xd4": (">", 1000), b"\xa1\xb2\x3c\x4d": (">", 1)}
        orders |= {magic[::-1]: ("<", unit) for magic, (_, unit) in orders.items()}
        if len(octets) < 24 or octets[:4] not in orders:
            raise capture_fault("NotACapture")
        self.order, self.unit = orders[octets[:4]]
        version = struct.unpack(self.order + "HH", octets[4:8])
        if version != (2, 4):
            raise capture_fault("BadVersion")
        self.link = struct.unpack(self.order + "I", octets[20:24])[0] % 65536
        if self.link not in LINKS:
            raise capture_fault(f"BadLink {self.link}")


def places(header, octets):
    """The time, the place and the length of each whole record, and then None if a record is cut."""
    at, number = 24, 0
    while at < len(octets):
        if number == MOST_RECORDS and at < MOST_OCTETS + 1:
            raise capture_fault("TooManyPackets")
        if at + 16 > min(len(octets), MOST_OCTETS):
            break
        seconds, fraction, length = struct.unpack(header.order + "III", octets[at : at + 12])
        if length > LONGEST:
            raise capture_fault(f"BadLength {number + 1} {length}")
        if at + 16 + length > min(len(octets), MOST_OCTETS):
            break
        yield seconds * 10**9 + fraction * header.unit, at + 16, length
        at, number = at + 16 + length, number + 1
    if len(octets) > MOST_OCTETS:
        raise capture_fault("TooLarge")
    if at < len(octets):
        yield None


def read_classic(octets):
    """The moment, the link type and the octets of each whole record, and whether a cut record follows."""
    header, records, first = Header(octets), [], None
    for found in places(header, octets):
        if found is None:
            return records, True
        time, at, length = found
        first = time if first is None else first
        moment = max(0, time - first, records[-1][0] if records else 0)
        records.append((moment, header.link, octets[at : at + length]))
    return records, False


def read_blocks(octets):
    """The same for the pcapng form."""
    answer = ng_reader.read(octets)
    if answer.fault:
        raise capture_fault(answer.fault)
    return answer.records, answer.cut is not None


def packet_of(moment, link, frame, services):
    try:
        return Packet(moment, *segment_of(link, frame, services))
    except Unsteered as reason:
        return Packet(moment, None, 0, 0, 0, 0, str(reason))


def read_records(octets):
    """The same for either form."""
    return read_blocks(octets) if octets[:4] == BLOCKS else read_classic(octets)


def read_capture(octets, services):
    """The records as packets, and whether a cut record follows."""
    records, cut = read_records(octets)
    return [packet_of(*record, services) for record in records], cut


# TOML


class NotToml(Exception):
    pass


def strings_and_others(text):
    """The text in pieces: strings with their quotes, comments, blanks, and single characters, among them the quote of a string
    that doesn't end."""
    pattern = r'"""(?:\\.|[^\\])*?"{3,5}|' + r"'''.*?'{3,5}|" + r'"(?:\\.|[^"\\\n])*"|' + r"'[^'\n]*'|#[^\n]*|[ \t\n]+|."
    return re.findall(pattern, text, re.S)


def with_plain_escapes(string):
    if string[0] != '"':
        return string
    plain = lambda m: {"e": r"\u001b", "x": r"\u00" + (m[2] or "")}[m[1][0]] if m[1] else m[0]
    return re.sub(r"\\(?:(e|x(?=[0-9a-fA-F]{2}))((?<=x)..)?|.)", plain, string, flags=re.S)


def plainer(text):
    """The text without what TOML 1.1 added to 1.0: newlines, comments and a trailing comma in inline tables, two escapes, and times
    without seconds. Refused if arrays and inline tables are nested more than 80 deep."""
    out, open_marks, last = [], [], ""
    pieces = strings_and_others(text)
    for number, piece in enumerate(pieces):
        if piece[0] in " \t\n#":
            following = next((p for p in pieces[number + 1 :] if p[0] not in " \t\n#"), "")
            free = open_marks[-1:] == ["{"] and (last in ("{", ",") or following in (",", "}"))
            out.append(" " if free else piece)
            continue
        if piece in ('"', "'"):
            raise NotToml
        if piece in "[{":
            open_marks.append(piece)
        elif piece in "]}" and open_marks:
            if piece == "}" and open_marks[-1] == "{" and last == "," and comma is not None and out[comma] == ",":
                out[comma] = " "
            open_marks.pop()
        if len(open_marks) > 80:
            raise NotToml
        if piece == ",":
            comma = len(out) if last not in ("{", ",") else None
        last = piece
        out.append(with_plain_escapes(piece) if len(piece) > 1 else piece)
    return re.sub(r"(?<![-+\d:.\"'])(\d\d:\d\d)(?![\d:])", r"\1:00", "".join(out))


def finite(word):
    number = float(word)
    if math.isinf(number) and "inf" not in word:
        raise NotToml
    return number


def fits(value):
    """Whether all whole numbers have 64 bits with a sign."""
    if isinstance(value, dict):
        return all(map(fits, value.values()))
    if isinstance(value, list):
        return all(map(fits, value))
    return not isinstance(value, int) or -(2**63) <= value < 2**63


def toml(octets):
    try:
        text = octets.removeprefix(b"\xef\xbb\xbf").decode()
        # TOML allows no lone carriage return; of \r\r\n the next line leaves \r\n, which tomllib would take
        text = text.replace("\r\n", "\n")
        if "\r" in text:
            raise NotToml
        says = tomllib.loads(plainer(text), parse_float=finite)
    except (NotToml, ValueError, RecursionError):
        raise Fault(4, "script: not toml")
    if not fits(says):
        raise Fault(4, "script: not toml")
    return says


# SCRIPTS


def number(low, high):
    return lambda value: value if type(value) is int and low <= value <= high else None


def words(*known):
    return lambda value: value if type(value) is str and value in known else None


def each(low, high, read):
    def read_all(value):
        if type(value) is not list or not low <= len(value) <= high:
            return None
        items = [read(item) for item in value]
        return None if None in items else items

    return read_all


def rising(value):
    servers = each(1, 1024, number(1, 1024))(value)
    return servers if servers and all(a < b for a, b in zip(servers, servers[1:])) else None


def place(lowest_port):
    """Reads an endpoint's text whose port is at least this one."""

    def read(value):
        plain = r"(0|[1-9][0-9]*)"
        found = re.fullmatch(r"\.".join([plain] * 4) + ":" + plain, value) if type(value) is str else None
        if found is None or len(value) > 21:
            return None
        *octets, port = map(int, found.groups())
        return value if max(octets) <= 255 and lowest_port <= port <= 65535 else None

    return read


def table(value):
    return value if type(value) is dict else None


SERVER, ENDPOINT = number(1, 1024), place(0)
TOP = {
    "version": number(1, 3),
    "buckets": number(1, 65536),
    "servers": rising,
    "weights": None,
    "racks": None,
    "muxes": number(1, 64),
    "shards": number(1, 64),
    "capacity": number(1, 65536),
    "timeout_s": number(1, 86400),
    "vips": each(1, 64, place(1)),
    "route": words("port", "turn"),
    "lags_ns": None,
    "fault": each(0, 4096, table),
    "command": each(0, 65536, table),
}
FAULT = {"packet": number(1, 200_000), "hop": words("direct", "chained"), "copies": number(0, 3), "delay_ns": number(0, 60 * 10**9)}
WEIGHT = number(1, 1000)
COMMANDS = {
    "add": {"server": SERVER, "weight": WEIGHT},
    "drain": {"server": SERVER},
    "move": {"bucket": number(0, 65535), "server": SERVER},
    "close": {"server": SERVER, "from": ENDPOINT, "to": ENDPOINT},
    "retire": {"server": SERVER},
    "sync": {},
    "weight": {"server": SERVER, "weight": WEIGHT},
}


# The version of scripts from which on a key, or a word after `do`, may stand; all others may in each.
SINCE = {"weight": 2, "weights": 2, "racks": 3}


def of_version(version, keys):
    """The keys that a script of this version may have."""
    return {key: read for key, read in keys.items() if SINCE.get(key, 1) <= version}


def racks_of(buckets, servers):
    """Reads a number of racks: at most as many as buckets, and each has one of the servers, which are numbered from 1."""

    def read(value):
        racks = number(1, min(64, buckets))(value)
        return racks if racks and {(server - 1) % racks for server in servers} == set(range(racks)) else None

    return read


def only(place, keys, says):
    unknown = [key.encode() for key in says if key not in keys]
    if unknown:
        raise Fault(4, f"script{place}: unknown key {min(unknown).decode()}")


def value_of(place, key, read, value):
    found = read(value)
    if found is None:
        raise Fault(4, f"script{place}: bad value of {key}")
    return found


def required(place, key, read, says):
    if key not in says:
        raise Fault(4, f"script{place}: missing {key}")
    return value_of(place, key, read, says[key])


def read_top(says):
    """The values of the top keys, and the defaults of those that are missing."""
    version = number(2, 3)(says.get("version")) or 1
    only("", of_version(version, TOP), says)
    top = DEFAULTS | {"fault": [], "command": []}
    for key, read in TOP.items():
        if key == "lags_ns":
            read = each(top["muxes"], top["muxes"], number(0, 86400 * 10**9))
        if key == "weights":
            read = each(len(top["servers"]), len(top["servers"]), WEIGHT)
        if key == "racks":
            read = racks_of(top["buckets"], top["servers"])
        if key in says:
            top[key] = value_of("", key, read, says[key])
    return top


def carry_out(fleet, place, at, command):
    refusal = fleet.command(at, words_of(command))
    if refusal and refusal.startswith("limit"):
        raise Fault(7, refusal)
    if refusal:
        raise Fault(4, f"script{place}: {refusal}")


def read_script(octets):
    """The fleet, with its commands carried out."""
    if len(octets) > LONGEST_SCRIPT:
        raise Fault(7, "limit script-octets")
    top, last = read_top(toml(octets)), 0
    fleet = Fleet(top)
    for nth, row in enumerate(top["fault"], 1):
        only(f" fault {nth}", FAULT, row)
        fleet.faults.append(tuple(required(f" fault {nth}", key, read, row) for key, read in FAULT.items()))
    for nth, row in enumerate(top["command"], 1):
        place = f" command {nth}"
        last = required(place, "at_ns", number(last, 4 * 10**18), row)
        do = required(place, "do", words(*of_version(fleet.version, COMMANDS)), row)
        keys = of_version(fleet.version, COMMANDS[do])
        only(place, ["at_ns", "do", *keys], row)
        read = {key: required(place, key, read, row) for key, read in keys.items()}
        carry_out(fleet, place, last, {"do": do} | read)
    return fleet


def due(form, capture, script):
    """The fleet, the records as packets and whether a cut record follows; raises a Fault. `script` is None if none is named."""
    fleet = read_script(b"" if script is None else script)
    if form == "run" and len(fleet.known) * fleet.shards * (fleet.muxes + 1) > MOST_SEATS:
        raise Fault(7, "limit seats")
    return fleet, *read_capture(capture, set(map(endpoint, fleet.vips)))
