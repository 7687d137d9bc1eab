"""What a captured frame holds, read as the programs read it (docs/FORMATS.md), and the opening segments that captures lack."""
import struct
from typing import NamedTuple

# The link types that are read: Ethernet, raw IP, Linux cooked, raw IPv4, Linux cooked version 2.
LINKS = ETHERNET, RAW, COOKED, RAW_IPV4, COOKED_2 = 1, 101, 113, 228, 276
IPV4, IPV6, TAGS = b"\x08\x00", b"\x86\xdd", (b"\x81\x00", b"\x88\xa8")
FIN, SYN, RST, ACK = 1, 2, 4, 16
# The most octets of a packet that fits a carrier header.
LONGEST = 65_479


class Segment(NamedTuple):
    """A segment: its flow (source, destination and their ports), its sequence number, how many numbers it takes up (its octets and a
    FIN), its flags, where the IPv4 packet begins in the frame, and where its headers end."""

    flow: tuple
    sequence: int
    length: int
    flags: int
    place: int
    end: int

    @property
    def is_opening(self):
        return self.flags & (SYN | ACK | RST | FIN) == SYN


def ethernet_part(octets):
    """Where the part after the tags begins, and the type before it. At most two tags are passed over."""
    place = 12
    for _ in range(2):
        if octets[place : place + 2] not in TAGS:
            break
        place += 4
    return place + 2, octets[place : place + 2]


def network_part(link, octets):
    """Where the network layer's part of a frame begins, and its type as of Ethernet."""
    if link in (RAW, RAW_IPV4):
        return 0, {4: IPV4, 6: IPV6}.get(octets[0] >> 4 if octets else None)
    if link == COOKED:
        return 16, octets[14:16]
    if link == COOKED_2:
        return 20, octets[:2]
    return ethernet_part(octets)


def read_frame(link, octets):
    """The segment that the frame holds, or why it holds none."""
    place, kind = network_part(link, octets)
    if kind == IPV6:
        return "of IPv6"
    if kind != IPV4:
        return "not of IPv4"
    packet = octets[place:]
    if len(packet) < 20 or packet[0] >> 4 != 4:
        return "cut short"
    header, total, fragment = packet[0] % 16 * 4, *struct.unpack(">HxxH", packet[2:8])
    packet = packet[: total or None]
    stated = (total or len(packet)) - header
    if header < 20 or stated < 0:
        return "damaged"
    if fragment & 0x3FFF:
        return "fragments"
    if packet[9] != 6:
        return "not of TCP"
    if len(packet) - header < 20:
        return "cut short" if stated >= 20 else "damaged"
    offset = packet[header + 12] // 16 * 4
    if not 20 <= offset <= stated:
        return "damaged"
    if len(packet) > LONGEST:
        return "too long"
    source, destination, sport, dport, sequence = struct.unpack(">II", packet[12:20]) + struct.unpack(">HHI", packet[header : header + 8])
    flags = packet[header + 13]
    length = stated - offset + (flags & FIN)
    return Segment((source, destination, sport, dport), sequence, length, flags, place, place + header + offset)


# OPENING SEGMENTS


def carried(total):
    """The sum of 16-bit words with its carry brought round."""
    return (total & 0xFFFF) + (total >> 16)


def opening(flow, sequence):
    """The IPv4 packet of a SYN of the flow."""
    source, destination, sport, dport = flow
    ip = struct.pack(">BBHHHBBHII", 0x45, 0, 40, 0, 0x4000, 64, 6, 0, source, destination)
    total = carried(carried(sum(struct.unpack(">10H", ip))))
    tcp = struct.pack(">HHIIBBHHH", sport, dport, sequence, 0, 0x50, SYN, 65535, 0, 0)
    return ip[:10] + struct.pack(">H", 0xFFFF - total) + ip[12:] + tcp


def begin_of(segments):
    """The number that a server expects first: that of the connection's first segment, or one more if that is a keepalive. Each segment
    is its number and how many numbers it takes up."""
    first, length = segments[0]
    number, _ = next((other for other in segments if other != segments[0]), segments[0])
    return number if length == 0 and number == (first + 1) % 2**32 else first
