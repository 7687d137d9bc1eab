"""Makes captures of generated connections to 192.0.2.1 port 80, for the scripts of this folder."""
import multiprocessing, struct, sys

SYN, RST, ACK, DATA, FIN = 2, 4, 0x10, 0x18, 0x11
# for each packet of a visit: when it comes in microseconds, its flags, its offset in the sequence numbers, its octets of data
VISIT = [(0, SYN, 0, 0), (20_000, ACK, 1, 0), (20_100, DATA, 1, 400)]
VISIT += [(40_000 + 4_000 * i, ACK, 401, 0) for i in range(6)] + [(80_000, FIN, 401, 0)]
# the microseconds between two visits; about 400 visits are open at a time
APART = 200
# packets that replace those of a visit, by the visit's number modulo four: no SYN, an RST, a second SYN
BROKEN = {1: {0: (0, ACK, 0, 0)}, 2: {1: (20_000, RST, 1, 0)}, 3: {1: (20_000, SYN, 0, 0)}}


def record(moment, connection, flags, sequence, size):
    """A record of the classic form at a moment in microseconds."""
    source, port = 0x0A000000 + connection // 50000, 1024 + connection % 50000
    header = struct.pack(">BBHHHBBHII", 0x45, 0, 40 + size, 0, 0x4000, 64, 6, 0, source, 0xC0000201)
    packet = header + struct.pack(">HHIIBBHHH", port, 80, 1000 + sequence, 0, 0x50, flags, 8192, 0, 0) + bytes(size)
    return struct.pack("<IIII", moment // 10**6, moment % 10**6, len(packet), len(packet)) + packet


def visits(records, broken={}):
    """The packets of the visits, in the order of their moments."""
    packets = []
    for visit in range(records // len(VISIT)):
        instead = broken.get(visit % 4, {})
        for place, packet in enumerate(VISIT):
            at, *rest = instead.get(place, packet)
            packets.append((visit * APART + at, visit, *rest))
    return sorted(packets)


def connections(records, per=2):
    """A SYN and data of each connection, `per` packets to a connection and `records` in all."""
    for number in range(records):
        connection, nth = divmod(number, per)
        flags, sequence, size = (DATA, 1 + (nth - 1) * 100, 100) if nth else (SYN, 0, 0)
        yield number * 10, connection, flags, sequence, size


def write_capture(path, packets, *words):
    with open(path, "wb") as file:
        file.write(struct.pack("<IHHiIII", 0xA1B2C3D4, 2, 4, 0, 0, 262144, 101))
        file.writelines(record(*packet) for packet in packets(*words))


def write_apart(*words):
    """Writes a capture in its own process: this one's memory would count as memory of the calls."""
    apart(write_capture, *words)


def apart(write, *words):
    """Has a capture written in a process of its own."""
    writer = multiprocessing.Process(target=write, args=words)
    writer.start()
    writer.join()
    if writer.exitcode:
        sys.exit("no capture could be written")
