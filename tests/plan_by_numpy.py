"""Compares how plan.arrays, by numpy, reads and splits captures with how plan.selection and plan.parts do it, octet for octet: of the
captures that are named, and of each with a hundred octets changed in several ways. It is started by tests/plan.

usage: PYTHON tests/plan_by_numpy.py CAPTURE..
"""
import os, random, sys, tempfile
import programs

sys.dont_write_bytecode = True
sys.path.insert(1, programs.at("tools"))
from plan import arrays, traffic, workers
from plan.captures import read_pieces
from plan.faults import Refusal
from plan.sample import sample_of

SERVICES = {(0x7F000001, 8080)}
BY_NUMPY = {"select": arrays.selected, "make": arrays.made}
PLAINLY = dict(workers.PLAINLY)
WAYS = {}, {"without_copies": True}, {"is_opened": False}, {"number": 3}, {"sample": "1/3"}
# How often each capture is changed.
TIMES = 20


def found(tasks, paths, way):
    """What is told of captures, and the octets of those that are made; or the refusal."""
    workers.PLAINLY = tasks
    how = way | ({"sample": sample_of(way["sample"])} if "sample" in way else {})
    with tempfile.TemporaryDirectory() as folder:
        try:
            its = traffic.read_traffic(folder, paths, SERVICES, **how)
        except Refusal as refusal:
            return refusal.status, str(refusal)
        made = [open(path, "rb").read() for path in its.paths]
        return made, {key: value for key, value in vars(its).items() if key not in ("paths", "sample")}, its.sample.flows


def compare(paths, way):
    plain, quick = (found(tasks, paths, way) for tasks in (PLAINLY, BY_NUMPY))
    if plain != quick:
        sys.exit(f"tests/plan: {paths} {way}: by numpy {quick[1:]}, not {plain[1:]}")


def changed(octets, starts, chance):
    """The octets with some changed within frames, which leaves the records as they are."""
    found = bytearray(octets)
    for _ in range(100):
        place = chance.choice(starts)
        found[place + chance.randrange(54)] = chance.choice((0, 4, 5, 6, 8, 0x45, 0x46, 0x50, 0x60, 0x86, 0xDD, chance.randrange(256)))
    return bytes(found)


def main():
    paths, chance = sys.argv[1:], random.Random(7)
    for path in paths:
        for way in WAYS:
            compare([path], way)
            compare([path, paths[0]], way)
    with tempfile.TemporaryDirectory() as folder:
        for path in paths:
            with open(path, "rb") as file:
                octets = file.read()
            piece = next(read_pieces(path, []))
            before = octets.find(piece.octets[:64])
            starts = [before + place + 16 for place in piece.starts[:-1]]
            for number in range(TIMES):
                other = os.path.join(folder, "changed")
                with open(other, "wb") as file:
                    file.write(changed(octets, starts, chance))
                compare([other], WAYS[number % len(WAYS)])
    print(f"{len(paths)} captures are read alike by numpy, and {TIMES * len(paths)} that were changed")


main()
