"""The program of bench/peer_replay.rs, and the stages that bench/peer and bench/instructions have it and `beamer` replay."""
import filecmp, os, subprocess, sys

import captures, programs

# how many acknowledgments a client sends between its request and its FIN, by the visit's number modulo five
ACKNOWLEDGMENTS = 2, 3, 4, 4, 5
PLAIN_SCRIPT = "servers = [1, 2, 3]\nbuckets = 64\n"
VISITS_SCRIPT = f"servers = {[*range(1, 17)]}\nbuckets = 256\n"
REBALANCINGS = 80


def build(folder):
    """Compiles the program into the folder."""
    program = os.path.join(folder, "peer")
    options = ["--edition", "2021", "-O", "-C", "codegen-units=1", "-C", "panic=abort"]
    subprocess.run(["rustc", *options, "-o", program, programs.at("bench", "peer_replay.rs")], check=True)
    return program


def compare(name, ours, plain):
    """Ends the call where two reports differ."""
    if not filecmp.cmp(ours, plain, shallow=False):
        sys.exit(f"{name}: the two reports differ")


def visits(count):
    """The packets of this many visits, 7.6 to a visit in the mean, in the order of their moments."""
    packets = []
    for visit in range(count):
        begin, answered = visit * captures.APART, ACKNOWLEDGMENTS[visit % 5]
        opening = captures.VISIT[:3]
        rest = [(40_000 + 4_000 * i, captures.ACK, 401, 0) for i in range(answered)] + [(80_000, captures.FIN, 401, 0)]
        packets += [(begin + at, visit, *what) for at, *what in opening + rest]
    return sorted(packets)


def changing_script(records):
    """A script under which servers are added and drained in turn while a capture of visits is replayed: 80 rebalancings of 1,024 buckets.
    Every fifth packet is lost, delayed, or comes twice, as long as there is a row for it."""
    last = records // len(captures.VISIT) * captures.APART * 1_000
    fates = [(1, 50_000), (2, 0), (1, 1_000_000), (0, 0), (1, 20_000_000)]
    rows, commands = [], []
    for number, packet in enumerate(range(5, min(records, 20_000) + 1, 5)):
        hop = "chained" if number % 4 == 3 else "direct"
        copies, delay = fates[number % len(fates)]
        rows.append(f'[[fault]]\npacket = {packet}\nhop = "{hop}"\ncopies = {copies}\ndelay_ns = {delay}\n')
    for number in range(REBALANCINGS):
        do, server = ("drain", number // 2 + 1) if number % 2 else ("add", number // 2 + 17)
        commands.append(f'[[command]]\nat_ns = {last * (number + 1) // (REBALANCINGS + 1)}\ndo = "{do}"\nserver = {server}\n')
    return f"servers = {[*range(1, 17)]}\nbuckets = 1024\ntimeout_s = 1\n" + "".join(rows + commands)
