"""A sample of a capture's connections."""
import hashlib, re, struct
from plan.faults import CAPTURE, USAGE, Refusal

MOST = 1_000_000
# The octets of a flow: its addresses and its ports.
FLOW = struct.Struct(">IIHH")


class Sample:
    """One of so many connections, each as a whole. Which ones goes by a hash of their addresses and ports, so it is the same each time.
    `flows` says of each connection that was asked for whether it is in."""

    def __init__(self, number):
        self.number, self.flows = number, {}

    def has(self, flow):
        key = FLOW.pack(*flow)
        found = self.flows.get(key)
        if found is None:
            found = self.flows[key] = hash_of(key) % self.number == 0
        return found

    def look(self):
        """Refuses a sample that has none of the connections."""
        if self.flows:
            raise Refusal(CAPTURE, f"none of {len(self.flows):,} connections is in the sample 1/{self.number}: take a greater one")

    @property
    def counts(self):
        """How many connections are in, and of how many."""
        return sum(self.flows.values()), len(self.flows)


class Whole(Sample):
    """All connections."""

    def __init__(self):
        super().__init__(1)

    def has(self, flow):
        return True


WHOLE = Whole()


def hash_of(flow):
    """A number that goes by the octets of a flow alone. Neither buckets nor the parts of a capture go by it, so a sample has its share of
    each."""
    return int.from_bytes(hashlib.blake2b(flow, digest_size=8).digest())


def sample_of(text):
    """The sample that is said as `1/N`."""
    read = re.fullmatch("1/([1-9][0-9]{0,6})", text)
    if not read or int(read[1]) > MOST:
        raise Refusal(USAGE, f"--sample {text}: say --sample 1/N, with N from 1 to {MOST:,}")
    return Sample(int(read[1]))


def of_sample(sample):
    """What a sample's answer doesn't say."""
    if sample is WHOLE:
        return
    taken, whole = sample.counts
    of = f"{taken:,} of {whole:,} connections"
    yield f"  a sample, 1/{sample.number} by a hash of the addresses and ports: {of}; all below is of these alone"
    yield "    It can't tell most-held and the cause full, which go by what a server holds at once. Other connections may"
    yield "    break, and may need a longer timeout or longer waits."
