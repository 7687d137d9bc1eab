"""The stories of connections, as the proved program prints them."""
from plan.faults import USAGE, Refusal

# The most connections whose stories a page has without being asked for them, and the most lines of such a story.
MOST, MOST_LINES = 200, 2_000


class Stories:
    """What `--of CLIENT SERVICE` prints of the first of the connections that something broke or refused, and of the named clients.
    `texts` has it by the flow, and nothing of a story that is too long."""

    def __init__(self, judged, affected, clients):
        self.engine, self.script = judged.engine, judged.script
        named = list(of_clients(judged, clients))
        parts = {one.flow: part for part, outcome in zip(self.engine.paths, judged.replay.outcomes) for one in outcome.failed}
        self.parts = parts | {one.flow: part for part, one in named}
        told = {it.flow: it for it in [*affected[:MOST], *[one for _, one in named]]}
        self.path = self.engine.written(self.script)
        if self.engine.progress:
            self.engine.progress.stage("stories")
            self.engine.progress.add(len(told))
        texts = zip(told, self.engine.pool.map(self.story, told))
        self.texts = {" ".join(flow): text for flow, text in texts if text.count("\n") <= MOST_LINES or flow[0] in clients}

    def story(self, flow):
        """The lines of a connection, of the part of the capture in which it is."""
        path = self.engine.answered(self.script, self.parts[flow], self.path, "--of", *flow)
        if self.engine.progress:
            self.engine.progress.step()
        with open(path) as file:
            return file.read()


def of_clients(judged, clients):
    """The connections of these clients, each with the part of the captures in which it is. A client without one is refused."""
    missing = set(clients)
    for part, outcome in zip(judged.engine.paths, judged.replay.outcomes):
        for one in outcome.of_clients(clients):
            missing.discard(one.client)
            yield part, one
    if missing:
        raise Refusal(USAGE, f"--story {min(missing)}: the captures have no connection of this client: say ADDRESS:PORT")
