"""How a plan is refused."""

# Statuses. Those of the programs are 2 to 7.
USAGE, READ, CAPTURE, SCRIPT, WRITE, BREAKS = 1, 2, 3, 4, 5, 10


class Refusal(Exception):
    """Why there is no answer, what to do about it, and the exit status."""

    def __init__(self, status, text):
        super().__init__(text)
        self.status = status


def of_file(path, wrong):
    """The refusal of a file that the system refuses."""
    return Refusal(READ, f"{path}: {(wrong.strerror or str(wrong)).lower()}")
