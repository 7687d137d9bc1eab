"""A line on a terminal: what is done, what is left, and how long that takes."""
import os, sys, threading, time

# How often the line is written, in seconds.
PERIOD = 0.2
CLEAR = "\r\x1b[K"


def span(seconds):
    """A time in words, like `1 min 5 s`."""
    minutes, rest = divmod(int(seconds), 60)
    return f"{minutes} min {rest} s" if minutes else f"{rest} s"


class Progress:
    """Writes the line until it is left. It writes nothing where the file is no terminal."""

    def __init__(self, file=sys.stderr):
        self.file, self.files, self.what = file, [], "reading"
        self.done, self.all, self.began = 0, 0, time.monotonic()
        self.end, self.thread = threading.Event(), None

    def __enter__(self):
        if self.file.isatty():
            self.thread = threading.Thread(target=self.draw, daemon=True)
            self.thread.start()
        return self

    def __exit__(self, *wrong):
        self.end.set()
        if self.thread:
            self.thread.join()
            self.file.write(CLEAR)
            self.file.flush()

    def draw(self):
        while not self.end.wait(PERIOD):
            self.file.write(CLEAR + self.line())
            self.file.flush()

    def watch(self, file):
        """Has a file that is read counted: how much of it was read."""
        self.files.append(file)

    def stage(self, what):
        """Begins to count something else."""
        self.what, self.done, self.all, self.began = what, 0, 0, time.monotonic()

    def add(self, count):
        self.all += count

    def step(self):
        self.done += 1

    def counted(self):
        """How much is done, of how much, and the unit; nothing is known of a pipe."""
        if self.what != "reading":
            return self.done, self.all, ""
        try:
            sizes = [os.fstat(file.fileno()).st_size for file in self.files]
            return sum(file.tell() for file in self.files) / 1e6, sum(sizes) / 1e6, " MB"
        except (OSError, ValueError):
            return 0, 0, ""

    def line(self):
        done, whole, unit = self.counted()
        passed = time.monotonic() - self.began
        digits = ".1f" if unit else "d"
        of = f": {done:{digits}} of {whole:{digits}}{unit}" if whole else ""
        left = f", about {span(passed * (whole - done) / done)} left" if 0 < done < whole else ""
        return f"{self.what}{of}, {span(passed)}{left}"
