"""Where this repository and its programs are, and the numbers that a script is called with."""
import os, sys

TOP = os.path.dirname(os.path.dirname(os.path.realpath(__file__)))


def at(*path):
    """A path in this repository."""
    return os.path.join(TOP, *path)


def content(*path):
    """The text of a file of this repository."""
    with open(at(*path)) as file:
        return file.read()


def built(crate, program=None):
    """The program of a crate, as the gate and tools/prove build it."""
    return at("crates", crate, "out", program or crate)


def beamer():
    """The program that BEAMER names, or ./beamer."""
    return os.path.abspath(os.environ.get("BEAMER", at("beamer")))


def connections():
    """The program that CONNECTIONS names, or ./beamer-connections."""
    return os.path.abspath(os.environ.get("CONNECTIONS", at("beamer-connections")))


def proved_beamer():
    """The program that BEAMER names, or the proved one: ./beamer would run the source if there is none."""
    return os.environ.get("BEAMER", built("bm_app"))


def proved_connections():
    """The program that CONNECTIONS names, or the proved one."""
    return os.environ.get("CONNECTIONS", built("bm_connections_app"))


def numbers(*defaults):
    """The numbers that the command line begins with; those that are missing are the last of the defaults."""
    given = [int(word) for word in sys.argv[1 : 1 + len(defaults)]]
    return given + list(defaults[len(given) :])
