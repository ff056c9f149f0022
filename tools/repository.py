"""Where the repository is, what its files hold, its crates, examples and built programs, and how its tools are called; for tools, the benchmark and tests."""
import argparse
import contextlib
import fcntl
import glob
import os
import re
import sys

ROOT = os.path.dirname(os.path.dirname(os.path.abspath(__file__)))
INCLUDE = os.path.join(ROOT, "include")


def read(*parts):
    """The text of a file, by its path from the repository's folder."""
    with open(os.path.join(ROOT, *parts), encoding="utf8") as file:
        return file.read()


def crates():
    """The crates of crates.txt, each with those that it rests on; the kit's own among them have no folder."""
    return {name: rest.split() for name, rest in re.findall(r"^(\w+)(?: [^:\n]*)?:(.*)$", read("crates.txt"), re.M)}


def examples():
    """The paths of the scripts of examples/; what each prints is beside it, as `.out`."""
    return sorted(glob.glob(os.path.join(ROOT, "examples", "*.script")))


def out(name, *parts):
    """A path among what rt makes of a crate."""
    return os.path.join(ROOT, "crates", name, "out", *parts)


def built(name):
    """The path of a crate's program."""
    return out(name, name)


@contextlib.contextmanager
def alone():
    """While this lasts, no other process is between the same two lines: two builds of one file would write it at once."""
    os.makedirs(os.path.join(ROOT, "target"), exist_ok=True)
    with open(os.path.join(ROOT, "target", "building"), "w", encoding="ascii") as file:
        fcntl.flock(file, fcntl.LOCK_EX)
        yield


def version():
    """That of the library and of all commands and tools."""
    return re.search(r"^Version: (.*)$", read("mudasgup.pc"), re.M)[1]


def positive(word):
    """The number that a word of a call asks for; none would leave nothing to be seen."""
    number = int(word)
    if number < 1:
        raise ValueError(word)
    return number


def parser(description):
    """What reads the words of a tool: it answers -h and --version, and ends a wrong call with a usage line and status 2."""
    made = argparse.ArgumentParser(prog=os.path.relpath(os.path.abspath(sys.argv[0]), ROOT), description=description, formatter_class=argparse.RawDescriptionHelpFormatter)
    made.add_argument("--version", action="version", version=f"%(prog)s {version()}")
    return made
