"""Rows of whole processes: scripts run, journals compared, losses counted, a fastest tree found. The start of a process has a row of its own for
each program, and is taken off the others."""
import os
import tempfile

from journals import JOURNALS
from measure import FOLDER, Side, Work, plain
from repository import built
from row import Row
from scripts import SCRIPTS
from tree_losses import TREES, table

# The most of their ratios; of scripts a list takes less than in C.
SCRIPT_MOST, LIST_MOST, JOURNALS_MOST, LOSSES_MOST = 1.3, 1, 1.8, 1.3
# Step counts of the trees of eight columns; and the columns of smaller bushes, with theirs.
AFTER = (0, 4, 999)
BUSHES = (5, 6, 7)
BUSH_AFTER = 4
REQUEST = "columns=16\ndelay=2\ngap=1\n"
# In one round, since most of the time of one may be its start.
PROCESSES = 20


def sides(name, given, *words):
    """The proved program of a command, and the plain one."""
    return [Side(program, given, words) for program in (built(f"{name}_main"), plain(name))]


def pulled(texts):
    """The paths of two journals with these texts."""
    folder = tempfile.mkdtemp(dir=FOLDER.name)
    paths = [os.path.join(folder, name) for name in ("one", "two")]
    for path, text in zip(paths, texts):
        with open(path, "w", encoding="ascii") as file:
            file.write(text)
    return paths


def process(part, name, most, whole, start=lambda: ()):
    """A row of a process, less one that does little more than start."""
    def work():
        return Work(whole(), start(), times=PROCESSES)
    return Row(part, name, "ms", most, work, work)


def without_start(part, most, first, others, pair):
    """Rows of names and inputs, of which `most` gives the most of a ratio by its name. The first is little more than the start of the process, which is taken off the others, measured anew for each."""
    yield process("start", f"{first[0]}, with the start of the process", None, lambda: pair(first[1]))
    for name, given in others:
        yield process(part, name, most(name), lambda given=given: pair(given), lambda: pair(first[1]))


def script_sides(script):
    return sides("lockers", script)


def scripts():
    names = [(f"script of {len(script)} bytes: {name}", script) for name, script in SCRIPTS]
    return without_start("script", lambda name: LIST_MOST if "list" in name else SCRIPT_MOST, names[0], names[1:], script_sides)


def compared(texts):
    return sides("journals", "", *pulled(texts))


def journals():
    full = [(f"two full journals, {name}", texts) for name, *texts in JOURNALS]
    return without_start("journals", lambda name: JOURNALS_MOST, ("two journals of no byte", ("", "")), full, compared)


def banks():
    """The names and inputs of the banks whose losses are counted."""
    asked = [(f"a {name} of 8 columns", up, steps) for name, up in TREES for steps in AFTER]
    asked += [(f"a bush of {columns} columns", (0,) * columns, BUSH_AFTER) for columns in BUSHES]
    return [(f"losses of {name}, after {steps}", f"{table(up)}after={steps}\n") for name, up, steps in asked]


def loss_sides(given):
    return sides("losses", given)


def losses():
    return without_start("losses", lambda name: LOSSES_MOST, ("losses of no table", ""), banks(), loss_sides)


def fastest():
    """Its work is too little to be seen beside the start of the process."""
    return without_start("fastest", lambda name: None, ("fastest tree of 16 columns", REQUEST), [], lambda given: sides("fastest", given))


def rows():
    for part in (scripts, journals, losses, fastest):
        yield from part()
