"""The boundary to C: rows of a call through it beside the same call in plain C, and the archive's bytes and stack. Builds the archive where a source is
newer."""
import functools
import os
import re
import subprocess

from archive import ALONE, exported
from machines.module import archive
from laps import COLD, COUNTED, COUNTED_FRAMES, STEPS
from measure import FOLDER, Side, Work, compiled, run
from repository import INCLUDE, ROOT
from row import Row

# Letter and name of each call: those of a lone column that are steps as there, then the others.
CALLS = [(letter, name) for letter, name in STEPS if letter in "osmalnh"] + [
    ("x", "next, a message put"), ("i", "idle"), ("R", "rejoin"), ("S", "strike"), ("w", "page write"), ("p", "page read"), ("u", "line up"),
    ("t", "check of a tree"), ("T", "table read"), ("F", "fresh"), ("L", "closing list of 64 doors"), ("r", "packet read"), ("M", "message written"),
    ("A", "acknowledgement written"), ("c", "packet converted"), ("j", "packet joined to 15 others"), ("O", "journal, its owner"),
    ("J", "journal, a message sent"), ("G", "journal, a message got")]
FRAME = ("f", "frame of 512 messages counted")
# One lap of a frame for so many of another call.
FRAME_PART = 100
MOST = 1.5
# A table is read once, and has no limit.
UNLIMITED = "T"
STACKS = [("a step or a return", "osmalnhxRSw"), ("fresh", "F"), ("a table", "T"), ("the closing list", "L"), ("a frame of 512 messages", "f"), ("the converter", "c"),
          ("any other call", "tipurMAjOJG")]
PLAIN = ("boundary.c", "boundary_packets.c", "column.c")


def sources(*names):
    return [os.path.join(ROOT, "bench", name) for name in names]


@functools.cache
def program():
    """The laps through the archive."""
    return compiled("firmware", "-Wl,-z,now", "-I", INCLUDE, *sources("firmware.c"), archive())


@functools.cache
def plain_program():
    """The same laps through calls in plain C."""
    return compiled("firmware_plain", "-Wl,-z,now", "-I", INCLUDE, *sources("firmware.c", *PLAIN))


def work(letter, laps):
    """Laps of a call, less the cold ones."""
    cold = laps // COLD
    whole, start = ([Side(each(), "", (letter, str(count))) for each in (program, plain_program)] for count in (laps, cold))
    return Work(whole, start, laps - cold)


def call(letter, name, laps, counted):
    return Row("boundary", f"core of 16 columns through the boundary to C: {name}", "ns", None if letter in UNLIMITED else MOST, lambda: work(letter, laps), lambda: work(letter, counted))


def rows(laps):
    for letter, name in CALLS:
        yield call(letter, name, laps, COUNTED)
    yield call(*FRAME, max(1, laps // FRAME_PART), COUNTED_FRAMES)


def linked(names):
    """Bytes of code, of constants and of data where these functions alone are kept."""
    out = os.path.join(FOLDER.name, "linked")
    subprocess.run(["gcc", "-shared", "-nostdlib", "-Wl,--gc-sections", "-Wl,--version-script=/dev/stdin", *(f"-Wl,-u,{name}" for name in names), "-o", out,
                    archive()], input="{ global: " + "".join(f"{name}; " for name in names) + "local: *; };", text=True, check=True)
    found = subprocess.run(["size", "-A", out], capture_output=True, text=True, check=True).stdout
    sizes = [(name, int(size)) for name, size in re.findall(r"^(\.\S+)\s+(\d+)", found, re.M)]
    return [sum(size for name, size in sizes if name.startswith(kinds)) for kinds in (".text", ".rodata", (".data", ".bss"))]


def memory():
    """Rows of bytes."""
    for what, names in (("the archive, every function linked", sorted(exported())), ("order, take, note, next, halt, fresh and the check of a tree alone", ALONE)):
        yield f"{what}: code, constants, data", " + ".join(map(str, linked(names))) + " bytes"
    for what, letters in STACKS:
        yield f"stack of {what} through the boundary", run(program(), "", letters)[0].strip() + " bytes"
