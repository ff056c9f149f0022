"""The instructions of a program by valgrind's callgrind, which other work on the machine does not change.

Callgrind counts a repeated string instruction, as `rep movsb`, once for every byte or word that it moves, though it is one. The C library copies long
blocks by it, and so does gcc: a bank that C copies would count as thousands. So its rounds are left out: the instruction counts as often as the one
before it, after which it always comes."""
import functools
import os
import re
import shutil
import struct
import subprocess
import tempfile

from measure import alike

AVAILABLE = shutil.which("valgrind") is not None
# `rep` with movs or stos, of bytes or words, and of words of 64 bits.
REPEATED = (b"\xf3\xa4", b"\xf3\xa5", b"\xf3\xaa", b"\xf3\xab", b"\xf3\x48\xa5", b"\xf3\x48\xab")
LOADED = 1


@functools.cache
def segments(path):
    """Of an ELF file of 64 bits: each loaded segment's address, and its bytes."""
    with open(path, "rb") as file:
        data = file.read()
    table, = struct.unpack_from("<Q", data, 32)
    size, count = struct.unpack_from("<HH", data, 54)
    headers = [struct.unpack_from("<IIQQQQ", data, table + place * size) for place in range(count)]
    return [(address, data[offset:offset + length]) for kind, _, offset, address, _, length in headers if kind == LOADED]


def repeats(path, address):
    """Whether the instruction at an address of a file is a repeated one."""
    if not os.path.isfile(path):
        return False
    return any(data.startswith(REPEATED, address - first) for first, data in segments(path) if first <= address < first + len(data))


def counted(text):
    """Each object's instructions by their address, with how often each was counted. A line behind `calls=` is of what was called, and counts there."""
    objects, found, own, called = {}, {}, None, False
    for line in text.splitlines():
        if line.startswith(("ob=", "cob=")):
            key, number, path = re.match(r"(c?ob)=(\S+) ?(.*)", line).groups()
            path = objects.setdefault(number, path)
            own = path if key == "ob" else own
        elif line.startswith("0x") and not called:
            address, *_, count = line.split()
            place = (own, int(address, 16))
            found[place] = found.get(place, 0) + int(count)
        called = line.startswith("calls=")
    return found


def without_repeats(found):
    """All counts, a repeated instruction's being that of the one before it."""
    total, before = 0, (None, 0)
    for (path, address), count in sorted(found.items()):
        if before[0] == path and repeats(path, address):
            count = min(count, before[1])
        total, before = total + count, (path, count)
    return total


def instructions(program, given, *words):
    """What the program prints, and its instructions."""
    with tempfile.TemporaryDirectory() as folder:
        out = os.path.join(folder, "counts")
        done = subprocess.run(["valgrind", "--tool=callgrind", "-q", "--dump-instr=yes", "--compress-pos=no", f"--callgrind-out-file={out}", program, *words],
                              input=given, capture_output=True, text=True, check=True)
        with open(out, encoding="utf8") as file:
            return done.stdout, without_repeats(counted(file.read()))


def counts(work):
    """Instructions of a unit on both sides, or nothing where they cannot be counted."""
    if not AVAILABLE:
        return None
    found = [instructions(side.program, side.given, *side.words) for side in (*work.whole, *work.start)]
    alike(work.whole, [output for output, _ in found[:2]])
    numbers = [number for _, number in found] + [0, 0]
    return [(whole - start) / work.units for whole, start in zip(numbers[:2], numbers[2:])]
