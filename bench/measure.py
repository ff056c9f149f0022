"""What a proved program costs beside the same in plain C compiled with -O3: the two run in turn, and must print the same."""
import collections
import functools
import math
import os
import resource
import subprocess
import sys
import tempfile

from repository import ROOT

BANK = ("column.c", "bank.c", "dispatch.c")
# The sources in C of each program.
PLAIN = {"column_laps": ("column.c", "frame.c", "column_laps.c"), "bank_laps": (*BANK, "bank_laps.c"), "dispatch_laps": (*BANK, "dispatch_laps.c"),
         "lockers": (*BANK, "lockers.c"), "losses": (*BANK, "losses.c"), "fastest": ("column.c", "fastest.c"), "journals": ("journals.c",)}
FOLDER = tempfile.TemporaryDirectory()
ROUNDS = 15
# Of the times of a program in all rounds, in rising order, the one that counts: on a busy machine the least may be one that the system measured wrong.
LOW = 2
# How far the middle one may be above it, as a part of what is measured, before the row is measured again, and how often a row is measured at most.
SPREAD = 0.1
ATTEMPTS = 3

# What is run: a program, its standard input and its words.
Side = collections.namedtuple("Side", "program given words", defaults=("", ()))
# What is measured: the proved side and the plain one; two more that are taken off, if any; as how many units the rest counts; processes of a round.
Work = collections.namedtuple("Work", "whole start units times", defaults=((), 1, 1))
# What a unit costs on both sides, and the spread.
Costs = collections.namedtuple("Costs", "ours theirs spread")


def compiled(name, *words):
    """A program of C, from its sources and further words for the compiler."""
    program = os.path.join(FOLDER.name, name)
    subprocess.run(["gcc", "-O3", "-Wall", "-Wextra", "-Werror", "-o", program, *words], check=True)
    return program


@functools.cache
def plain(name):
    """A program in plain C."""
    return compiled(name, *(os.path.join(ROOT, "bench", source) for source in PLAIN[name]))


def run(program, given, *words, times=1):
    """What the program prints, and its seconds of a processor, the user's and the system's, the mean of so many processes."""
    before = resource.getrusage(resource.RUSAGE_CHILDREN)
    for _ in range(times):
        done = subprocess.run([program, *words], input=given, capture_output=True, text=True, check=True)
    after = resource.getrusage(resource.RUSAGE_CHILDREN)
    return done.stdout, (after.ru_utime - before.ru_utime + after.ru_stime - before.ru_stime) / times


def alike(sides, outputs):
    """Both sides of a work must print the same in every round."""
    if len(set(outputs)) != 1:
        sys.exit(f"the outputs differ on {sides[0].given[:60]!r} {sides[0].words}")


def rounds(work):
    """The seconds of each side in every round, all sides in turn."""
    sides = [*work.whole, *work.start]
    found = [[run(side.program, side.given, *side.words, times=work.times) for side in sides] for _ in range(ROUNDS)]
    for pair in (slice(0, 2), slice(2, 4)):
        if sides[pair]:
            alike(sides[pair], [output for one in found for output, _ in one[pair]])
    return [sorted(seconds) for seconds in zip(*([cost for _, cost in one] for one in found))]


def spread_of(seconds, measured):
    """How far the middle time is above the one that counts; without bound where nothing is left to measure."""
    return (seconds[len(seconds) // 2] - seconds[LOW]) / measured if measured > 0 else math.inf


def costs_of(work, seconds):
    low = [one[LOW] for one in seconds] + [0, 0]
    left = [whole - start for whole, start in zip(low[:2], low[2:])]
    return Costs(*(one / work.units for one in left), max(map(spread_of, seconds[:2], left)))


def costs(work):
    """Seconds of a unit. Where the spread is too wide they are measured again, and those of the narrowest count."""
    found = []
    while len(found) < ATTEMPTS and not (found and found[-1].spread <= SPREAD):
        found.append(costs_of(work, rounds(work)))
    return min(found, key=lambda one: one.spread)
