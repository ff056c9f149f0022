"""The rows of the tables of speed. A row has a ratio to plain C by time and one by instructions, beside them the goal of its part and what the ratio by
time may be at most."""
import collections
import os

from instructions import AVAILABLE, counts
from measure import ATTEMPTS, SPREAD, costs

# `timed` and `counted` give the work whose time is measured and the one whose instructions are counted.
Row = collections.namedtuple("Row", "part name unit most timed counted")
GOALS = {"core": 1.2}
# How the seconds of a unit are shown: as a time, or as how many are done in a millisecond.
TOLD = {"ns": lambda seconds: f"{seconds * 1e9:.0f} ns", "ms": lambda seconds: f"{seconds * 1e3:.2f} ms", "rate": lambda seconds: f"{1e-3 / seconds:.0f}"}
MILLION = 1e6
# The part of which so many rows should reach the goal.
COUNTED, WANTED = "core", 7
HEADINGS = ("one step, or a whole run", "proved", "plain C", "ratio", "spread", "instructions, proved", "plain C", "ratio", "goal", "at most")
# The place of the ratio by time, and of the first limit.
RATIO, LIMITS = 3, 8


def line(cells):
    print(f"| {' | '.join(cells)} |", flush=True)


def heading(cells):
    line(cells)
    print("|" + "---|" * len(cells))


def limit(number, ratio):
    """A number that the ratio is above is bold."""
    if number is None:
        return ""
    return f"**{number:g}**" if ratio > number else f"{number:g}"


def limits(row, ratio):
    return [limit(number, ratio) for number in (GOALS.get(row.part), row.most)]


def spread_cell(spread):
    """Bold where it stayed too wide."""
    told = f"{spread * 100:.0f} %"
    return f"**{told}**" if spread > SPREAD else told


def count_cell(number):
    return f"{number / MILLION:.2f} M" if number >= MILLION else f"{number:.0f}"


def count_cells(row):
    """The instructions of both sides and their ratio, or nothing where they cannot be counted."""
    numbers = counts(row.counted())
    return [*map(count_cell, numbers), f"{numbers[0] / numbers[1]:.2f}"] if numbers else [""] * 3


def time_cells(row):
    """The times of both sides, their ratio as it is printed, and the spread."""
    found = costs(row.timed())
    if min(found[:2]) <= 0:
        return ["", "", "", "**too little to be timed**"], 0
    ratio = round(found.ours / found.theirs, 2)
    return [*map(TOLD[row.unit], found[:2]), f"{ratio:.2f}", spread_cell(found.spread)], ratio


def measured(row):
    """The row's cells without its limits, and its ratio as it is printed."""
    cells, ratio = time_cells(row)
    return [row.name, *cells, *count_cells(row)], ratio


def show(row):
    """Prints the row, and answers its ratio as it is printed."""
    cells, ratio = measured(row)
    line([*cells, *limits(row, ratio)])
    return ratio


def load():
    return ", ".join(f"{one:.2f}" for one in os.getloadavg()) + f" on {os.cpu_count()} processors"


def conditions():
    """What a reader of the times must know of the machine."""
    print(f"Load of the machine over 1, 5 and 15 minutes before: {load()}.")
    if not AVAILABLE:
        print("Instructions are left out, since valgrind, which counts them, is not here.")
    print(f"A row whose spread is above {SPREAD * 100:.0f} % is measured again, {ATTEMPTS} times in all; where it stayed above, it is bold.\n")


def show_all(rows):
    heading(HEADINGS)
    shown = [(row, show(row)) for row in rows]
    counted = [ratio for row, ratio in shown if row.part == COUNTED]
    reached = [ratio for ratio in counted if ratio <= GOALS[COUNTED]]
    above = [row for row, ratio in shown if row.most and ratio > row.most]
    print(f"\nOf the {len(counted)} rows of the {COUNTED} {len(reached)} reach the goal, which {WANTED} of them should. {len(above)} rows are above what they may be at most.")
