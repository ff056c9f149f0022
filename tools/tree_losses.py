"""Tables of eight columns whose losses are measured and drawn."""
import os
import subprocess

from repository import ROOT

# The fastest tree for delay 2 and gap 1.
TREES = (("chain", (0, 0, 1, 2, 3, 4, 5, 6)), ("bush", (0,) * 8), ("fastest tree", (0, 0, 0, 0, 1, 0, 1, 2)))


def table(up):
    return f"columns={len(up)}\nroot=0\nup={','.join(map(str, up))}\n"


def answered(command, given):
    """What a command prints for an input."""
    return subprocess.run([os.path.join(ROOT, command)], input=given, capture_output=True, text=True, check=True).stdout


def to_rest(given):
    """How many steps an order takes to rest in the bank of a table; none where it is refused."""
    printed = answered("lockers", given + "order=0000000000000000\nrun=9999\n").splitlines()
    return int(printed[2].partition("=")[2]) if printed[0] == "table=ok" else None


def counts(given, steps):
    """What the program prints after so many steps: kept, lost and none, or the refusal."""
    return [int(line.partition("=")[2]) for line in answered("losses", f"{given}after={steps}\n").splitlines()]
