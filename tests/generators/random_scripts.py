"""Random scripts, and all short ones: the built program's output beside the model's, byte for byte, with demand 3 asserted on the model's bank
after every line.

Prints the least and the most times that a seed met each thing of tests/generators/counters.py, and fails where that is too seldom. The scripts of each seed
must tell every wrong program of tests/wrong_models/script_mutants.py from the built one. A difference prints the shortest failing script that it could be cut
down to."""
import collections
import itertools
import pathlib
import random

import model
from generators import counters, script_makers
from helpers import refusals
from repository import ROOT
from wrong_models import script_mutants

GATE = (3, 7, 82519)
# Each of 15 columns has a packet under way for each of the 14 others, under each of two order numbers; where the root is watched, 14 were sent one by the
# root too.
CROWDED = {"root": 15 * 14 * 2 + 14, "sender": 15 * 14 * 2}


def program(data):
    return refusals.answered("lockers_main", data)


def differ(data):
    return program(data) != model.script(data)


def disagree(data):
    """Whether demand 3 fails in the model."""
    count = counters.Counters()
    count.script(data)
    return not count.agreed


def exceeds(data):
    """Whether the model passes a bound."""
    count = counters.Counters()
    count.script(data)
    return not count.bounded


def shortest(data, fails):
    """The script with lines cut out for as long as it fails."""
    lines = data.split(b"\n")
    size = len(lines) // 2
    while size:
        place = 0
        while place < len(lines):
            fewer = lines[:place] + lines[place + size:]
            if fails(b"\n".join(fewer)):
                lines = fewer
            else:
                place += size
        size //= 2
    return b"\n".join(lines)


def fault(words, data=b""):
    print(f"{words}\n{data.decode('latin-1')}")
    return 1


# ---- wrong programs

def telling(module, printed, order):
    """The place of the first script for which a wrong program prints something else; it goes first in the order, since it may tell others too."""
    for k, place in enumerate(order):
        data, text = printed[place]
        if module.script(data) != text:
            order.insert(0, order.pop(k))
            return place
    return None


def mutants_part(printed, with_equal):
    """Every wrong program prints something else than the built one, and those that are equal, where they are asked for, do not."""
    order = sorted(range(len(printed)), key=lambda place: len(printed[place][0]))
    faults = 0
    for module, equal in script_mutants.modules():
        if equal and not with_equal:
            continue
        place = telling(module, printed, order)
        if place is None and not equal:
            faults += fault(f"told from the program by no script: {module.__name__}")
        elif place is not None and equal:
            cut = shortest(printed[place][0], lambda data: module.script(data) != program(data))
            faults += fault(f"told from the program, though held to be equal: {module.__name__}, by:", cut)
    return faults


# ---- random scripts

def seed_part(seed, met, wrong_too=True):
    """The scripts of a seed; its counters go to `met`. The reasons of the programs that are equal are put to the test on every seed; what these print is
    compared on the first alone, since each goes through all scripts."""
    reached = collections.Counter()
    count, printed = counters.Counters(script_mutants.reasoned(reached)), []
    for data in script_makers.scripts(random.Random(seed)):
        printed.append((data, program(data)))
        try:
            text = count.script(data)
        except AssertionError as name:
            return fault(f"seed {seed}, not equal for the reason that is given: {name}, by:", data)
        if text != printed[-1][1]:
            return fault(f"seed {seed}, the program and the model differ on:", shortest(data, differ))
        if not count.agreed:
            return fault(f"seed {seed}, columns that run disagree after:", shortest(data, disagree))
        if not count.bounded:
            return fault(f"seed {seed}, more packets or steps than there can be:", shortest(data, exceeds))
    met.append(count)
    print(f"seed {seed}: {len(printed)} scripts, {count.lines} lines, at most {max(count.most_packets.values())} packets at once, 0 differences", flush=True)
    faults = [f"seed {seed}, {words}" for words in count.faults()]
    faults += [f"seed {seed}, no crowded network with watch={watch}" for watch, most in CROWDED.items() if count.most_packets[16, watch] < most]
    faults += [f"seed {seed}, a reason put to the test {reached[row[0]]} times: {row[0]}" for row in script_mutants.EQUAL if reached[row[0]] < counters.LEAST]
    return sum(map(fault, faults)) + (mutants_part(printed, with_equal=len(met) == 1) if wrong_too else 0)


def seeds_part(seeds):
    """The scripts of every seed, and a table of what they met."""
    met = []
    faults = sum(seed_part(seed, met) for seed in seeds)
    tell_met(met)
    if faults:
        return fault(f"{faults} faults")
    print(f"each of {len(script_mutants.TOLD)} wrong programs told from the built one on each seed; {len(script_mutants.EQUAL)} are equal, and told on none")
    return 0


def tell_met(met):
    """How often a seed met each counter, and the longest run and the fullest network for each count of columns."""
    print("least  most  of what a seed met")
    for name in counters.WANTED * bool(met):
        print(f"{min(one.met[name] for one in met):5} {max(one.met[name] for one in met):5}  {name}")
    print("columns  at most  longest run  watch=sender  at most  most packets  watch=sender")
    for columns in range(1, 17):
        run, packets, sender_run, sender_packets = (max((most[columns, watch] for most in seen), default=0) for watch in ("root", "sender")
                                                    for seen in ([one.most_steps for one in met], [one.most_packets for one in met]))
        print(f"{columns:7} {counters.step_bound(columns):8} {run:12} {sender_run:13} {counters.packet_bound(columns):8} {packets:13} {sender_packets:13}")
    print(f"{len(met)} seeds, {len(counters.WANTED)} counters, each to be met {counters.LEAST} times or more on each; as often the reasons of {len(script_mutants.EQUAL)} "
          "programs that are equal are to be put to the test")


# ---- all that there are

def exhaustive_part():
    """Every table of up to 4 columns, numbers one too high among them, every sequence for up to 3, every script of up to 4 lines over two columns from a
    small alphabet, the kept scripts and the examples, and empty lines up to the limit and one past it."""
    tables = [f"columns={n}\nroot={root}\nup={','.join(map(str, up))}\n".encode()
              for n in (1, 2, 3, 4) for root in range(n + 1) for up in itertools.product(range(n + 1), repeat=n)]
    tables += [f"columns={n}\nroot=0\nup={','.join('0' * n)}\nfirst={','.join(map(str, first))}\norder=0100000000000000\nsend=0\ntake=0\n".encode()
               for n in (1, 2, 3) for size in range(1, n + 2) for first in itertools.product(range(n + 1), repeat=size)]
    tables += [f"columns=2\nroot=0\nup=0,0\n{first}watch={word}{end}".encode() for first in ("", "first=1,0\n") for word in ("root", "sender", "", "r", "roots", "senders")
               for end in ("\n", "", "\norder=0100000000000000\nsend=0\n", "\nwatch=root\n")]
    alphabet = [b"order=0100000000000000\n", b"send=0\n", b"take=0\n", b"ack=1\n", b"note=0,1\n", b"halt=0\n", b"all=1\n", b"note=1,0\n", b"back=1\n"]
    kept = [path.read_bytes() for folder in ("examples", "tests/scripts") for path in sorted(pathlib.Path(ROOT, folder).glob("*.script"))]
    short = [b"columns=2\nroot=0\nup=0,0\n" + watch + b"".join(lines) for watch in (b"", b"watch=sender\n") for n in range(5) for lines in itertools.product(alphabet, repeat=n)]
    limits = [b"columns=1\nroot=0\nup=0\n".ljust(size, b"\n") for size in (model.LIMIT, model.LIMIT + 1)]
    for data in tables + short + limits + kept:
        if differ(data):
            return fault("the program and the model differ on:", data)
    print(f"{len(tables)} tables and {len(short)} scripts, all there are, {len(kept)} kept and {len(limits)} of empty lines: 0 differences")
    return 0
