#!/usr/bin/env python3
"""Random bytes as scripts: the built program must answer each, whatever it is.

    python3 tests/outside_the_gate/bad_bytes.py --valgrind 100

Each input is random bytes, or a script with bytes changed. The program must end with status 0 and print only lines that the papers name. A sample of them
runs under valgrind, which must see no read or write outside and no value that was never set."""
import os
import random
import re
import subprocess
import sys

sys.path.insert(0, os.path.dirname(os.path.dirname(os.path.abspath(__file__))))
from helpers import refusals
from generators import script_makers, script_texts
from repository import built, parser, positive

NUMBERS = "|".join(map(str, sorted(refusals.ASKED["lockers_main"])))
LINE = re.compile((rf"(?:table=ok|step=ok|steps=\d{{1,4}}|refused=(?:{NUMBERS})|column=\d{{1,2}}|number=\d{{1,10}}|occupied=\d{{1,2}}|doors=[\d,]*"
                   r"|rest=(?:yes|no))\n").encode())
# The bytes that lines of scripts and tables have.
ALPHABET = bytes({*b"columnsrootupfirstwatchsenderordersendtakeackallnotehaltrunbacklist", *b"0123456789abcdef=,\n"})
VALGRIND = ["valgrind", "--quiet", "--error-exitcode=9", "--leak-check=no"]


def inputs(rng, count):
    """Random bytes, bytes of the alphabet of scripts, and damaged scripts."""
    for k in range(count):
        if k % 4 == 0:
            yield rng.randbytes(rng.choice([0, 1, 10, 100, 1000]))
        elif k % 4 == 1:
            yield bytes(rng.choices(ALPHABET, k=rng.choice([1, 30, 300])))
        elif k % 4 == 2:
            yield script_texts.tree(rng, rng.randint(1, 16)).encode() + bytes(rng.choices(ALPHABET, k=rng.choice([1, 30, 300])))
        else:
            yield script_makers.damaged(rng)


def answered(data, before=()):
    """Whether the program ends well and prints nothing but its lines."""
    done = subprocess.run([*before, built("lockers_main")], input=data, capture_output=True)
    return done.returncode == 0 and LINE.sub(b"", done.stdout) == b"" and done.stdout != b"" and done.stderr == b""


def main():
    words = parser(__doc__)
    words.add_argument("--count", type=positive, default=100_000, help="how many inputs, 100,000 without it")
    words.add_argument("--seed", type=int, default=1, help="what the inputs are made from, 1 without it")
    words.add_argument("--valgrind", type=int, default=200, help="how many of them run under valgrind too, 200 without it; 0 needs no valgrind")
    given = words.parse_args()
    every = max(1, given.count // max(1, given.valgrind))
    sampled = 0
    for k, data in enumerate(inputs(random.Random(given.seed), given.count)):
        sample = given.valgrind and k % every == 0
        sampled += bool(sample)
        if not answered(data) or sample and not answered(data, VALGRIND):
            print("not answered:", data)
            return 1
    print(f"seed {given.seed}: {given.count} inputs answered, {sampled} of them under valgrind too")
    return 0


if __name__ == "__main__":
    sys.exit(main())
