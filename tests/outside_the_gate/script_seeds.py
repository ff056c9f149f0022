#!/usr/bin/env python3
"""The random scripts of the gate on other seeds than its own, with every wrong model of a script:

    python3 tests/outside_the_gate/script_seeds.py 1-20
"""
import os
import sys

sys.path.insert(0, os.path.dirname(os.path.dirname(os.path.abspath(__file__))))
from helpers.counting import seeds_of
from generators import random_scripts
from repository import parser


def main():
    words = parser(__doc__)
    words.add_argument("seeds", metavar="SEEDS", type=seeds_of, help="a seed, or the first and the last as 1-20")
    return random_scripts.seeds_part(words.parse_args().seeds)


if __name__ == "__main__":
    sys.exit(main())
