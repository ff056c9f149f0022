#!/usr/bin/env python3
"""The random tests of all programs on other seeds than the gate's, one seed after the other:

    python3 tests/outside_the_gate/seeds.py 1-20

Each seed must meet every counter of every test, those of scripts half as often as the gate's seeds, and have every program answer each of its numbers; it must tell the wrong models of all programs but the
script program, whose script_seeds.py tells on seeds of its own. Prints how often a seed met each number, the least and the most of all seeds."""
import io
import os
import sys
import unittest

sys.path.insert(0, os.path.dirname(os.path.dirname(os.path.abspath(__file__))))
from helpers import refusals
from cases import test_fastest, test_firmware, test_frames, test_journals, test_losses, test_pages
from generators import counters, random_scripts
from helpers.counting import seeds_of
from repository import parser

TESTS = [
    test_fastest.Fastest("test_random_requests_are_answered_as_the_model_answers_them"),
    test_firmware.Calls("test_random_calls_answer_and_leave_what_the_model_does_and_every_refusal_is_met"),
    test_frames.Frames("test_random_frames_are_read_as_the_model_reads_them"),
    test_frames.Frames("test_random_packets_of_both_widths_are_converted_as_the_model_does"),
    test_journals.Journals("test_random_journals_are_compared_as_the_model_compares_them"),
    test_losses.Losses("test_random_inputs_are_answered_as_the_model_answers_them"),
    test_pages.Pages("test_random_commands_print_what_the_model_prints"),
    test_pages.Pages("test_trees_that_are_refused"),
]


def points(seed):
    """How many of the tests beside the scripts' failed on a seed; each failure is printed."""
    for test in TESTS:
        sys.modules[type(test).__module__].SEEDS = (seed,)
    result = unittest.TextTestRunner(stream=io.StringIO()).run(unittest.TestSuite(TESTS))
    bad = result.failures + result.errors
    for _, text in bad:
        random_scripts.fault(f"seed {seed}: {text}")
    return len(bad)


def main():
    words = parser(__doc__)
    words.add_argument("seeds", metavar="SEEDS", type=seeds_of, help="a seed, or the first and the last as 1-20")
    seeds = words.parse_args().seeds
    met, numbers, faults = [], [], 0
    counters.LEAST //= 2
    for seed in seeds:
        refusals.MET.clear()
        faults += random_scripts.seed_part(seed, met, wrong_too=False) + points(seed)
        faults += sum(random_scripts.fault(f"seed {seed}: {words}") for words in refusals.faults(refusals.ASKED, refusals.MET))
        numbers.append(refusals.MET.copy())
    print(*refusals.rows(lambda *cell: f"{min(one[cell] for one in numbers)}-{max(one[cell] for one in numbers)}" if cell[0] in refusals.ASKED else ""), sep="\n")
    random_scripts.tell_met(met)
    print(f"{faults} faults")
    return 1 if faults else 0


if __name__ == "__main__":
    sys.exit(main())
