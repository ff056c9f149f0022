"""Which numbers each program answers, and how often the tests met each of them. `tests/run.py` ends with this table, and fails where a program answered
none of one of its numbers, or another number."""
import collections
import re
import unittest

from helpers.programs import printed

# Programs, and the library for C, that random tests give their inputs.
ASKED = {
    "lockers_main": {*range(1, 8), 10, 13, 14, 15, 16},
    "fastest_main": {1, 2, 17},
    "losses_main": {1, 2, 3, 13, 23},
    "journals_main": {19, 20, 21},
    "frames_test": {12, 18},
    "pages_test": {*range(2, 8), 10, 14, 15, 16, 22},
    "firmware": {*range(1, 9), 11, 12, 14, 15, 16, 18, 22, 24},
}
# Programs that have their cases in them: banks, lists, tables and short buffers that no script can hand in.
FIXED = {
    "handed_test": {*range(2, 11), 14, 15, 16, 22},
    "edges_test": {*range(1, 6), 10, 11, 13, 19, 20, 21},
    "pair_example": {4, 18},
}
PROGRAMS = {**ASKED, **FIXED}
# Document 01's and document 02's numbers, and the one of the boundary to C.
NUMBERS = range(1, 25)
MET = collections.Counter()


def count(program, text):
    """Counts the refusals in what a program printed."""
    MET.update((program, int(number)) for number in re.findall(r"\b(?:refused|unconverted)[= ](\d+)", text))


def answered(program, data=b""):
    """What a program prints for an input, its refusals counted."""
    text = printed(program, data).decode("ascii")
    count(program, text)
    return text


def rows(cell):
    """A line for each number, with what `cell` says of it and of each program, and a line of the programs' names before them."""
    line = lambda first, words: f"{first:>3}" + "".join(f"{word:>14}" for word in words)
    return [line("", PROGRAMS), *(line(number, (cell(program, number) if number in PROGRAMS[program] else "" for program in PROGRAMS)) for number in NUMBERS)]


def faults(programs, met):
    """The numbers that a program never answered, and those that it never should."""
    return ([f"{program} answered {number} never" for program in programs for number in sorted(programs[program]) if not met[program, number]]
            + [f"{program} answered {number}, which is none of its numbers" for program, number in met if number not in PROGRAMS[program]])


class Met(unittest.TestCase):
    def test_every_number_is_met_by_every_program_that_answers_it(self):
        for program in FIXED:
            answered(program)
        print("", *rows(lambda program, number: MET[program, number]), sep="\n")
        self.assertEqual(faults(PROGRAMS, MET), [])
        self.assertEqual(set().union(*PROGRAMS.values()), {*NUMBERS})
