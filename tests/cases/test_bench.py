"""What bench/ says of times and instructions: which time counts and when a row is measured again, and that a repeated instruction counts once."""
import math
import os
import subprocess
import tempfile
import unittest
from unittest import mock

import instructions
import measure

QUIET = [1.0, 1.0, 1.0, *[1.02] * 12]
BUSY = [1.0, 1.0, 1.0, *[1.5] * 12]
STARTED = [0.5] * 15
REPEATING = 'void moved(void); __asm__(".globl before, moved\\nbefore: mov %rdx,%rcx\\nmoved: rep movsb\\nret"); int main(void) { return 0; }'
COUNTS = """ob=(1) /one
fn=(1) first
0x10 1 4
0x13 1 4
cob=(2) /two
cfn=(2) second
calls=4 0x20 1
0x13 1 4000
0x15 2 4
ob=(2)
fn=(2)
0x20 1 4
0x23 1 3996
"""


class Times(unittest.TestCase):
    def costs(self, *found):
        """The costs of works of ten units whose sides took so long, one after the other."""
        work = measure.Work(whole=(), start=(), units=10)
        with mock.patch.object(measure, "rounds", side_effect=found) as rounds:
            return measure.costs(work), rounds.call_count

    def test_the_third_least_counts_less_what_is_taken_off(self):
        costs, times = self.costs([[2 * one for one in QUIET], QUIET, STARTED, STARTED])
        self.assertEqual((costs.ours, costs.theirs, times), (0.15, 0.05, 1))
        self.assertAlmostEqual(costs.spread, 0.04)

    def test_a_wide_row_is_measured_again_and_the_narrowest_counts(self):
        costs, times = self.costs([BUSY, BUSY], [[3 * one for one in QUIET], QUIET])
        self.assertEqual((costs.ours, times), (3 / 10, 2))

    def test_a_row_that_stays_wide_has_its_spread(self):
        costs, times = self.costs(*[[BUSY, QUIET]] * measure.ATTEMPTS)
        self.assertEqual(times, measure.ATTEMPTS)
        self.assertGreater(costs.spread, measure.SPREAD)

    def test_where_nothing_is_left_the_spread_has_no_bound(self):
        self.assertEqual(measure.spread_of(QUIET, 0.0), math.inf)


class Instructions(unittest.TestCase):
    def test_what_is_called_counts_where_it_is(self):
        self.assertEqual(instructions.counted(COUNTS), {("/one", 0x10): 4, ("/one", 0x13): 4, ("/one", 0x15): 4, ("/two", 0x20): 4, ("/two", 0x23): 3996})

    def test_a_repeated_instruction_counts_as_often_as_the_one_before(self):
        with mock.patch.object(instructions, "repeats", lambda path, address: address == 0x23):
            self.assertEqual(instructions.without_repeats(instructions.counted(COUNTS)), 20)

    def test_a_repeated_instruction_is_found_in_its_file(self):
        with tempfile.TemporaryDirectory() as folder:
            program = os.path.join(folder, "repeating")
            subprocess.run(["gcc", "-xc", "-", "-o", program], input=REPEATING, text=True, check=True)
            lines = subprocess.run(["nm", program], capture_output=True, text=True, check=True).stdout.splitlines()
            places = {words[2]: int(words[0], 16) for words in map(str.split, lines) if len(words) == 3}
            self.assertEqual([instructions.repeats(program, places[name]) for name in ("before", "moved", "main")], [False, True, False])
