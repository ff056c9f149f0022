"""What holds of every line of the program handed_test: the bank's steps on banks that no script reaches."""
import re
import unittest

import model
from helpers.programs import printed
from models import handed_five, model_pages
from wrong_models import edited, pages_mutants

# name, step and its parameters, answer, whether the state is as it was, and what the step did
STEP = re.compile(r"(.+), (order|send|take|ack|all|note|halt|back|write) ([\d ]+|\{[\d,]*\}): (ok|refused \d+), (unchanged|changed, rewritten (\{[\d,]*\}))(.*)")

# name, limit, answer, steps, whether the state is as it was, and whether the bank is at rest
DISPATCH = re.compile(r"(.+), dispatch (\d+): (ok|refused \d+), steps (\d+), (unchanged|changed), count \d+, (at rest|not at rest), column 1 .*")

NUMBERS = (*range(2, 11), 14, 15, 16, 22)
STEPS = {"order", "send", "take", "ack", "all", "note", "halt", "back", "write"}
# Lines of a write that is not in the bank of tests/models/handed_five.py as it is.
ANOTHER_BANK = re.compile("packets|17 columns|root 5|in noted")
# Document 02, Point 12: the bit that a step sets at the column which it names, or the order's root.
BITS = {"order": model_pages.RECORD_RECEIVED, "note": model_pages.HALT_NOTED, "all": model_pages.TOOK_OVER}
# In banks of three columns: the number of every record, the mask, and a bit that is pending before the step and set by none.
NUMBER, MASK, PENDING = 5, 9, 32
PAGE = re.compile(r"column \d+ \w+ number (\d+) doors [^,]*(?:,\d[^,]*)* mask (\d+) pending (\d+)")


# The wrong pages that come back or write otherwise, each with the step.
WRONG_PAGES = [(step, bank) for step in ("back", "write") for bank in pages_mutants.WRONG if step in vars(bank)]


class Handed(unittest.TestCase):
    @classmethod
    def setUpClass(cls):
        lines = printed("handed_test").decode().splitlines()
        cls.steps = [found for found in map(STEP.fullmatch, lines) if found]
        cls.dispatches = [found for found in map(DISPATCH.fullmatch, lines) if found]
        cls.rest = [line.rsplit(": ", 1) for line in lines if line.endswith("at rest")]
        cls.comparisons = [line.rsplit(": ", 1) for line in lines if line.endswith((": same", ": different"))]
        cls.lines = lines
        cls.returns = [found for found in cls.steps if found[1].startswith("root 2 ")]
        cls.writes = [found for found in cls.steps if found[2] == "write" and not ANOTHER_BANK.search(found[1])]

    def told(self, lines, make=handed_five.with_pages):
        """The lines of which the bank that is made, a right or a wrong one, says another thing than the program."""
        return [found[0] for found in lines
                if handed_five.said(handed_five.five(found[1], make), found[2], [*map(int, found[3].split())]) != found[0].split(": ", 1)[1]]

    def test_the_count_of_cases(self):
        self.assertEqual((len(self.steps), len(self.rest), len(self.comparisons), len(self.dispatches)), (302, 29, 22, 14))
        self.assertEqual(len(self.lines), 302 + 29 + 22 + 14)
        self.assertEqual(len({line.split(": ")[0] for line in self.lines}), len(self.lines))

    def test_the_comparison_sees_every_part(self):
        self.assertEqual([part for part, answer in self.comparisons if answer == "same"], ["column 15, no field"])

    def test_a_refused_step_changes_nothing_and_an_accepted_one_something(self):
        for found in self.steps:
            self.assertEqual(found[4] != "ok" or found[3] == "{}", found[5] == "unchanged", found[0])

    def test_an_accepted_step_rewrites_at_most_the_columns_it_names(self):
        for found in self.steps:
            if found[2] == "halt":
                self.assertIn(found[6], (None, found[3]), found[0])
            elif found[2] == "back":
                self.assertTrue(found in self.returns or found[6] in (None, "{0,1,2}", "{1,2}"), found[0])
            elif found[6]:
                self.assertRegex(found[6], r"^\{\d?\}$", found[0])
                if found[2] not in ("order", "take") and found[6] != "{}":
                    self.assertEqual(found[6], f"{{{found[3].split()[0]}}}", found[0])

    def test_every_number_of_a_step_and_every_step_occur(self):
        self.assertEqual({found[4] for found in self.steps}, {"ok"} | {f"refused {n}" for n in NUMBERS})
        for answer in ("ok", "refused 4"):
            steps = {found[2] for found in self.steps if found[4] == answer}
            self.assertEqual(steps, STEPS, answer)

    def test_a_name_that_begins_with_a_number_is_refused_with_it(self):
        named = [(re.match(r"(\d+)(?: over (\d+))?, ", found[1]), found) for found in self.steps]
        named = [(number, found) for number, found in named if number]
        self.assertEqual({number[1] for number, _ in named}, {str(n) for n in NUMBERS})
        for number, found in named:
            self.assertEqual(found[4], f"refused {number[1]}", found[0])

    def test_a_full_network_refuses_only_what_puts_a_packet(self):
        answers = {511: [], 512: []}
        for found in self.steps:
            count = re.match(r"(51[12]) packets, ", found[1])
            if count and found[4] == "refused 9":
                answers[int(count[1])].append(found[2])
        self.assertEqual(answers, {511: [], 512: ["send", "ack", "take"]})

    def test_a_dispatch_is_refused_by_2_3_and_4_alone_and_changes_what_it_takes_steps_in(self):
        self.assertEqual({found[3] for found in self.dispatches}, {"ok", "refused 2", "refused 3", "refused 4"})
        for found in self.dispatches:
            self.assertEqual(found[4] == "0", found[5] == "unchanged", found[0])
            self.assertLessEqual(int(found[4]), int(found[2]), found[0])
            if found[3] != "ok":
                self.assertEqual(found[4], "0", found[0])

    def test_a_return_and_a_write_leave_what_the_model_leaves(self):
        self.assertEqual((len(self.returns), len(self.writes)), (5, 14))
        self.assertEqual(self.told(self.returns + self.writes), [])
        running = lambda found: handed_five.five("").columns[int(found[3].split()[0])].running
        accepted = {(running(found), found[3].split()[1]) for found in self.writes if found[4] == "ok"}
        self.assertEqual(accepted, {(runs, offset) for runs in (True, False) for offset in ("5", "7")})

    def test_wrong_returns_and_wrong_writes_say_another_thing(self):
        wrong = [(name, self.returns, handed_five.without_pages(edited.edited(model, name, (old, new)))) for name, old, new in handed_five.WRONG_RETURNS]
        wrong += [(bank.__name__, {"back": self.returns, "write": self.writes}[step], lambda *given, bank=bank: bank(*given, lambda words: None))
                  for step, bank in WRONG_PAGES]
        self.assertEqual([name for name, lines, make in wrong if not self.told(lines, make)], [])
        self.assertEqual(self.told(self.returns, handed_five.without_pages(model)), [])

    def test_a_step_sets_its_bit_and_no_other_and_keeps_the_mask(self):
        """Of the lines with one column of three, but for those of a bank after other steps. Where a take receives a record, and nowhere else, its number is new."""
        met = set()
        for found in self.steps:
            columns = PAGE.findall(found[7])
            if found[4] == "ok" and found[2] != "write" and len(columns) == 1 and not found[1].startswith("senders watched, back"):
                number, mask, pending = map(int, columns[0])
                received = found[2] == "take" and number != NUMBER
                self.assertEqual((mask, pending), (MASK, PENDING | BITS.get(found[2], model_pages.RECORD_RECEIVED * received)), found[0])
                met.add((found[2], pending - PENDING))
        self.assertEqual(met, {*BITS.items(), ("take", model_pages.RECORD_RECEIVED), *((step, 0) for step in STEPS - {*BITS, "write"})})

    def test_nothing_unused_is_touched(self):
        kept = [line for line in self.lines if line.endswith(" kept")]
        self.assertEqual(len(kept), 24)
        self.assertFalse([line for line in self.lines if line.endswith(" lost")])
