"""What docs/SCRIPTS.md shows: the lines of a script, every refusal with an example that is refused, the run that is explained, the examples."""
import glob
import os
import re
import unittest

import model
from cases.test_fastest import answer
from cases.test_journals import answer as compared
from cases.test_losses import answer as counted
from helpers import refusals
from helpers.documents import blocks, rows, section, spans
from helpers.programs import run_script
from repository import ROOT, read

REQUEST = ("columns=5", "delay=2", "gap=1")
# Numbers that no script meets, whose example is a call of the C library, journals, or words alone.
CALLS, JOURNALS, WORDS = {8, 11, 12, 18, 22, 24}, {19, 20, 21}, {9}


class Scripts(unittest.TestCase):
    @classmethod
    def setUpClass(cls):
        cls.text = read("docs", "SCRIPTS.md")
        cls.table = blocks(section(cls.text, "The lines of a script"))

    def rows(self, heading, table=0):
        """The rows of a section's table, without its two lines of heading."""
        parts = re.split(r"\n\s*\n", section(self.text, heading))
        return rows([part for part in parts if part.lstrip().startswith("|")][table])[2:]

    def test_the_lines_of_a_script_are_those_of_the_model(self):
        self.assertEqual(model.script("".join(line + "\n" for line in self.table).encode()), "table=ok\nrest=yes\n")
        lines = [spans(row[0])[0] for row in self.rows("The lines of a script")]
        self.assertEqual(sorted(line.split("=")[0] for line in lines), sorted(model.STEPS))
        for line in lines:
            self.assertRegex(line, rf"\A{model.STEPS[line.split('=')[0]]}\Z")
        self.assertEqual(re.findall(r"^  (\w+=\S+) ", read("lockers"), re.M), self.table + lines)

    def test_the_run_prints_what_is_beside_each_line(self):
        shown = [(spans(row[0]), spans(row[1])) for row in self.rows("The takeover explained")]
        script = "".join(f"{line}\n" for lines, _ in shown for line in lines)
        self.assertEqual(script, read("examples", "taken-over.script"))
        for end in range(len(self.table), len(shown)):
            given = "".join(f"{lines[0]}\n" for lines, _ in shown[:end])
            printed = run_script(given.encode()).decode().splitlines()
            self.assertEqual(printed[:-1], [line for _, prints in shown[:end] for line in prints], given)
        self.assertEqual(printed[-1:], shown[-1][1])

    def test_every_refusal_is_met_by_its_example(self):
        found = [(int(row[0]), row[2]) for row in self.rows("The refusals", 1)]
        self.assertEqual([number for number, _ in found], list(refusals.NUMBERS))
        for number, cell in found:
            lines = spans(cell)
            if number in JOURNALS:
                journals = ("".join(f"{line}\n" for line in spans(part)).encode() for part in cell.split(" and "))
                self.assertEqual(compared(*journals), b"refused=%d\n" % number, cell)
            elif number in CALLS:
                self.called(number, cell)
            elif number == 17:
                self.assertEqual(answer(self.in_place(REQUEST, lines).encode()), "refused=17\n")
            elif number == 23:
                self.assertEqual(counted(self.in_place([*self.table, "after=2"], lines).encode()), "refused=23\n")
            elif number not in WORDS:
                self.refused(number, lines)

    def test_no_example_sends_its_reader_to_a_proof(self):
        self.assertNotRegex(section(self.text, "The refusals"), r"\.antt|\.rt|crates/")

    def test_the_order_of_the_numbers_names_each_of_them(self):
        ordered = [[int(number) for number in re.findall(r"\d+", row[1])] for row in self.rows("The refusals")]
        self.assertEqual({number for numbers in ordered for number in numbers}, set(refusals.NUMBERS))

    def called(self, number, cell):
        """The call that an example names is one of the library, and the library's test meets the number."""
        names = re.findall(r"mudasgup_\w+", cell)
        self.assertEqual(len(names), 1, cell)
        self.assertRegex(read("include", "mudasgup.h"), rf"\b{names[0]}\(")
        self.assertIn(number, refusals.ASKED["firmware"])

    def in_place(self, first, lines):
        """A line with a key of the first ones replaces its line; the others follow."""
        own = {line.split("=")[0]: line for line in first}
        own.update((line.split("=")[0], line) for line in lines if line.split("=")[0] in own)
        return "".join(f"{line}\n" for line in [*own.values(), *(line for line in lines if line not in own.values())])

    def refused(self, number, lines):
        keys = [line.split("=")[0] for line in self.table]
        steps = [line for line in lines if line.split("=")[0] not in keys]
        printed = run_script(self.in_place(self.table, lines).encode()).decode().splitlines()
        accepted = ["table=ok"] + ["step=ok"] * (len(steps) - 1) if steps else []
        self.assertEqual(printed[: len(accepted) + 1], accepted + [f"refused={number}"], lines)

    def test_every_example_is_in_the_table(self):
        named = [name for row in self.rows("Examples") for name in spans(row[0])]
        for ending in (".script", ".out"):
            files = glob.glob(os.path.join(ROOT, "examples", "*" + ending))
            self.assertEqual(sorted(named), sorted(os.path.basename(path).removesuffix(ending) for path in files))
