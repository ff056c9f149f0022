"""What README.md and the documents of commands, firmware, figures and tests show: it is short, its files and commands are there, its figures are those of their commands."""
import glob
import os
import re
import shutil
import unittest

import boundary
import laps
import processes
from helpers.documents import BLOCK, blocks, rows, section, spans
from repository import ROOT, built, read
from row import HEADINGS, LIMITS, RATIO, limits
from scripts import SCRIPTS
from stack import ROUNDS, runs_in

LINES, BYTES = 120, 8000
DOCUMENTS = ("README.md", "CONTRIBUTING.md", *(f"docs/{name}.md" for name in ("SCRIPTS", "COMMANDS", "FIRMWARE", "FIGURES", "GROWTH", "TESTS", "GLOSSARY")))
LINK = re.compile(r"\]\(([^)#]+)\)")


def paths_of(document):
    """The files that a document names: in code spans, and by links, which are from its own folder."""
    text = read(document)
    for word in (word for span in spans(text) for word in span.split()):
        if re.match(r"(?:\./\w+$|(?:crates|tests|tools|docs|examples|include|bench|\.ci)/)", word):
            yield word
    yield from (os.path.join(os.path.dirname(document), link) for link in LINK.findall(text) if "://" not in link)


class Readme(unittest.TestCase):
    def test_it_is_one_page(self):
        text = read("README.md")
        self.assertLessEqual(text.count("\n"), LINES)
        self.assertLessEqual(len(text.encode()), BYTES)

    def test_every_file_that_a_document_names_is_there(self):
        for document in DOCUMENTS:
            for path in paths_of(document):
                self.assertTrue(os.path.exists(os.path.join(ROOT, path)), f"{document}: {path}")
        self.assertGreater(len([path for document in DOCUMENTS for path in paths_of(document)]), 60)

    def test_every_document_is_led_to_from_readme(self):
        led = {os.path.normpath(path) for document in DOCUMENTS for path in paths_of(document)} | {"README.md"}
        documents = {os.path.relpath(path, ROOT) for path in glob.glob(os.path.join(ROOT, "docs", "*.md"))} | {"CONTRIBUTING.md"}
        self.assertEqual(documents - led, set())

    def test_every_command_is_there(self):
        needs = [word for row in rows(section(read("docs", "COMMANDS.md"), "What they need"))[2:] if row[0] in ("the four commands", "the tests") for word in spans(row[1])]
        needed = [word for word in needs if not os.path.exists(os.path.join(ROOT, word))]
        self.assertEqual(needed, ["bash", "rt", "gcc", "g++", "python3"])
        tried = blocks(section(read("README.md"), "Try it"))
        self.assertEqual(len(tried), 2)
        tests = [spans(row[0])[0] for row in rows(section(read("docs", "TESTS.md"), "What each prints"))[2:]]
        for command in [*needed, *tried, *tests, "bench/run", "bench/growth"]:
            program = command.split()[0]
            self.assertIsNotNone(shutil.which(os.path.join(ROOT, program) if "/" in program else program), command)
            for word in command.split()[1:]:
                self.assertTrue("/" not in word or os.path.exists(os.path.join(ROOT, word)), command)

    def test_every_test_that_is_listed_is_one(self):
        names = re.findall(r"tests/run\.py (\w+)", read("docs", "TESTS.md") + read("CONTRIBUTING.md"))
        self.assertGreater(len(names), 10)
        for name in names:
            self.assertTrue(os.path.exists(os.path.join(ROOT, "tests", "cases", f"{name}.py")), name)

    def test_the_calls_in_c_are_those_of_the_header(self):
        block = BLOCK.search(section(read("README.md"), "In C"))[1]
        header = read("include", "mudasgup.h")
        names = set(re.findall(r"\bmudasgup_\w+|\bMUDASGUP_\w+", block))
        self.assertGreater(len(names), 6)
        for name in names:
            self.assertRegex(header, rf"\b{name}\b")
        example = read("examples", "firmware", "order.c")
        for call in re.findall(r"\bmudasgup_\w+(?=\()", block):
            self.assertIn(f"{call}(", example)

    def test_the_wrong_program_that_is_tried_is_on_the_list(self):
        command = re.search(r"^tests/mutants/run (\w+) (\w+)", read("README.md"), re.M)
        distrusted = BLOCK.findall(section(read("docs", "PROOFS.md"), "To distrust it"))
        self.assertTrue(any(f"tests/mutants/run {command[1]} {command[2]}\n" == one for one in distrusted))
        refused, total = next(one for one in distrusted if one.startswith(f"{command[1]}/{command[2]}: ")).splitlines()
        self.assertIn(refused, read("tests", "mutants", "refused.txt").splitlines())
        self.assertEqual(total, "1 refused for a fact, 0 not")


class Figures(unittest.TestCase):
    def test_the_table_of_speed_is_that_of_its_command(self):
        shown = [row for row in rows(section(read("docs", "FIGURES.md"), "What bench/run printed"))[2:] if len(row) == len(HEADINGS)]
        measured = [*laps.rows(1), *boundary.rows(1), *processes.rows()]
        self.assertEqual([row[0] for row in shown], [row.name for row in measured])
        for cells, row in zip(shown, measured):
            self.assertEqual(cells[LIMITS:], limits(row, float(cells[RATIO] or 0)), row.name)

    def test_the_program_runs_in_the_stack_that_is_said(self):
        figures, commands = read("docs", "FIGURES.md"), read("docs", "COMMANDS.md")
        measured, *others = (re.search(rf"^\| stack in which `{name}`.*\| (\d+) KB \|$", figures, re.M)[1] for name in ("lockers", "journals", "losses"))
        self.assertEqual(re.findall(r"runs in a stack of (\d+) KB", commands), others)
        for text in (commands, read("lockers"), read("docs", "DECISIONS.md")):
            self.assertEqual(re.findall(r"(\d+) KB of stack", text), [measured])
        for name, script in SCRIPTS:
            self.assertTrue(all(runs_in(built("lockers_main"), script, int(measured), {}) for _ in range(ROUNDS)), name)

    def test_the_times_of_the_first_build_are_those_of_the_newest_gate(self):
        crates = ("column", "text", "bank", "list", "table", "script", "lockers_main")
        took = [re.search(rf"\b{crate} (?:took )?(\d+)\b", section(read("docs", "COMMANDS.md"), "What they need"))[1] for crate in crates]
        gate = re.search(r"By crate, proof and build in seconds: (.*?);", read("docs", "CHANGES.md"), re.S)[1]
        self.assertEqual(took, [re.search(rf"\b{crate} (\d+)\b", gate)[1] for crate in crates])
