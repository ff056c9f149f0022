"""The page docs/bank.html: it is what its tool builds of its sources and of the proved programs, and what it draws fits what the programs print."""
import base64
import glob
import json
import os
import random
import re
import shutil
import subprocess
import tempfile
import unittest

import build_page
import script_journals
from generators import script_makers
from helpers.programs import printed, run_script
from repository import ROOT, examples, read

SOURCES = build_page.SOURCES
NODE = shutil.which("node")
RUNNER = os.path.join(ROOT, "tests", "helpers", "page_runs.mjs")
SEED, RANDOM_SCRIPTS = 39, 500
# At how many frames of a script the program is asked, and at how many where each counts.
LOOKS, EVERY = 30, 1000
# Two kinds of the dispatcher's sequence, and the same swapped.
KINDS = '[["send", sendRefused, send], ["ack", ackRefused, ack],'
SWAPPED = '[["ack", ackRefused, ack], ["send", sendRefused, send],'
# What a page that opens from disk and asks for nothing has none of.
OUTSIDE = re.compile(r"https?://(?!www\.w3\.org/2000/svg)|\bfetch\(|XMLHttpRequest|\bimport\(|<link\b|<img\b|<script src|@import|url\((?!#)")


def modules():
    return sorted(glob.glob(os.path.join(SOURCES, "*.mjs")))


def scripts_of_examples():
    return [read(path).encode() for path in examples()]


def random_scripts():
    """Scripts of all makers, drawn from those of one seed."""
    rng = random.Random(SEED)
    return rng.sample(list(script_makers.scripts(rng)), RANDOM_SCRIPTS)


def ran(scripts, sources=SOURCES, requests=(), looks=LOOKS):
    """What the sources of the page make of scripts, with the programs of the committed page."""
    given = {"sources": sources, "programs": build_page.programs_of(build_page.PAGE), "scripts": [base64.b64encode(data).decode() for data in scripts], "requests": requests, "looks": looks}
    done = subprocess.run([NODE, RUNNER], input=json.dumps(given), capture_output=True, text=True)
    if done.returncode:
        raise AssertionError(done.stderr)
    return json.loads(done.stdout)


def copied(folder, name, old, new):
    """A copy of the page's sources with another text in one of them."""
    wrong, text = shutil.copytree(SOURCES, os.path.join(folder, "page")), read(SOURCES, name)
    if text.count(old) != 1:
        raise AssertionError(f"{old} is not once in {name}")
    with open(os.path.join(wrong, name), "w", encoding="utf8") as file:
        file.write(text.replace(old, new))
    return wrong


def swapped(folder):
    """A copy of the page's sources whose dispatcher looks at ack before send."""
    return copied(folder, "dispatcher.mjs", KINDS, SWAPPED)


class Built(unittest.TestCase):
    def test_the_committed_page_is_what_the_tool_builds(self):
        self.assertEqual(build_page.page(build_page.programs_made()), read(build_page.PAGE))

    def test_it_is_small_and_asks_for_nothing_outside(self):
        text = read(build_page.PAGE)
        self.assertLessEqual(len(text.encode()), build_page.LARGEST)
        for path in modules() + [os.path.join(SOURCES, name) for name in ("page.html", "page.css")]:
            self.assertIsNone(OUTSIDE.search(read(path)), path)

    def test_it_has_every_example(self):
        found = json.loads(re.search(r'id="examples">(.*?)</script>', read(build_page.PAGE), re.S)[1])
        self.assertEqual(found, {os.path.basename(path).removesuffix(".script"): read(path) for path in examples()})

    def test_sources_stay_short(self):
        self.assertGreater(len(modules()), 10)
        for path in modules():
            self.assertLess(read(path).count("\n"), 300, path)
            for body in re.findall(r"^(?:export )?(?:async )?function.*?^\}", read(path), re.M | re.S):
                self.assertLess(body.count("\n"), 40, f"{path}: {body[:60]}")

    def test_sources_that_make_no_page_are_refused(self):
        for name, old, new, said in (("steps.mjs", "import { changed,", 'import { main } from "./main.mjs";\nimport { changed,', "main.mjs rests on itself"),
                                     ("page.html", "/*STYLE*/", "", "page.html has /*STYLE*/ 0 times"),
                                     ("page.html", "</html>", "</html>" + " " * build_page.LARGEST, f"more than {build_page.LARGEST}")):
            with tempfile.TemporaryDirectory() as folder, self.assertRaisesRegex(SystemExit, re.escape(said)):
                build_page.page({}, copied(folder, name, old, new))

    def test_its_tool_says_its_words(self):
        tool = os.path.join(ROOT, "tools", "build_page.py")
        self.assertIn("docs/bank.html", subprocess.run([tool, "--help"], capture_output=True, text=True, check=True).stdout)
        self.assertNotEqual(subprocess.run([tool, "elsewhere"], capture_output=True).returncode, 0)


class InNode(unittest.TestCase):
    """What the page draws beside what the programs print."""

    def fits(self, scripts):
        found = ran(scripts)["scripts"]
        for data, run in zip(scripts, found, strict=True):
            self.assertEqual(run["printed"].encode(), run_script(data))
            self.assertEqual((run["unfit"], run["unanswered"], run["again"]), (None, 0, 0), data[:2000])
        return found

    def test_every_example_fits(self):
        for path, run in zip(examples(), self.fits(scripts_of_examples()), strict=True):
            self.assertEqual(run["printed"], read(path.replace(".script", ".out")))
            self.assertEqual(run["frames"] == 0, run["refused"] is not None, path)

    def test_random_scripts_fit(self):
        scripts = random_scripts()
        self.assertEqual(len(scripts), RANDOM_SCRIPTS)
        self.assertGreater(sum(run["frames"] for run in self.fits(scripts)), 10_000)

    def test_a_dispatcher_with_two_kinds_swapped_is_noticed(self):
        scripts = [data for data in random_scripts() if b"\nrun=" in data]
        with tempfile.TemporaryDirectory() as folder:
            wrong = swapped(folder)
            told = [run["sentences"] for run in ran(scripts, wrong, looks=1)["scripts"]]
            other = [data for data, run, sentences in zip(scripts, ran(scripts, looks=1)["scripts"], told, strict=True) if run["sentences"] != sentences]
            runs = ran(other, wrong, looks=EVERY)["scripts"]
        self.assertGreater(len(runs), 10)
        self.assertTrue(any(run["unfit"] for run in runs))
        for data, run in zip(other, runs, strict=True):
            self.assertTrue(run["unfit"] or run["unanswered"], data)

    def test_its_journals_are_those_of_the_tool(self):
        scripts = [data for data in scripts_of_examples() if script_journals.run(data)]
        self.assertGreater(len(scripts), 10)
        for data, run in zip(scripts, ran(scripts)["scripts"], strict=True):
            bank = script_journals.run(data)
            self.assertEqual([text.encode() for text in run["journals"]], [bank.journal(i) for i in range(len(bank.columns))])

    def test_its_fastest_trees_are_the_programs(self):
        requests = [(columns, delay, gap) for columns in (1, 2, 5, 16) for delay in (1, 2, 7, 255) for gap in (1, 3, 255)]
        for (columns, delay, gap), tree in zip(requests, ran([], requests=requests)["trees"], strict=True):
            table = printed("fastest_main", f"columns={columns}\ndelay={delay}\ngap={gap}\n".encode()).decode()
            self.assertEqual(table, f"columns={columns}\nroot=0\nup={','.join(map(str, tree['up']))}\n")


class WithoutNode(unittest.TestCase):
    def test_that_node_is_missing_is_told(self):
        print("NOT RUN: node is not found, so that what the page draws was not compared with what the programs print: apt-get install nodejs")
        self.assertIsNone(NODE)


def load_tests(loader, tests, pattern):
    """Those in node where it is there."""
    return unittest.TestSuite(map(loader.loadTestsFromTestCase, (Built, InNode if NODE else WithoutNode)))
