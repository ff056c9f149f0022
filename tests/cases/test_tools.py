"""How tools, the benchmark and the runners of tests are called: -h and --version answer, and a wrong call ends with a usage line and status 2."""
import contextlib
import glob
import io
import os
import shutil
import subprocess
import tempfile
import unittest
import unittest.mock

import point_times
from helpers.commands import below, line_of, said_of
from repository import ROOT, read, version

FOLDERS = ("tools", "bench", "tests", "tests/mutants", "tests/outside_the_gate", ".ci")


def callable_files():
    """The files of the folders that are run by their names: those whose first line names what runs them."""
    paths = [path for folder in FOLDERS for path in glob.glob(os.path.join(ROOT, folder, "*")) if os.path.isfile(path)]
    return sorted(os.path.relpath(path, ROOT) for path in paths if read(path).startswith("#!"))


def called(path, *words):
    runner = ["python3"] if "python3" in read(path).split("\n")[0] else ["bash"]
    return subprocess.run([*runner, os.path.join(ROOT, path), *words], capture_output=True, text=True, stdin=subprocess.DEVNULL)


class Tools(unittest.TestCase):
    def test_every_tool_has_a_help_and_a_version(self):
        self.assertGreaterEqual(len(callable_files()), 14)
        for path in callable_files():
            for word in ("-h", "--help"):
                done = called(path, word)
                self.assertEqual((done.stderr, done.returncode), ("", 0), path)
                self.assertTrue(done.stdout.startswith(f"usage: {path} ") and done.stdout.count("\n") > 2, done.stdout)
            done = called(path, "--version")
            self.assertEqual((done.stdout, done.stderr, done.returncode), (f"{path} {version()}\n", "", 0), path)

    def test_a_wrong_call_has_a_usage_line_and_status_2(self):
        for path in callable_files():
            done = called(path, "--no-such-word")
            self.assertEqual((done.stdout, done.returncode), ("", 2), path)
            self.assertTrue(done.stderr.startswith(f"usage: {path} "), done.stderr)
            self.assertNotIn("Traceback", done.stderr)

    def test_words_that_are_missing_or_wrong_are_reported(self):
        for path, *words in (("tools/picture.py",), ("tools/script_journals.py", "one"), ("tools/losses_picture.py",), ("tools/losses_picture.py", "p.svg", "bush"),
                             ("tools/losses_picture.py", "p.svg", "bush=missing"), ("tests/mutants/run", "nothing"), ("tests/mutants/run", "column", "nothing"), ("tests/mutants/pick", "2", "1", "nothing"),
                             ("tests/run.py", "test_nothing"), ("tests/outside_the_gate/seeds.py",), ("tests/outside_the_gate/script_seeds.py", "one"), ("tests/outside_the_gate/script_seeds.py", "2-1"), ("tests/outside_the_gate/sanitized_banks.py", "0"), ("tools/build.sh", "lib"), ("tools/build.sh", "check", "column", "minutes"),
                             ("tools/point_times.py", "14")):
            done = called(path, *words)
            self.assertEqual((done.stdout, done.returncode), ("", 2), path)
            self.assertTrue(done.stderr.startswith(f"usage: {path} "), done.stderr)

    def test_a_file_that_cannot_be_read_is_reported_without_a_trace(self):
        with tempfile.TemporaryDirectory() as folder:
            for path, *words in (("tools/picture.py", "missing.script"), ("tools/script_journals.py", "missing.script", folder)):
                done = called(path, *words)
                self.assertEqual((done.stdout, done.returncode), ("", 1), path)
                self.assertRegex(done.stderr, r"\A[^\n]*cannot read missing\.script[^\n]*\n\Z")

    def test_make_says_what_it_proves(self):
        with tempfile.TemporaryDirectory() as folder:
            for path in ("Makefile", "crates.txt", "mudasgup.pc", "tools/build.sh"):
                os.makedirs(os.path.join(folder, os.path.dirname(path)), exist_ok=True)
                shutil.copy(os.path.join(ROOT, path), os.path.join(folder, path))
            for crate in ("firmware_c", *below("firmware_c")):
                os.makedirs(os.path.join(folder, "crates", crate))
            rt = os.path.join(folder, "rt")
            with open(rt, "w", encoding="ascii") as file:
                file.write(f"#!/bin/sh\necho \"$*\" >called\necho '{line_of('column').strip()}'\nmkdir -p out && touch out/libfirmware_c.a\n")
            os.chmod(rt, 0o755)
            done = subprocess.run(["make"], cwd=folder, capture_output=True, text=True, env={**os.environ, "PATH": f"{folder}:{os.environ['PATH']}"})
            self.assertEqual(done.returncode, 0, done.stderr)
            self.assertTrue(os.path.exists(os.path.join(folder, "target", "libmudasgup.a")))
            self.assertEqual(read(os.path.join(folder, "crates", "firmware_c", "called")), "lib --cpu x86-64\n")
        self.assertEqual(done.stderr, said_of("firmware_c", ["column"]).replace("MINUTES", "five to six minutes"))

    def test_make_has_a_help(self):
        done = subprocess.run(["make", "help"], cwd=ROOT, capture_output=True, text=True)
        self.assertEqual(done.returncode, 0)
        self.assertIn("make install PREFIX=DIR", done.stdout)


class Gate(unittest.TestCase):
    """.ci/run with a stand-in for rt and for the tests: what it counts, and what fails it."""
    ok = "rt: ok; handles allowed: none; must-fail edits: 2 refused; every proof and must-fail edit was done in this run\n3 passed, 0 failed\n"

    def ran(self, said, status=0, tests="4 passed, 0 failed\n"):
        """How the gate ends: with its last line, its status and what rt was called with."""
        with tempfile.TemporaryDirectory() as folder:
            for path, text in ((".ci/run", read(".ci/run")), ("rt", f"#!/bin/sh\necho \"$* $RT_JOBS\" >called\ncat <<'END'\n{said}END\nexit {status}\n"), ("tests/run.py", f"print({tests!r}, end='')\n")):
                os.makedirs(os.path.dirname(os.path.join(folder, path)), exist_ok=True)
                with open(os.path.join(folder, path), "w", encoding="ascii") as file:
                    file.write(text)
                os.chmod(os.path.join(folder, path), 0o755)
            done = subprocess.run([os.path.join(folder, ".ci", "run")], capture_output=True, text=True, env={**os.environ, "PATH": f"{folder}:{os.environ['PATH']}"})
            return done.stdout.splitlines()[-1], done.returncode, read(os.path.join(folder, "called"))

    def test_it_is_a_plain_run_of_rt_and_of_the_tests(self):
        self.assertEqual(self.ran(self.ok), ("7 passed, 0 failed", 0, "ci \n"))

    def test_whatever_fails_there_fails_it(self):
        for said, status, tests in ((self.ok.replace("2 refused;", "1 refused, 1 bad;"), 0, "4 passed, 0 failed\n"), (self.ok, 1, "4 passed, 0 failed\n"),
                                    (self.ok.replace("0 failed", "1 failed"), 1, "4 passed, 0 failed\n"), ("Traceback\n", 0, "4 passed, 0 failed\n"),
                                    (self.ok, 0, "3 passed, 1 failed\n"), (self.ok, 0, "Traceback\n")):
            self.assertEqual(self.ran(said, status, tests)[1], 1, (said, status, tests))


class PointTimes(unittest.TestCase):
    def test_every_point_has_the_commit_of_its_landing_and_the_one_before(self):
        self.assertEqual(list(point_times.POINTS), list(range(1, 14)))
        entries = {point: [subprocess.run(["git", "show", f"{commit}:docs/CHANGES.md"], cwd=ROOT, capture_output=True, text=True) for commit in commits]
                   for point, (*commits, _) in point_times.POINTS.items()}
        # A source archive, and a clone without the past, have none of these commits.
        if all(entry.returncode for pair in entries.values() for entry in pair):
            print("NOT RUN: the commits before this one are not here, so that those of the Points were not looked at")
            return
        for point, pair in entries.items():
            self.assertEqual([(entry.returncode, f"\n## Point {point}: " in entry.stdout) for entry in pair], [(0, False), (0, True)], point)

    def test_what_was_measured_is_not_measured_again(self):
        with tempfile.TemporaryDirectory() as folder:
            path, measured = os.path.join(folder, "times.json"), []
            one = {"seconds": 61, "processor": 100, "said": "rt: ok", "load": 0.5}
            with contextlib.redirect_stderr(io.StringIO()) as said, unittest.mock.patch.multiple(point_times, sources=lambda commit: commit[0], proved=lambda commit: measured.append(commit) or one):
                for _ in range(2):
                    self.assertEqual(point_times.measured(["a1", "a2", "b1"], path), {"a1": one, "a2": one, "b1": one})
            self.assertEqual(measured, ["a1", "b1"])
            self.assertEqual(said.getvalue(), "rt prove at a1\nrt prove at b1\n")
        self.assertEqual(point_times.cell(one), "1 min 01 s (1 min 40 s)")
