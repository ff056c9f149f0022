#!/usr/bin/env python3
"""Runs the tests of tests/cases on what is built, each file in a process and as many at a time as there are processors; the last line is
'N passed, M failed':

    python3 tests/run.py            # all, and last which refusals they met
    python3 tests/run.py NAME...    # those of the files of these names, as test_pages
"""
import concurrent.futures
import contextlib
import glob
import io
import os
import sys
import time
import unittest

from helpers import TESTS, refusals
from repository import parser

# These take longest, so that they begin first.
LONGEST = ["test_targets", "test_random", "test_firmware", "test_plain", "test_journals"]


def names():
    """The files of tests, the longest first."""
    found = sorted(os.path.splitext(os.path.basename(path))[0] for path in glob.glob(os.path.join(TESTS, "cases", "test_*.py")))
    return [name for name in LONGEST if name in found] + [name for name in found if name not in LONGEST]


def outcome(load, what):
    """What the tests that are loaded printed, how many there were, and how many of them did not pass."""
    printed = io.StringIO()
    with contextlib.redirect_stdout(printed):
        result = unittest.TextTestRunner(stream=printed, verbosity=2).run(load(what))
    failed = len(result.failures) + len(result.errors) + len(result.skipped) + len(result.unexpectedSuccesses)
    return printed.getvalue(), result.testsRun, max(failed, result.testsRun == 0)


def of_file(name):
    """The outcome of a file, the refusals that its tests met, and the seconds that it took."""
    refusals.MET.clear()
    start = time.monotonic()
    return *outcome(unittest.defaultTestLoader.loadTestsFromName, f"cases.{name}"), refusals.MET, time.monotonic() - start


def main(asked):
    ran = failed = 0
    with concurrent.futures.ProcessPoolExecutor(os.cpu_count()) as pool:
        runs = [(name, pool.submit(of_file, name)) for name in asked or names()]
        for name, run in runs:
            printed, count, wrong, met, seconds = run.result()
            print(f"{printed}{name}: {seconds:.0f} s", flush=True)
            refusals.MET.update(met)
            ran, failed = ran + count, failed + wrong
    if not asked:
        printed, count, wrong = outcome(unittest.defaultTestLoader.loadTestsFromTestCase, refusals.Met)
        print(printed)
        ran, failed = ran + count, failed + wrong
    print(f"{ran - min(failed, ran)} passed, {failed} failed")
    return 1 if failed else 0


if __name__ == "__main__":
    words = parser(__doc__)
    words.add_argument("names", metavar="NAME", nargs="*", help="a file of tests/cases without its ending")
    asked = words.parse_args().names
    unknown = [name for name in asked if name not in names()]
    if unknown:
        words.error(f"tests/cases has no {unknown[0]}.py")
    sys.exit(main(asked))
