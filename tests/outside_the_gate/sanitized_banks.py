#!/usr/bin/env python3
"""Banks of real processes with the compiler's sanitizers, and others under valgrind, both with the archive; outside the gate:

    python3 tests/outside_the_gate/sanitized_banks.py
"""
import collections
import os
import subprocess
import sys
import tempfile

sys.path.insert(0, os.path.dirname(os.path.dirname(os.path.abspath(__file__))))
from helpers.firmware import compiled
from cases.test_firmware_uses import BANK, FITTER
from repository import parser, positive

TOLD = ("killed", "back", "without_root", "journals", "missing")


def sums(printed):
    """How often what the banks count happened, in all of them."""
    told = collections.Counter()
    for line in printed.splitlines():
        told.update({name: int(value) for name, _, value in (word.partition("=") for word in line.split()) if name in TOLD})
    return ", ".join(f"{name} {told[name]}" for name in TOLD)


def main():
    words = parser(__doc__)
    words.add_argument("banks", metavar="BANKS", nargs="?", type=positive, default=1000, help="how many banks with the sanitizers, 1000 without it")
    words.add_argument("under", metavar="UNDER_VALGRIND", nargs="?", type=positive, default=50, help="how many banks under valgrind, 50 without it")
    asked = words.parse_args()
    with tempfile.TemporaryDirectory() as folder:
        sanitized = compiled(folder, "sanitized", *BANK, options=("-g", "-O1", "-fsanitize=address,undefined", "-fno-sanitize-recover=all"))
        plain = compiled(folder, "plain", *BANK, options=("-g", "-O2"))
        for command, count in (([sanitized], asked.banks), (["valgrind", "-q", "--error-exitcode=9", plain], asked.under)):
            done = subprocess.run([*command, "1", str(count), FITTER], capture_output=True, text=True)
            agree = done.stdout.count(" agree\n")
            print(f"{agree} banks agree ({sums(done.stdout)}), status {done.returncode}, {len(done.stderr.splitlines())} lines of errors", flush=True)
            if done.returncode or agree != count or done.stderr:
                print(done.stdout[-300:] + done.stderr[-2000:])
                return 1
    return 0


if __name__ == "__main__":
    sys.exit(main())
