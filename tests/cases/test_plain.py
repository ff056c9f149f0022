"""The plain C of bench/ answers as the proved programs: laps of the steps, of a lone column and of a bank, of the reader of frames and of every call through
the boundary fold into the same number, whole programs print the same for what bench/run hands them and for every example, and random calls of the
boundary answer and leave what the model does."""
import ctypes
import os
import subprocess
import unittest

import boundary
from archive import exported
from cases import test_firmware
from journals import JOURNALS
from measure import plain, run
from processes import REQUEST, banks, pulled
from repository import INCLUDE, built, examples, read
from scripts import SCRIPTS

LONE = [f"{letter} 1000\n" for letter in "osmealnhrf"]
BANK = [f"{letter} {columns} {packets} 200\n" for letter, sizes in (("N", ("03", "16")), ("T", ("03", "16")), ("H", ("16",)), ("S", ("16",)))
        for columns in sizes for packets in ("002", "100", "400", "512")]
DISPATCHED = [f"{letter} {columns} {laps}\n" for letter in "DFG" for columns in ("02", "03", "08", "16") for laps in (1, 10)]
REQUESTS = [REQUEST, "columns=1\ndelay=255\ngap=255\n", "columns=9\ndelay=1\ngap=3\n", "columns=0\ndelay=1\ngap=1\n", "columns=2\ndelay=0\ngap=1\n", "columns=2\n"]


class Plain(unittest.TestCase):
    def agree(self, proved, name, inputs, *words):
        printed = {given: run(built(proved), given, *words)[0] for given in inputs}
        self.assertEqual(printed, {given: run(plain(name), given, *words)[0] for given in inputs})
        return printed

    def laps_agree(self, name, lines):
        self.assertGreater(len(set(self.agree(f"{name}_timing", f"{name}_laps", lines).values())), len(lines) // 2)

    def test_every_step_of_a_column_agrees(self):
        self.laps_agree("column", LONE)

    def test_steps_of_a_bank_agree(self):
        self.laps_agree("bank", BANK)

    def test_dispatched_banks_agree(self):
        self.laps_agree("dispatch", DISPATCHED)

    def test_every_call_through_the_boundary_agrees(self):
        called = [letter for letter, _ in [*boundary.CALLS, boundary.FRAME]]
        self.assertEqual(len(called), len(exported()))
        printed = [[run(each(), "", letter, "10")[0] for letter in called] for each in (boundary.program, boundary.plain_program)]
        self.assertEqual(*printed)

    def test_programs_agree(self):
        self.agree("lockers_main", "lockers", [*map(read, examples()), *(script for _, script in SCRIPTS)])
        self.agree("losses_main", "losses", [given for _, given in banks()])
        self.agree("fastest_main", "fastest", REQUESTS)
        for _, *texts in JOURNALS:
            self.agree("journals_main", "journals", [""], *pulled(texts))


def plain_calls(folder):
    """The calls in plain C as a shared object; its `send` is its own and not the system's."""
    path = os.path.join(folder, "plain.so")
    subprocess.run(["gcc", "-O3", "-shared", "-fPIC", "-Wl,-Bsymbolic", "-I", INCLUDE, "-o", path, *boundary.sources(*boundary.PLAIN)], check=True)
    return ctypes.CDLL(path)


class PlainCalls(test_firmware.Calls):
    made, program = staticmethod(plain_calls), None
