"""The script program on every script of examples/, and at its limits."""
import re
import socket
import subprocess
import unittest

from helpers.programs import failing, run_script
from model import LIMIT
from repository import built, examples, read

TABLE = b"columns=3\nroot=0\nup=0,0,1\n"


class Scripts(unittest.TestCase):
    def test_every_example_prints_what_is_stored(self):
        self.assertGreaterEqual(len(examples()), 5)
        for path in examples():
            self.assertEqual(run_script(read(path).encode()).decode(), read(path.replace(".script", ".out")), path)

    def test_the_example_of_document_01(self):
        lines = b"order=0102000000000000\nsend=0\ntake=0\nhalt=0\nlist=1\n"
        printed = b"table=ok\nstep=ok\nstep=ok\nstep=ok\nstep=ok\ncolumn=1\nnumber=1\noccupied=2\ndoors=1,10\nrest=no\n"
        self.assertEqual(run_script(TABLE + lines), printed)

    def test_every_refusal_that_a_script_meets_is_met_by_an_example(self):
        met = set()
        for path in examples():
            met |= {int(number) for number in re.findall(r"^refused=(\d+)$", read(path.replace(".script", ".out")), re.M)}
        self.assertEqual(met, {1, 2, 3, 4, 5, 6, 7, 10, 13, 14, 15, 16})

    def test_past_the_limit_the_refusal_alone(self):
        for data in (TABLE.ljust(LIMIT + 1, b"\n"), b"x" * (LIMIT + 1), TABLE + b"send=0\n" * 100_000):
            self.assertEqual(run_script(data), b"refused=13\n")

    def test_an_input_of_the_limit_is_read(self):
        empty = LIMIT - len(TABLE)
        self.assertEqual(run_script(TABLE.ljust(LIMIT, b"\n")), b"table=ok\n" + b"refused=13\n" * empty + b"rest=yes\n")

    def test_output_is_not_bounded_by_a_buffer(self):
        lists = (LIMIT - len(TABLE)) // len(b"list=0\n")
        printed = b"table=ok\n" + b"column=0\nnumber=0\noccupied=0\ndoors=\n" * lists + b"rest=yes\n"
        self.assertGreater(lists, 9000)
        self.assertEqual(run_script(TABLE + b"list=0\n" * lists), printed)

    def test_texts_are_written_once_the_longest_might_not_fit(self):
        near, far = socket.socketpair(socket.AF_UNIX, socket.SOCK_SEQPACKET)
        with near, far:
            subprocess.run([built("lockers_main")], input=TABLE + b"jump=1\n" * 3000, stdout=far, check=True)
            far.close()
            written = list(iter(lambda: near.recv(LIMIT), b""))
        self.assertEqual(written, [b"table=ok\n" + b"refused=13\n" * 1468, b"refused=13\n" * 1469, b"refused=13\n" * 63 + b"rest=yes\n"])
        room = 16384 - 229
        for full in written[:2]:
            self.assertLessEqual(len(full) - len(b"refused=13\n"), room)
            self.assertGreater(len(full), room)

    def test_a_read_that_fails_is_the_end_of_the_script(self):
        data = TABLE + b"send=0\norder=01"
        with failing(data) as script:
            self.assertEqual(script.raw.read(len(data)), data)
            self.assertRaises(OSError, script.raw.read, 1)
        with failing(data) as script:
            printed = subprocess.run([built("lockers_main")], stdin=script, capture_output=True, check=True).stdout
        self.assertEqual(printed, b"table=ok\nrefused=6\nrefused=13\nrest=yes\n")

    def test_unended_and_empty(self):
        self.assertEqual(run_script(b""), b"refused=1\n")
        self.assertEqual(run_script(TABLE[:-1]), b"refused=1\n")
        self.assertEqual(run_script(TABLE), b"table=ok\nrest=yes\n")
        self.assertEqual(run_script(TABLE + b"\n\njump=1\nsend=0"), b"table=ok\n" + b"refused=13\n" * 4 + b"rest=yes\n")

    def test_twenty_thousand_parents_are_of_the_form(self):
        many = b"columns=1\nroot=0\nup=" + b",".join([b"0"] * 20_001) + b"\n"
        self.assertEqual(run_script(many), b"refused=3\n")
        self.assertEqual(run_script(many[:-1] + b"x\n"), b"refused=1\n")
