"""The C library as makers use it: the examples, banks of real processes, and wrong uses, which are refused, do not compile, or do what the header warns of."""
import collections
import os
import re
import subprocess
import tempfile
import unittest

from helpers import firmware
from repository import INCLUDE, ROOT, built, read

BANKS = 50
FITTER = built("journals_main")
# The sources of a bank of processes.
BANK = re.search(r"^BANK = (.*)$", read("examples", "firmware", "Makefile"), re.M)[1].split()
LISTED = "column={} number={} occupied={} doors={} \n"
# What each program of tests/uses prints. The first list of `resume` and of `traps`, `lostput` and `torn` show what the header says that a maker owes.
PRINTED = {
    "resume": [LISTED.format(i, *record) for i, record in enumerate([(1, 2, "1,10"), (1, 2, "1,10"), (0, 0, "")])]
              + [LISTED.format(i, 1, 2, "1,10") for i in range(3)],
    "traps": [LISTED.format(i, *record) for i, record in enumerate([(1, 1, "1"), (0, 0, ""), (1, 1, "1")])] + [LISTED.format(i, 2, 1, "2") for i in range(3)],
    "lostput": ["the root awaits for good\n"],
    "torn": ["refused 0, whole 9, mixed 17\n"],
    "left": ["size 0, left 0\n", "size 7, left 1\n", "size 0, left 0\n"],
    "misc": ["joined 512, counted 512, 3584 bytes\n", "all refused\n"],
}
BEGUN = """#include <mudasgup.h>
#include <unistd.h>
int main(void) {
  mudasgup_tree tree;
  mudasgup_column column;
  mudasgup_packet arrived, put;
  uint8_t doors[MUDASGUP_DOORS_SIZE] = {1}, bytes[64] = {0};
  int left = 0;
  size_t n = 0;
"""
ENDED = "  return (int)n + left + tree.bytes[0] + column.bytes[0] + arrived.size + put.size + doors[0] + bytes[0];\n}\n"
# Wrong uses that a compiler refuses, each beside what is meant.
REFUSED = [
    ("what take answers as a size", "  write(1, put, mudasgup_take(&tree, &column, &arrived, &put, &left));", "  mudasgup_take(&tree, &column, &arrived, &put, &left), write(1, put.bytes, put.size);"),
    ("a size beside a block", "  n = mudasgup_send(bytes, 35, 0, bytes, 25, bytes, 15);", "  n = (size_t)mudasgup_send(&tree, &column, &put);"),
    ("blocks that are changed about", "  mudasgup_halt(&column, &tree);", "  mudasgup_halt(&tree, &column);"),
    ("a column by its number", "  mudasgup_order(&tree, 0, &column, doors);", "  mudasgup_order(&tree, &column, doors);"),
    ("bytes in place of a block", "  mudasgup_halt(&tree, bytes);", "  mudasgup_halt(&tree, &column);"),
    ("put of a step that puts nothing", "  mudasgup_note(&tree, &column, 1, &put);", "  mudasgup_note(&tree, &column, 1);"),
    ("that a packet is left passed over", "  mudasgup_take(&tree, &column, &arrived, &put);", "  mudasgup_take(&tree, &column, &arrived, &put, &left);"),
    ("a name of the header before", "  mudasgup_fresh(&tree, 0, &column);", "  mudasgup_column_fresh(&tree, 0, &column);"),
]


class Uses(unittest.TestCase):
    @classmethod
    def setUpClass(cls):
        cls.folder = tempfile.TemporaryDirectory()
        cls.addClassCleanup(cls.folder.cleanup)

    def test_every_wrong_use_is_refused_or_does_what_the_header_warns_of(self):
        for name, lines in PRINTED.items():
            program = firmware.compiled(self.folder.name, name, firmware.use(name + ".c"), compiler=("gcc", "-std=c99", "-pedantic", "-Wno-unused-function"))
            done = subprocess.run([program], capture_output=True, text=True)
            self.assertEqual((done.returncode, done.stdout), (0, "".join(lines)), name)

    def compiles(self, line):
        return subprocess.run(["gcc", "-std=gnu99", "-Wall", "-Wno-unused-result", "-Wno-maybe-uninitialized", "-Wno-uninitialized", "-Werror", "-fsyntax-only", "-I", INCLUDE, "-xc", "-"],
                              input=BEGUN + line + "\n" + ENDED, text=True, capture_output=True).returncode == 0

    def test_other_wrong_uses_do_not_compile(self):
        for name, wrong, right in REFUSED:
            self.assertTrue(self.compiles(right), name)
            self.assertFalse(self.compiles(wrong), name)

    def test_the_document_has_the_examples_and_what_they_print(self):
        document = read("docs", "FIRMWARE.md")
        source, loop = (read("examples", "firmware", name) for name in ("order.c", "column_loop.c"))
        self.assertTrue(f"```c\n{source}```\n" in document, "another example")
        self.assertLessEqual(source.count("\n"), 25)
        self.assertLessEqual(loop.count("\n"), 60)
        heart = loop[loop.index("  while (board_wait())"):loop.rindex("}\n")]
        self.assertTrue(f"```c\n{heart}```\n" in document, "another loop")
        for compiler in (("gcc", "-std=c99", "-pedantic"), ("g++", "-std=c++11", "-xc++")):
            program = firmware.compiled(self.folder.name, "order", "order.c", compiler=compiler)
            printed = subprocess.run([program], capture_output=True, text=True, check=True).stdout
            self.assertTrue(f"```\n{printed}```\n" in document, printed)

    def test_banks_of_real_processes_agree_and_their_columns_come_back(self):
        program = firmware.compiled(self.folder.name, "bank", *BANK)
        done = subprocess.run([program, "1", str(BANKS), FITTER], capture_output=True, text=True)
        self.assertEqual((done.returncode, done.stderr), (0, ""), done.stdout[-300:])
        lines = [dict(word.split("=") for word in line.removesuffix(" agree").split()) for line in done.stdout.splitlines()]
        self.assertEqual(len(lines), BANKS)
        sums, returns = collections.Counter(), collections.Counter()
        for line in lines:
            sums.update({name: int(line[name]) for name in ("killed", "back", "orders", "packets", "journals", "missing", "running")})
            returns.update({(line["watch"], "running"): int(line["back"]) - int(line["without_root"]), (line["watch"], "halted"): int(line["without_root"])})
        self.assertEqual({name: count for name, count in sums.items() if count <= BANKS // 2}, {})
        self.assertEqual(set(returns), {(watch, root) for watch in ("root", "sender") for root in ("running", "halted")})
        self.assertEqual({which: count for which, count in returns.items() if count <= BANKS // 10}, {})
