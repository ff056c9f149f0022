"""The header beside the sources that it declares, its words, and its functions in C99 and C++; packages of the library."""
import os
import re
import shutil
import subprocess
import tarfile
import tempfile
import unittest

from archive import PREFIX, exported, sources
from cases.test_firmware import REFUSALS
from helpers import firmware
from machines.module import archive
from machines.table import LIBRARY
from repository import INCLUDE, ROOT, read, version

WIDTH = 100
# Calls to which a maker lends no block of another size or layout.
UNBLOCKED = ("tree_read", "packet_read", "packet_message", "packet_acknowledgement", "packet_convert")
RENAMED = {"message": "packet_message", "acknowledgement": "packet_acknowledgement"}
# What a maker reads first: in the header before anything is declared, in docs/FIRMWARE.md before anything is shown.
OWED = ("every packet once and whole, in any order", "only when it has stopped and will not go on", "whatever memory survived",
        "at rest; the root never", "one caller at a time", "not kept over a loss of power")
BLOCKS = """#include <mudasgup.h>
typedef char tree[sizeof(mudasgup_tree) == 35 ? 1 : -1];
typedef char column[sizeof(mudasgup_column) == 25 ? 1 : -1];
typedef char packet[sizeof(mudasgup_packet) == 16 ? 1 : -1];
"""
# Compilers, and of other machines those that are here.
LANGUAGES = (["gcc", "-std=c99", "-xc"], ["g++", "-std=c++98", "-xc++", "-Wno-long-long"], ["g++", "-std=c++17", "-xc++"])
MACHINES = (["gcc", "-m32"], ["clang", "-target", "arm-none-eabi"], ["clang", "-target", "msp430"])


def joined(text):
    """Without ends of lines, and what a comment begins its lines with."""
    return re.sub(r"\s+(\* )?", " ", text)


def left_out(command):
    """Whether a command is not here, which is then said."""
    if shutil.which(command[0]):
        return False
    print(f"left out, since there is no {command[0]}: {' '.join(command)}")
    return True


def declared(constant, source):
    """The value of a constant of a source, which may be a sum of others of it."""
    terms = re.search(rf"const {constant}: \w+ = ([\w +]+);", source)[1].split(" + ")
    return sum(int(term, 0) if term[0].isdigit() else declared(term, source) for term in terms)


class Header(unittest.TestCase):
    header = read("include", "mudasgup.h")
    public, raw = header.split("/* ---- What follows is not to be called")

    def typed(self):
        """Each typed function with the comment before it."""
        return dict(reversed(found) for found in re.findall(r"/\*((?:(?!\*/).)*)\*/\nstatic inline mudasgup_status mudasgup_(\w+)\(", self.public, re.S))

    def test_every_export_is_declared_with_its_parameters_and_no_other(self):
        declared = re.findall(r"^uint64_t mudasgup_raw_\w+\([^;]*\);", self.raw, re.M)
        self.assertEqual(sorted(re.sub(r"\(\s+", "(", joined(one)) for one in declared), sorted(exported().values()))
        self.assertEqual({name.removeprefix(PREFIX) for name in exported()}, set(REFUSALS))

    def test_no_export_answers_less_than_64_bits(self):
        exports = re.findall(r"^(\w+)\s+mudasgup_raw_\w+\([^;]*\);", self.header, re.M)
        self.assertEqual(set(exports), {"uint64_t"})
        results = [result for text in sources(LIBRARY) for result in re.findall(r'extern "C" fn \w+\([^)]*\)(?: -> (\w+))?', text)]
        self.assertEqual((set(results), len(results)), ({"usize"}, len(exports)))
        self.assertNotIn("size_t", re.sub(r"uint64_t", "", "".join(re.findall(r"^uint64_t mudasgup_raw_\w+\([^;]*\);", self.raw, re.M))))

    def test_the_archive_defines_them_and_needs_two_functions_of_c_at_most(self):
        symbols = [line.split() for line in subprocess.run(["nm", archive()], capture_output=True, text=True, check=True).stdout.splitlines()]
        self.assertEqual({words[-1] for words in symbols if "T" in words}, set(exported()))
        needed, told = {words[-1] for words in symbols if "U" in words}, {"memcpy", "memset"}
        # Of what the header tells, the archive for x86-64 does without one today; nothing else is needed.
        self.assertEqual((needed - told, told - needed), (set(), {"memset"}))

    def test_each_typed_function_tells_its_refusals(self):
        typed = self.typed()
        self.assertEqual(set(typed), {RENAMED.get(name, name) for name in REFUSALS})
        for name, numbers in REFUSALS.items():
            name = RENAMED.get(name, name)
            told = {int(number) for number in re.findall(r"\b\d+\b", typed[name].split("Refused")[1])}
            self.assertEqual(told, numbers - {24} if name in UNBLOCKED else numbers, name)
        statuses = {int(value): name for name, value in re.findall(r"^  MUDASGUP_(OK|E_\w+) = (\d+)", self.header, re.M)}
        self.assertEqual(set(statuses), {0}.union(*REFUSALS.values()))

    def test_its_numbers_are_those_of_the_sources(self):
        boundary = "".join(sources())
        journal, listing, page = (read("crates", crate, "src", name + ".rt") for crate, name in (("firmware", "journal"), ("list", "list"), ("column", "page")))
        packet = read("crates", "column", "src", "packet.rt") + read("crates", "column", "src", "codec.rt")
        for macro, constant, source in (
                ("TREE_SIZE", "TREE_SIZE", boundary), ("COLUMN_SIZE", "COLUMN_SIZE", boundary), ("PACKET_SIZE", "MESSAGE_SIZE", packet),
                ("DOORS_SIZE", "DOORS_SIZE", boundary), ("LAYOUT_TREE", "TREE_LAYOUT", boundary), ("LAYOUT_COLUMN", "COLUMN_LAYOUT", boundary),
                ("WATCH_SENDER", "WATCH", boundary), ("RAW_LEFT", "LEFT", boundary), ("RAW_REFUSED", "REFUSED", boundary), ("JOURNAL_SIZE", "LONGEST", journal),
                ("LIST_SIZE", "LONGEST", listing), ("FRAME_PACKETS", "CAPACITY", packet), ("PAGE_MASK", "MASK_OFFSET", page), ("PAGE_CLEAR", "CLEAR_OFFSET", page)):
            told = re.search(rf"\bMUDASGUP_{macro} (?:= )?(0x\w+|\d+)", self.header).group(1)
            self.assertEqual(declared(constant, source), int(told, 0), macro)
        fields = {name: int(place) for name, place in re.findall(r"^(?:pub )?const (\w+): usize = (\d+);", read("crates", "firmware", "src", "block.rt"), re.M)}
        for block, names in (("TREE", ("COLUMNS", "ROOT", "UP", "FIRST")), ("COLUMN", ("OWN", "DOORS", "NUMBER", "SEND", "AWAITED", "OWED", "NOTED", "STATUS", "MASK", "PENDING"))):
            for name in names:
                told = re.search(rf"MUDASGUP_{block}_{name} = (\d+)", self.header).group(1)
                self.assertEqual(fields[name], int(told), f"{block}_{name}")

    def test_what_is_owed_is_said_first(self):
        first = self.header.split("#ifndef")[0]
        self.assertLess(first.count("\n", 0, first.index("WHAT YOU OWE IT")), 4)
        section = re.search(r"^## What the maker owes\n(.*?)^```", read("docs", "FIRMWARE.md"), re.M | re.S).group(1)
        for words in OWED:
            for text in (joined(first), joined(section)):
                self.assertIn(words.replace(";", ""), text.replace(";", ""))

    def test_nothing_invites_to_keep_a_block(self):
        for path in (("include", "mudasgup.h"), ("README.md",), ("docs", "FIRMWARE.md"), ("docs", "DECISIONS.md"), ("docs", "PROOFS.md"), ("docs", "SPECIFICATION.md")):
            self.assertNotIn("battery", read(*path), path)

    def test_its_lines_and_its_version(self):
        self.assertEqual([line for line in self.header.splitlines() if len(line) > WIDTH], [])
        self.assertEqual(version(), ".".join(re.search(rf"MUDASGUP_VERSION_{part} (\d+)", self.header).group(1) for part in ("MAJOR", "MINOR")))

    def test_c_and_cpp_take_it_without_a_warning_on_machines_of_every_width(self):
        for command in LANGUAGES:
            if not left_out(command):
                self.takes([*command, "-pedantic", "-Wconversion"])
        for command in MACHINES:
            if not left_out(command):
                self.takes([*command, "-std=c99", "-ffreestanding", "-xc"])

    def takes(self, command):
        subprocess.run([*command, "-Wall", "-Wextra", "-Werror", "-fsyntax-only", "-I", INCLUDE, "-"], input=BLOCKS, text=True, check=True)


class Typed(unittest.TestCase):
    def test_every_typed_function_is_called_in_c_and_cpp(self):
        source = read("tests", "uses", "typed.c")
        for name in Header().typed():
            self.assertGreaterEqual(len(re.findall(rf"\bmudasgup_{name}\(", source + read("tests", "uses", "uses.h"))), 2, name)
        with tempfile.TemporaryDirectory() as folder:
            for compiler in LANGUAGES:
                if left_out(compiler):
                    continue
                program = firmware.compiled(folder, "typed", firmware.use("typed.c"), compiler=(*compiler, "-pedantic", "-Wno-unused-function"))
                self.assertEqual(subprocess.run([program], capture_output=True, text=True).stdout, "as told\n", compiler)


class Packages(unittest.TestCase):
    def make(self, *words):
        done = subprocess.run(["make", *words], cwd=ROOT, capture_output=True, text=True)
        self.assertEqual(done.returncode, 0, done.stdout + done.stderr)

    def orders(self, folder, prefix):
        """The examples, built in a folder outside of the tree against a prefix, print what docs/FIRMWARE.md shows."""
        self.make("-C", folder, f"PREFIX={prefix}", "CFLAGS=-O2 -Wall -Wextra -Werror")
        printed = subprocess.run([os.path.join(folder, "order")], capture_output=True, text=True, check=True).stdout
        self.assertIn(f"```\n{printed}```\n", read("docs", "FIRMWARE.md"))
        done = subprocess.run([os.path.join(folder, "bank"), "1", "2"], capture_output=True, text=True)
        self.assertEqual((done.returncode, done.stdout.count(" agree\n")), (0, 2), done.stdout)

    def test_an_example_outside_the_tree_is_made_against_what_was_installed(self):
        if left_out(["make"]) or left_out(["pkg-config"]):
            return
        archive()
        with tempfile.TemporaryDirectory() as folder:
            prefix, copy = os.path.join(folder, "prefix"), os.path.join(folder, "examples")
            self.make("install", f"PREFIX={prefix}")
            shutil.copytree(firmware.EXAMPLES, copy)
            self.orders(copy, prefix)

    def test_the_archive_for_makers_has_all_that_they_need(self):
        if left_out(["make"]) or left_out(["pkg-config"]):
            return
        archive()
        self.make("dist")
        with tempfile.TemporaryDirectory() as folder:
            with tarfile.open(os.path.join(ROOT, "target", f"mudasgup-{version()}.tar.gz")) as packed:
                packed.extractall(folder)
            prefix = os.path.join(folder, f"mudasgup-{version()}")
            self.orders(os.path.join(prefix, "examples"), prefix)
