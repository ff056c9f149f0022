"""tools/targets: the archives of the C library for every machine, with the control, and the programs as WebAssembly, which print what the native ones print."""
import contextlib
import io
import os
import runpy
import shutil
import subprocess
import tempfile
import unittest
from unittest import mock

from helpers.programs import printed
from machines import build, kit
from machines.module import module, neutral
from machines.table import CONTROL, LIBRARY, MACHINES, PROGRAMS, WASM
from replay.libraries import changed
from repository import ROOT, examples, out

TOOL = os.path.join(ROOT, "tools", "targets")
BENCH = os.path.join(ROOT, "bench", "machines")
RUN = os.path.join(ROOT, "tools", "machines", "run.mjs")
ELF, ARCHIVE, WASM_BEGINS = b"\x7fELF", b"!<arch>\n", b"\0asm"
# What an object of ELF says of its machine, at its 18th byte.
KINDS = {"x86_64": 62, "aarch64": 183, "riscv64": 243, "armv7": 40, "thumbv6m": 40, "thumbv7m": 40, "thumbv7em": 40, "riscv32": 243}


def data(*parts):
    with open(os.path.join(*parts), "rb") as file:
        return file.read()


def given(crate, name):
    return os.path.join(ROOT, "crates", crate, name)


class Targets(unittest.TestCase):
    @classmethod
    def setUpClass(cls):
        cls.folder = tempfile.TemporaryDirectory()
        cls.addClassCleanup(cls.folder.cleanup)
        cls.done = subprocess.run([TOOL, "-o", cls.folder.name], capture_output=True, text=True)

    def test_every_machine_has_its_archive_after_the_control(self):
        self.assertEqual((self.done.returncode, self.done.stderr), (0, ""))
        for crate in (LIBRARY, *PROGRAMS.values()):
            self.assertIn(f"{crate}: for x86-64 as the kit makes it, byte for byte\n", self.done.stdout)
        self.assertEqual(set(KINDS) | {WASM.name}, set(MACHINES))
        for name, kind in KINDS.items():
            made = data(self.folder.name, name, "libmudasgup.a")
            self.assertTrue(made.startswith(ARCHIVE), name)
            self.assertEqual(made[made.index(ELF) + 18], kind, name)
        self.assertEqual(data(self.folder.name, CONTROL.name, "libmudasgup.a"), data(out(LIBRARY, f"lib{LIBRARY}.a")))

    def test_every_program_for_webassembly_prints_what_the_native_one_prints(self):
        programs = os.path.join(self.folder.name, WASM.name)
        for name in (*PROGRAMS, "mudasgup"):
            self.assertTrue(data(programs, f"{name}.wasm").startswith(WASM_BEGINS), name)
        if shutil.which("node") is None:
            print("NOT RUN: node is not found, so that no program of WebAssembly was run: apt-get install nodejs")
            return
        inputs = {"lockers": examples(), "fastest": [given("fastest_main", "stdin")], "losses": [given("losses_main", "stdin")]}
        for name, paths in inputs.items():
            self.assertGreater(len(paths), 0, name)
            for path in paths:
                with open(path, "rb") as source:
                    done = subprocess.run(["node", RUN, os.path.join(programs, f"{name}.wasm")], stdin=source, capture_output=True)
                self.assertEqual((done.returncode, done.stdout), (0, printed(PROGRAMS[name], data(path))), path)
        words = data(given("journals_main", "args")).decode().split()
        done = subprocess.run(["node", RUN, os.path.join(programs, "journals.wasm"), *words], cwd=given("journals_main", "data"), capture_output=True)
        self.assertEqual((done.returncode, done.stdout), (0, data(given("journals_main", "stdout"))))

    def test_a_module_that_differs_fails_the_control(self):
        each = module(LIBRARY)
        with tempfile.TemporaryDirectory() as folder:
            self.assertTrue(build.control(each, folder))
            wrong = changed(each)
            self.assertFalse(build.control(wrong, folder))

    def test_nothing_is_made_or_measured_where_the_control_fails(self):
        make, measured = (runpy.run_path(path)[name] for path, name in ((TOOL, "make"), (BENCH, "measured")))
        with tempfile.TemporaryDirectory() as folder, mock.patch.multiple(build, module_of=mock.DEFAULT, control=lambda *given: False):
            for refused in (lambda: make([CONTROL.name], folder), lambda: measured([CONTROL.name])):
                with contextlib.redirect_stdout(io.StringIO()) as said, self.assertRaisesRegex(kit.Failed, f"^{LIBRARY}: for x86-64 this is not what the kit makes"):
                    refused()
                self.assertEqual(said.getvalue(), "")
            self.assertEqual(os.listdir(folder), [])

    def test_a_module_that_is_bound_to_its_machine_is_refused(self):
        head = 'target datalayout = "e"\ntarget triple = "x86_64-unknown-linux-gnu"\n'
        self.assertEqual(neutral(head + 'attributes #0 = { nounwind "target-cpu"="x86-64" }\n'), "attributes #0 = { nounwind }\n")
        for wrong in (head + "%a = ptrtoint ptr %b to i64\n", head + "call void asm sideeffect\n", head + "@llvm.x86.rdtsc\n", "target triple = \"x\"\n", ""):
            with self.assertRaises(kit.Failed):
                neutral(wrong)

    def test_every_export_answers_64_bits(self):
        """A narrower answer has no agreed upper bits on every machine."""
        found = build.exported(module(LIBRARY))
        self.assertGreater(len(found), 20)
        self.assertEqual(set(found.values()), {"i64"})

    def test_a_wrong_call_is_reported(self):
        for words in (["nonsense"], ["--nonsense"], ["-o"]):
            done = subprocess.run([TOOL, *words], capture_output=True, text=True)
            self.assertEqual((done.returncode, done.stdout), (2, ""))
            self.assertTrue(done.stderr.startswith("usage: tools/targets "), done.stderr)
        helped = subprocess.run([TOOL, "--help"], capture_output=True, text=True)
        self.assertEqual(helped.returncode, 0)
        for name in (*MACHINES, *PROGRAMS):
            self.assertIn(f"\n  {name} ", helped.stdout)
