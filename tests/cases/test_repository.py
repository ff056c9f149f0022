"""What the repository promises of itself: public contracts, layers, layout, and mutants that still fit the code."""
import glob
import os
import re
import runpy
import subprocess
import sys
import unittest

from helpers.documents import rows
from machines.kit import PARTS, own
from repository import ROOT, read

CRATES = sorted(os.path.basename(path) for path in glob.glob(os.path.join(ROOT, "crates", "*")))


def files():
    """The paths of the repository's files; in a source archive, which has no .git, those of the whole tree but for what .gitignore names."""
    if os.path.exists(os.path.join(ROOT, ".git")):
        return subprocess.run(["git", "ls-files"], cwd=ROOT, capture_output=True, text=True, check=True).stdout.splitlines()
    ignored = {name.strip("/") for name in read(os.path.join(ROOT, ".gitignore")).split()}
    paths = [os.path.relpath(os.path.join(folder, name), ROOT) for folder, _, names in os.walk(ROOT) for name in names]
    return [path for path in paths if not ignored & set(path.split(os.sep))]


def runner(name):
    """What a runner of tests/mutants defines, by its names."""
    folder = os.path.join(ROOT, "tests", "mutants")
    sys.path.insert(0, folder)
    try:
        return runpy.run_path(os.path.join(folder, name))
    finally:
        sys.path.remove(folder)


def mutants():
    """Each edit of tests/mutants by its crate and its label."""
    folder = os.path.join(ROOT, "tests", "mutants")
    return {os.path.relpath(path, folder).removesuffix(".edit") for path in glob.glob(os.path.join(folder, "*", "*.edit"))}


def of_mutants(path):
    """Where an edit of the gate is in tests/mutants, if it is there."""
    return os.path.join(ROOT, "tests", "mutants", os.path.basename(os.path.dirname(os.path.dirname(path))), os.path.basename(path))


def sources(pattern):
    """The paths of files of the crates, without what rt makes of them."""
    return sorted(path for path in glob.glob(os.path.join(ROOT, "crates", pattern), recursive=True) if f"{os.sep}out{os.sep}" not in path)


def public_functions(crate):
    """Each function or method that another crate can call, with the line before it and the text up to its body."""
    top = os.path.join(ROOT, "crates", crate, "src", "lib.rt")
    if not os.path.exists(top):
        return
    modules = re.findall(r"^pub mod (\w+);", read(top), re.M)
    for path in [top] + [os.path.join(os.path.dirname(top), f"{module}.rt") for module in modules]:
        for found in re.finditer(r'^ *(.*)\n(?: *#\[[^\n]*\]\n)*( *)pub (?:extern "C" )?fn (\w+)((?:.|\n)*?)^\2\{', read(path), re.M):
            yield f"{crate}::{found.group(3)}", found.group(1), found.group(4)


class Repository(unittest.TestCase):
    def test_every_public_function_has_a_contract_and_asks_nothing(self):
        functions = [function for crate in CRATES for function in public_functions(crate)]
        self.assertGreater(len(functions), 40)
        for name, before, text in functions:
            self.assertIn("ensures", text, name)
            self.assertNotIn("requires", text, name)
            self.assertRegex(before, "^// ", f"{name}: no line on what it answers")

    def test_every_helper_that_asks_something_is_named_with_its_reason(self):
        table = read(os.path.join(ROOT, "docs", "DECISIONS.md"))
        asking = [found for path in sources("*/src/*.rt") for found in re.findall(r"^( *)pub(?:\(crate\))? fn (\w+)(.*?)^\1\{", read(path), re.M | re.S)]
        names = [name for _, name, text in asking if "requires" in text]
        self.assertGreater(len(names), 20)
        for name in names:
            self.assertRegex(table, rf"(?m)^\| `\w+::\w+` \|.*`{name}`", name)

    def test_upper_crates_cite_no_proofs_of_lower_ones(self):
        """But for their laws, of which those that rest on what an edit makes wrong are among the proofs."""
        for path in sources("*/proofs/**/*.antt") + sources("*/specs/**/*.antt"):
            crate = os.path.relpath(path, os.path.join(ROOT, "crates")).split(os.sep)[0]
            for cited in re.findall(r"^(?:pub )?use (Rattle\.\S+)", read(path), re.M):
                lower = ".proofs" in cited and not cited.startswith((f"Rattle.{crate}.proofs.", "Rattle.std.proofs."))
                self.assertFalse(lower and ".proofs.laws." not in cited, f"{path}: {cited}")

    def test_the_core_names_nothing_above_it(self):
        for path in sources("column/src/*.rt"):
            self.assertIsNone(re.search(r"\bnetwork\b", read(path)), path)

    def test_nothing_but_the_bank_calls_what_the_core_leaves_untested(self):
        """But for a return, which the boundary to C refuses as far as one column can tell."""
        callers = {os.path.relpath(path, os.path.join(ROOT, "crates")) for path in sources("*/src/*.rt")
                   if re.search(r"\b(column::returning|column::effect|unchecked_for_bank|fresh_under)\b", read(path))}
        self.assertEqual({path for path in callers if not path.startswith("column/")}, {"bank/src/bank.rt", "bank/src/dispatch.rt", "bank/src/returning.rt", "bank/src/step.rt",
                                                                                                "firmware/src/lone.rt"})

    def test_nothing_but_the_script_calls_what_the_bank_leaves_untested(self):
        callers = {os.path.relpath(path, os.path.join(ROOT, "crates")) for path in sources("*/src/*.rt") if "unchecked_for_script::" in read(path)}
        self.assertEqual(callers, {"script/src/one_line.rt"})

    def test_no_module_rests_on_one_that_rests_on_it(self):
        for crate in CRATES:
            below = {os.path.basename(path)[:-3]: set(re.findall(r"^use crate::(\w+)", read(path), re.M)) for path in sources(f"{crate}/src/*.rt")}
            while below:
                lowest = {module for module, used in below.items() if not used & set(below)}
                self.assertTrue(lowest, f"{crate}: a circle between {sorted(below)}")
                below = {module: used for module, used in below.items() if module not in lowest}

    def test_functions_and_files_stay_short(self):
        for path in sources("**/*.rt") + sources("**/*.antt"):
            self.assertLessEqual(read(path).count("\n"), 300, path)
        for path in sources("**/*.rt"):
            for body in re.findall(r'^(?:pub(?:\(crate\))? )?(?:extern "C" )?fn \w+.*?^\}', read(path), re.M | re.S):
                self.assertLess(body.count("\n"), 40, f"{path}: {body[:60]}")

    def test_layout(self):
        paths = [path for part in PARTS for path in sources(f"*/{part}/**/*.rt") + sources(f"*/{part}/**/*.antt")]
        done = subprocess.run([own("bin", "rattle"), "fmt", "--check", *paths], capture_output=True, text=True)
        self.assertEqual(done.returncode, 0, done.stdout + done.stderr)

    def test_every_mutant_is_on_the_list_of_refused_ones(self):
        folder, edits = os.path.join(ROOT, "tests", "mutants"), mutants()
        lines = read(os.path.join(folder, "refused.txt")).splitlines()
        totals = [int(line.removesuffix(" refused for a fact, 0 not")) for line in lines if ": " not in line]
        self.assertEqual({line.split(": ")[0] for line in lines if ": " in line}, edits)
        self.assertEqual(sum(totals), len(edits))

    def test_the_table_has_every_mutant_and_no_other_and_names_functions_that_are_there(self):
        cells = rows(read(os.path.join(ROOT, "tests", "mutants", "README.md")).split("\n## ")[0])[2:]
        named = {word for _, tried in cells for word in re.findall(r"`(\w+)`", tried)}
        # A rule, of which some of the edits are.
        self.assertEqual(named - {"Move"}, {edit.split("/")[1] for edit in mutants()})
        functions = re.findall(r"`(\w+)::(\w+)`", "".join(contract for contract, _ in cells))
        self.assertGreater(len(functions), 40)
        for module, function in functions:
            self.assertRegex("".join(map(read, sources(f"*/src/{module}.rt"))), rf"\bfn {function}\b", module)

    def test_the_mutants_are_counted(self):
        told = re.search(r"\| (\d+) refused, each for a fact", read(os.path.join(ROOT, "docs", "TESTS.md")))
        self.assertEqual(int(told.group(1)), len(mutants()))

    def test_every_mutant_fits_its_file_once(self):
        applied = runner("trial.py")["applied"]
        edits = sorted(glob.glob(os.path.join(ROOT, "tests", "mutants", "*", "*.edit"))) + sources("*/must-fail/*.edit")
        self.assertGreater(len(edits), 10)
        for path in edits:
            crate = next(part for part in os.path.relpath(path, ROOT).split(os.sep) if part in CRATES)
            self.assertTrue(applied(crate, read(path)), path)

    def test_an_edit_that_the_gate_tries_too_is_the_same(self):
        both = [path for path in sources("*/must-fail/*.edit") if os.path.exists(of_mutants(path))]
        self.assertGreater(len(both), 30)
        for path in both:
            self.assertEqual(read(of_mutants(path)), read(path), path)

    def test_an_edit_that_does_not_fit_is_an_error(self):
        applied = runner("trial.py")["applied"]
        for wrong in ("old: no such line\nnew: x", "old: use\nnew: x"):
            with self.assertRaises(ValueError):
                applied("column", f"file: src/page.rt\n{wrong}\n")

    def test_every_slip_fits_the_definition_of_the_step_once(self):
        slips = runner("slips")
        steps = read(os.path.join(ROOT, slips["STEPS"]))
        self.assertEqual(len(slips["SLIPS"]), 5)
        for name, old, new in slips["SLIPS"]:
            self.assertEqual(steps.count(old), 1, f"{name}: {old}")
            self.assertNotEqual(old, new, name)

    def test_no_machine_path(self):
        self.assertGreater(len(files()), 100)
        for name in files():
            found = re.search(r"(?<![\w.])/(opt|work|farm|root|home)/", read(os.path.join(ROOT, name)))
            self.assertTrue(found is None or name == "tests/cases/test_repository.py", f"{name}: {found and found.group(0)}")
