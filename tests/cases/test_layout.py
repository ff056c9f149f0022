"""Where things are: what the Python of each folder rests on, how long and how deep the code beside the crates is, and which crates are programs, by their names."""
import ast
import builtins
import glob
import os
import re
import symtable
import sys
import unittest

from repository import ROOT, crates, read

KINDS = ("_main", "_test", "_timing", "_example")
FOLDERS = {"tools": ("tools",), "bench": ("bench", "tools")}
CODE = ("tests", "tools", "bench", "examples")
BRANCHES = (ast.If, ast.For, ast.While, ast.With, ast.Try)
# What every module has beside its own names.
GIVEN = {*dir(builtins), "__file__"}


def python(*folders):
    """The paths of the folders' Python files, those that are run by their names too."""
    paths = [path for folder in folders for path in glob.glob(os.path.join(ROOT, folder, "**", "*"), recursive=True)]
    return sorted(path for path in paths if path.endswith(".py") or "." not in os.path.basename(path) and os.path.isfile(path) and "python3" in read(path).split("\n")[0])


def imported(path):
    """The modules that a file imports, by their first names."""
    for node in ast.walk(ast.parse(read(path))):
        if isinstance(node, ast.Import):
            yield from (name.name.split(".")[0] for name in node.names)
        elif isinstance(node, ast.ImportFrom):
            yield node.module.split(".")[0]


def deepest(node, depth=0):
    """How many branches are within one another at most; an `elif` is as deep as its `if`."""
    found = depth
    for child in ast.iter_child_nodes(node):
        is_elif = isinstance(node, ast.If) and isinstance(child, ast.If) and node.orelse == [child]
        found = max(found, deepest(child, depth + (isinstance(child, BRANCHES) and not is_elif)))
    return found


def undefined(path):
    """The names that a file uses and neither it nor Python has."""
    top = symtable.symtable(read(path), path, "exec")
    tables = [top]
    for table in tables:
        tables += table.get_children()
    known = {symbol.get_name() for symbol in top.get_symbols() if symbol.is_assigned() or symbol.is_imported()}
    return {symbol.get_name() for table in tables for symbol in table.get_symbols() if symbol.is_referenced() and (symbol.is_global() or table is top)} - known - GIVEN


def modules(folder):
    return {os.path.basename(path).removesuffix(".py") for path in glob.glob(os.path.join(ROOT, folder, "*"))}


class Layout(unittest.TestCase):
    def test_tools_rest_on_tools_and_the_benchmark_on_both_but_on_no_test(self):
        for folder, below in FOLDERS.items():
            known = set(sys.stdlib_module_names).union(*map(modules, below))
            files = python(folder)
            self.assertGreater(len(files), 5)
            for path in files:
                self.assertEqual(set(imported(path)) - known, set(), path)

    def test_python_stays_short(self):
        for path in python("tests", "tools", "bench"):
            self.assertLessEqual(read(path).count("\n"), 300, path)
            for node in ast.walk(ast.parse(read(path))):
                if isinstance(node, ast.FunctionDef):
                    self.assertLess(node.end_lineno - node.lineno, 40, f"{path}: {node.name}")
                    self.assertLessEqual(deepest(node), 3, f"{path}: {node.name}")

    def test_every_name_of_python_is_defined(self):
        for path in python("tests", "tools", "bench"):
            self.assertEqual(undefined(path), set(), path)

    def test_c_and_javascript_stay_short(self):
        paths = [path for folder in CODE for path in glob.glob(os.path.join(ROOT, folder, "**", "*.*"), recursive=True) if path.endswith((".c", ".h", ".js", ".mjs"))]
        self.assertGreater(len(paths), 40)
        for path in paths:
            self.assertLessEqual(read(path).count("\n"), 300, path)
            for body in re.findall(r"^(?!class )\w[^\n]*\{\n.*?^\}", read(path), re.M | re.S):
                self.assertLess(body.count("\n"), 40, f"{path}: {body[:60]}")

    def test_every_command_has_its_program_and_every_main_its_command(self):
        commands = {name for name in os.listdir(ROOT) if os.path.isfile(os.path.join(ROOT, name)) and '. "$folder/command.sh"' in read(name)}
        self.assertEqual({f"{name}_main" for name in commands}, {crate for crate in crates() if crate.endswith("_main")})
        for name in commands:
            self.assertIn(f"\nname={name}\n", read(name))

    def test_programs_are_known_by_their_names(self):
        programs = {crate for crate in crates() if os.path.exists(os.path.join(ROOT, "crates", crate, "src", "main.rt"))}
        self.assertGreater(len(programs), 10)
        self.assertEqual({crate for crate in programs if not crate.endswith(KINDS)}, set())
        self.assertEqual({crate for crate in crates() if crate.endswith(KINDS)} - programs, {"laps_timing"})
