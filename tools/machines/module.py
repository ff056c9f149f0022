"""The module of a proved crate: what `rattle build` hands to its clang, kept, and as text that names no machine."""
import collections
import os
import re
import shutil
import tempfile

from machines import kit
from machines.table import CONTROL, CPU, LIBRARY
from repository import ROOT, alone, out, read

# A module's text without the words that name x86-64, and the words that the kit's clang was called with.
Module = collections.namedtuple("Module", "crate text words")
KEPT = os.path.join(ROOT, "target", "machines", "modules")
FILES = ("words", "module.bc", "made")
CLANG = """#!/bin/sh
printf '%s\\n' "$@" >'{folder}/words'
for word in "$@"; do case $word in *.bc) cp "$word" '{folder}/module.bc' ;; esac; done
exec '{clang}' "$@"
"""
# What may mean another thing on another machine, and what no machine but x86-64 has.
BOUND = re.compile(r"\bptrtoint\b|\binttoptr\b|\basm\b(?!\")|llvm\.x86|x86")
HEAD = re.compile(r'^target (?:datalayout|triple) = ".*"\n', re.M)


def is_library(crate):
    return crate == LIBRARY


def crate_words(crate):
    """What `rt` says to `rattle` of the library or of a program, for every processor of x86-64."""
    return [*kit.crate_words(crate, "lib.rt" if is_library(crate) else "main.rt"), *(["--crate-type", "staticlib"] if is_library(crate) else []), "--cpu", CPU]


def prove(crate):
    """Has rt prove and build a crate and the libraries below it."""
    kit.proved("lib" if is_library(crate) else "program", crate)


def stands(crate):
    """Whether every library below a crate is proved and newer than its sources, as `rt ci` leaves them too."""
    return all(kit.is_newer(kit.library(each), each) for each in kit.below(crate))


def archive():
    """The library's archive that `rt` makes for x86-64, proved and made where a source is newer."""
    path = out(LIBRARY, f"lib{LIBRARY}.a")
    with alone():
        if not kit.is_newer(path, LIBRARY):
            if stands(LIBRARY):
                os.makedirs(os.path.dirname(path), exist_ok=True)
                kit.rattle("build", LIBRARY, *crate_words(LIBRARY), *kit.logic(), "--toolchain", kit.own("toolchain"), "-o", path)
            else:
                prove(LIBRARY)
            os.utime(path)
    return path


def controls(crate):
    """What the kit makes of the crate for x86-64: the library's archive, or the object of a program whose module is kept."""
    return archive() if is_library(crate) else os.path.join(KEPT, crate, "made")


def toolchain(folder):
    """A folder like the kit's toolchain, whose clang keeps its words and the module and then is the kit's."""
    bin_folder = os.path.join(folder, "toolchain", "bin")
    os.makedirs(bin_folder)
    os.symlink(kit.own("toolchain", "lib"), os.path.join(folder, "toolchain", "lib"))
    for name in ("llvm-ar", "ld.lld"):
        os.symlink(kit.own("toolchain", "bin", name), os.path.join(bin_folder, name))
    clang = os.path.join(bin_folder, "clang")
    with open(clang, "w", encoding="utf8") as file:
        file.write(CLANG.format(folder=folder, clang=kit.own("toolchain", "bin", "clang")))
    os.chmod(clang, 0o755)
    return os.path.join(folder, "toolchain")


def keep(crate):
    """Proves the crate once more, over the libraries below it, and keeps the module that is built from it."""
    if not stands(crate):
        prove(crate)
    with tempfile.TemporaryDirectory() as folder:
        checked, made = os.path.join(folder, "checked"), os.path.join(folder, "made")
        kit.rattle("check", crate, *crate_words(crate), *kit.logic(), "-o", checked)
        for tools in (toolchain(folder), kit.own("toolchain")):
            kit.rattle("build", crate, *crate_words(crate), "--crate-checked", checked, "--toolchain", tools, "-o", made)
        os.makedirs(os.path.join(KEPT, crate), exist_ok=True)
        for name in FILES:
            shutil.move(os.path.join(folder, name), os.path.join(KEPT, crate, name))


def is_kept(crate):
    """Whether the module is newer than every source."""
    return all(kit.is_newer(os.path.join(KEPT, crate, name), crate) for name in FILES)


def neutral(text):
    """The text of a module without the layout, the triple and the processor of x86-64."""
    rest, cut = HEAD.subn("", text)
    rest = rest.replace(f' "target-cpu"="{CPU}"', "")
    bound = BOUND.search(rest)
    if cut != 2 or bound:
        raise kit.Failed(f"the module is bound to x86-64: {bound and bound[0]!r}, {cut} lines of its head")
    return rest


def module(crate):
    """The module of a crate."""
    with alone():
        if not is_kept(crate):
            keep(crate)
    text = kit.run("clang", f"--target={CONTROL.triple}", "-Xclang", "-disable-llvm-passes", "-S", "-emit-llvm", "-x", "ir",
                   os.path.join(KEPT, crate, "module.bc"), "-o", "-").decode()
    return Module(crate, neutral(text), read(KEPT, crate, "words").splitlines())
