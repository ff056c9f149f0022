"""The kit: where it is, its clang, which is its archiver and its linker for WebAssembly too, its words for a crate, and what it proves and builds."""
import functools
import os
import subprocess

from repository import ROOT, crates, out


# What of a crate's folder a check reads.
PARTS = ("src", "specs", "proofs")


class Failed(Exception):
    """What went wrong, in words for whoever ran the tool."""


@functools.cache
def folder():
    """The kit's folder, that of its guide."""
    try:
        guide = subprocess.run(["rt", "doc"], capture_output=True, text=True, check=True).stdout.strip()
    except FileNotFoundError:
        raise Failed("rt, the command of the Rattle kit, is not found") from None
    return os.path.dirname(guide)


def own(*parts):
    """A path among what the kit has."""
    return os.path.join(folder(), *parts)


def run(name, *words, **given):
    """Runs the kit's clang under a name, by which it is a compiler, an archiver or a linker."""
    clang = own("toolchain", "bin", "clang")
    done = subprocess.run([clang if name == "clang" else name, *words], executable=clang, capture_output=True, **given)
    if done.returncode:
        raise Failed(f"{name} failed: {done.stderr.decode()[:2000]}")
    return done.stdout


def below(crate):
    """The crates of the repository that a crate rests on; the kit's own have no folder."""
    return [each for each in crates()[crate] if os.path.isdir(os.path.join(ROOT, "crates", each))]


def sources(crate):
    """The files of a crate and of those of the repository that it rests on, and their folders."""
    found = []
    for each in (crate, *below(crate)):
        for part in PARTS:
            for at, _, names in os.walk(os.path.join(ROOT, "crates", each, part)):
                found += [at, *(os.path.join(at, name) for name in names)]
    return found


def changed(crate):
    """When the newest of a crate's sources was changed."""
    return max(map(os.path.getmtime, sources(crate)))


def is_newer(path, crate):
    """Whether a file is there and newer than every source of a crate."""
    return os.path.exists(path) and os.path.getmtime(path) > changed(crate)


def library(crate):
    """The folder in which rt keeps a proved library."""
    return out(crate, "rlib", f"{crate}.rlib")


def crate_words(crate, root):
    """What `rt` says to `rattle build` of a crate."""
    words = ["--crate-name", crate, os.path.join(ROOT, "crates", crate, "src", root), "--extern", f"std={own('rlibs', 'std.rlib')}", "-L", f"dependency={own('rlibs')}"]
    for each in crates()[crate]:
        is_ours = each in below(crate)
        words += ["--extern", f"{each}={library(each) if is_ours else own('rlibs', each) + '.rlib'}"]
        words += ["-L", f"dependency={os.path.dirname(library(each))}"] if is_ours else []
    return [*words, "--antt-project", own("rattle", "logic", "antt-project.json")]


def logic():
    """The words for a check, which takes the kit's logic as the kit has built it."""
    return ["--logic-built", own("logic_built")]


def proved(kind, crate):
    """Has rt prove and build a crate, a `program` or a `lib`, and the libraries below it."""
    done = subprocess.run([os.path.join(ROOT, "tools", "build.sh"), kind, crate, "minutes"], capture_output=True, text=True)
    if done.returncode:
        raise Failed(f"{crate} is not proved: {done.stderr[-500:]}")


def rattle(verb, crate, *words):
    """Checks or builds a crate over the libraries that stand below it, as rt does."""
    done = subprocess.run([own("bin", "rattle"), verb, *words], stdout=subprocess.PIPE, stderr=subprocess.STDOUT, text=True)
    if done.returncode or "\nlogic=proved " not in done.stdout:
        raise Failed(f"{crate} is not proved: {done.stdout[-500:]}")
