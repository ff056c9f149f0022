"""C programs on the machines: how each is compiled and run with Debian's compilers and qemu, and what is to be installed for it."""
import collections
import os
import shutil
import subprocess

from machines.table import MACHINES, WASM
from repository import INCLUDE, ROOT, read

BARE = os.path.join(ROOT, "examples", "firmware", "bare")
STREAMS = os.path.join(ROOT, "tools", "machines")
SECONDS = 1800
# By its machine: compiler and its words, what runs a program, and Debian's packages with both.
Emulated = collections.namedtuple("Emulated", "name compiler runner packages")


def words(name, which):
    """What the Makefile of boards without a system says of one."""
    done = subprocess.run(["make", "-s", "-C", BARE, f"TARGET={name}", which], capture_output=True, text=True, check=True)
    return tuple(done.stdout.split())


def board(name, packages):
    return Emulated(name, words(name, "compiler"), words(name, "emulator"), packages)


def linux(name, compiler, runner, packages):
    return Emulated(name, (compiler, "-static"), (runner,) if runner else (), packages)


ARM = "gcc-arm-none-eabi libnewlib-arm-none-eabi qemu-system-arm"
EMULATED = {each.name: each for each in (
    linux("x86_64", "gcc", None, "gcc libc6-dev"),
    linux("aarch64", "aarch64-linux-gnu-gcc", "qemu-aarch64", "gcc-aarch64-linux-gnu libc6-dev-arm64-cross qemu-user"),
    linux("riscv64", "riscv64-linux-gnu-gcc", "qemu-riscv64", "gcc-riscv64-linux-gnu libc6-dev-riscv64-cross qemu-user"),
    linux("armv7", "arm-linux-gnueabihf-gcc", "qemu-arm", "gcc-arm-linux-gnueabihf libc6-dev-armhf-cross qemu-user"),
    *(board(name, ARM) for name in ("thumbv6m", "thumbv7m", "thumbv7em")),
    board("riscv32", "gcc-riscv64-unknown-elf picolibc-riscv64-unknown-elf qemu-system-misc"),
    Emulated(WASM.name, (), ("node",), "nodejs"),
)}


def missing(name):
    """The commands that are not installed for a machine."""
    each = EMULATED[name]
    return [word for word in (*each.compiler[:1], *each.runner[:1]) if shutil.which(word) is None]


def is_linux(name):
    return "linux" in MACHINES[name].triple


def compiled(name, archive, program, *sources, options=("-O1",)):
    """A program of C sources and an archive for a machine, compiled without a warning; a stream is its input, where a source asks for one."""
    each = EMULATED[name]
    stream = [os.path.join(STREAMS, "stream_linux.c" if is_linux(name) else "stream_semihosting.c")] if any("stream.h" in read(path) for path in sources) else []
    done = subprocess.run([*each.compiler, "-std=gnu99", "-Wall", "-Wextra", "-Werror", *options, "-I", INCLUDE, "-I", STREAMS, "-I", os.path.dirname(program),
                           "-o", program, *stream, *sources, archive], capture_output=True, text=True)
    if done.returncode:
        raise RuntimeError(f"{name}: {done.stderr[:2000]}")
    return program


def ran(name, program, *words, given=os.devnull, more=()):
    """A run of a program; `given` is its input, which a board finds as the file `input`. What is `more` is said to the emulator."""
    each, folder = EMULATED[name], os.path.dirname(program)
    if not is_linux(name) and given not in (os.devnull, os.path.join(folder, "input")):
        shutil.copy(given, os.path.join(folder, "input"))
    with open(given if is_linux(name) else os.devnull, "rb") as source:
        return subprocess.run([*each.runner[:1], *more, *each.runner[1:], program, *words], stdin=source, capture_output=True, text=True, cwd=folder, timeout=SECONDS)
