"""The archive of `crates/firmware_c` as a shared object, programs of the examples, and calls with memory lent between guards."""
import ctypes
import os
import subprocess

from archive import PREFIX
from machines.module import archive
from repository import INCLUDE, ROOT

EXAMPLES = os.path.join(ROOT, "examples", "firmware")
# What is on both sides of lent memory and must be as it was.
GUARD = bytes([0xA5]) * 16


def shared_object(folder):
    path = os.path.join(folder, "firmware.so")
    subprocess.run(["gcc", "-shared", "-o", path, "-Wl,--whole-archive", archive(), "-Wl,--no-whole-archive"], check=True)
    return ctypes.CDLL(path)


def compiled(folder, name, *sources, compiler=("gcc", "-std=gnu99"), options=("-O2",)):
    """A program of the examples, or of sources by their paths, without a warning."""
    program = os.path.join(folder, name)
    subprocess.run([*compiler, "-Wall", "-Wextra", "-Wconversion", "-Werror", *options, "-I", INCLUDE, "-o", program,
                    *(os.path.join(EXAMPLES, source) for source in sources), "-xnone", archive()], check=True)
    return program


def use(name):
    """The path of a program of tests/uses."""
    return os.path.join(ROOT, "tests", "uses", name)


class Library:
    """Calls by name. Bytes are lent to be read, a bytearray to be read or written; answers come with every bytearray after the call."""

    def __init__(self, folder, made=shared_object):
        self.functions = made(folder)

    def call(self, name, *arguments):
        words, lent = [], []
        for argument in arguments:
            if isinstance(argument, int):
                words.append(ctypes.c_uint64(argument))
                continue
            memory = ctypes.create_string_buffer(GUARD + bytes(argument) + GUARD, len(argument) + 2 * len(GUARD))
            words += [ctypes.c_void_p(ctypes.addressof(memory) + len(GUARD)), ctypes.c_uint64(len(argument))]
            lent.append((argument, memory))
        function = getattr(self.functions, PREFIX + name)
        function.restype = ctypes.c_uint64
        answer = function(*words)
        left = []
        for argument, memory in lent:
            before, after = GUARD + bytes(argument) + GUARD, memory.raw
            if after[:len(GUARD)] != GUARD or after[-len(GUARD):] != GUARD or (isinstance(argument, bytes) and after != before):
                raise AssertionError(f"{name} wrote outside of what it was lent to write")
            if isinstance(argument, bytearray):
                left.append(after[len(GUARD):-len(GUARD)])
        return (answer, *left)
