"""A module compiled for a machine, the control, archives, and WebAssembly."""
import functools
import os
import re

from machines import kit
from machines.module import controls, is_library
from machines.module import module as module_of
from machines.table import CONTROL, MACHINES, STACK, WASM

# Of the words of the kit's clang, those that a machine has its own of, and those that name files.
OWN = ("--target=", "-march=", "-O", "--sysroot=")
FILES = ("-c", "-x", "ir", "module.bc", "-o", "module.o")
POSITION = "-fPI"
EXPORTED = re.compile(r"^define (?!internal|private)(?:\w+ )*?(\w+) @(\w+)\(", re.M)


@functools.cache
def layout(machine):
    """How clang lays out data on a machine."""
    text = kit.run("clang", f"--target={machine.triple}", *machine.flags, "--no-default-config", "-S", "-emit-llvm", "-x", "c", os.devnull, "-o", "-").decode()
    return re.findall(r'^target (?:datalayout|triple) = "(.*)"', text, re.M)


# A value of two fields that a function gives back, loaded whole from its place. The kit writes the pointer 8 bytes behind the byte.
PAIR = re.compile(r"^  (%\w+) = load \{ i8, ptr \}, ptr (%\w+), align 8$", re.MULTILINE)
PARTS = r"""  \1.byte = load i8, ptr \2, align 8
  \1.place = getelementptr i8, ptr \2, i64 8
  \1.pointer = load ptr, ptr \1.place, align 8
  \1.first = insertvalue { i8, ptr } poison, i8 \1.byte, 0
  \1 = insertvalue { i8, ptr } \1.first, ptr \1.pointer, 1"""
# Values whose second field lies at the same place on machines of 32 bits as on x86-64.
SAME = {"i64, i64", "i8, i64", "i8, i8", "ptr, i64"}


def addressed(text, machine):
    """The text of a module as a machine takes it. On one of 32 bits an address of 64 is asked for, which `ptrtoint` makes by widening, and a pointer behind
    a byte is 4 bytes behind it, where the kit wrote it 8 behind."""
    if "p:32:32" not in machine.layout:
        return text
    made = PAIR.sub(PARTS, text.replace(" = ptrtoaddr ", " = ptrtoint "))
    other = set(re.findall(r" = load \{ ([^}]*) \}", made)) - SAME
    if other:
        raise kit.Failed(f"{machine.name}: fields loaded whole whose places differ there: {', '.join(sorted(other))}")
    return made


def words(module, machine):
    """The words of the kit's clang, with the machine's in place of those of x86-64."""
    common = [word for word in module.words if not word.startswith((*OWN, POSITION)) and word not in FILES]
    position = [word for word in module.words if word.startswith(POSITION) and "linux" in machine.triple]
    return [f"--target={machine.triple}", *machine.flags, *common, *position]


def compiled(module, machine, folder):
    """The object of a module for a machine."""
    if layout(machine) != [machine.layout, machine.triple]:
        raise kit.Failed(f"{machine.name}: clang's layout and triple are not those of the table: {layout(machine)}")
    text, made = (os.path.join(folder, module.crate + end) for end in (".ll", ".o"))
    with open(text, "w", encoding="utf8") as file:
        file.write(f'target datalayout = "{machine.layout}"\ntarget triple = "{machine.triple}"\n{addressed(module.text, machine)}')
    kit.run("clang", *words(module, machine), "-c", "-x", "ir", text, "-o", made)
    return made


def archived(object_file, name):
    """The archive of an object, as the kit makes it."""
    made = os.path.join(os.path.dirname(object_file), name)
    kit.run("llvm-ar", "rcs", made, object_file)
    return made


def control(module, folder):
    """Whether the module compiled for x86-64 is, byte for byte, what the kit made of the crate."""
    made = compiled(module, CONTROL, folder)
    if is_library(module.crate):
        made = archived(made, f"lib{module.crate}.a")
    with open(made, "rb") as ours, open(controls(module.crate), "rb") as theirs:
        return ours.read() == theirs.read()


def controlled(crate, folder):
    """The module of a crate, after the control; one that differs says nothing of what is proved, and is refused."""
    module = module_of(crate)
    if not control(module, folder):
        raise kit.Failed(f"{crate}: for x86-64 this is not what the kit makes, so nothing is made")
    return module


def exported(module):
    """The names of the functions that a module exports, by what they answer."""
    return {name: answer for answer, name in EXPORTED.findall(module.text)}


def linked(module, folder, name):
    """A module as WebAssembly: a library's functions, or a program that is lent what it declares of C."""
    made = os.path.join(folder, name)
    kind = ["-z", "stack-size=65536"] if is_library(module.crate) else ["--allow-undefined", "-z", f"stack-size={STACK}"]
    kit.run("wasm-ld", "--no-entry", *(f"--export={each}" for each in sorted(exported(module))), "--export=__heap_base", "--stack-first", "--strip-all", *kind,
            "-o", made, compiled(module, WASM, folder))
    return made


def library(module, name, folder):
    """The C library for the machine of a name: an archive, or for WebAssembly a file of its functions."""
    if name == WASM.name:
        return linked(module, folder, "mudasgup.wasm")
    return archived(compiled(module, MACHINES[name], folder), "libmudasgup.a")
