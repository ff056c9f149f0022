"""The part of a replay that is made from the exports and the recording: which function a number calls, and the sizes of room and guards, in C and for WebAssembly."""
import re

from archive import exported
from helpers.firmware import GUARD, PREFIX
from replay.recording import ROOM, names

# In bytes the room and a guard; what each byte of a guard is; how many of the calls that differ are named.
NUMBERS = {"ROOM": ROOM, "GUARD": len(GUARD), "GUARD_BYTE": GUARD[0], "SHOWN": 5}

HEAD = """/* Made by tests/replay/dispatch.py. */
#include <mudasgup.h>

struct argument {
  uint8_t kind; /* 'n', a number; 'r' or 'w', as many bytes that are lent, to be read or to be written */
  uint64_t number;
  uint8_t *bytes;
};
struct call {
  uint8_t function, count;
  struct argument arguments[8];
};

"""


def parameters(name):
    """The parameters of an export as C has them, without the sizes beside pointers."""
    words = re.search(r"\((.*)\);", exported()[PREFIX + name])[1].split(", ")
    return [word for word in words if not word.endswith("_size")]


def passed(name):
    """The arguments in a call of an export."""
    words = []
    for place, word in enumerate(parameters(name)):
        argument = f"call->arguments[{place}]"
        words += [f"{argument}.bytes", f"{argument}.number"] if "*" in word else [f"({word.split()[0]}){argument}.number"]
    return ", ".join(words)


def header():
    """calls.h: the numbers, what a call of each function answers, and its name."""
    numbers = ", ".join(f"{name} = {value}" for name, value in NUMBERS.items())
    cases = "".join(f"  case {place}:\n    return {PREFIX}{name}({passed(name)});\n" for place, name in enumerate(names()))
    texts = "".join(f'"{name}", ' for name in names())
    return (f"{HEAD}enum {{ {numbers} }};\n\nstatic uint64_t made(const struct call *call) {{\n  switch (call->function) {{\n{cases}  }}\n  return 0;\n}}\n\n"
            f"static const char *called(const struct call *call) {{\n  static const char *const names[] = {{{texts}}};\n  return names[call->function];\n}}\n")


def table():
    """calls.json, for WebAssembly: the numbers, each export, and which of its parameters are 64 bits wide there; the others are 32."""
    functions = [{"name": PREFIX + name, "wide": ["uint64_t" in word for word in parameters(name)]} for name in names()]
    return {**NUMBERS, "functions": functions}
