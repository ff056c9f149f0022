"""The archive of `crates/firmware_c` for C, what it exports, and the sources of `crates/firmware`, which it calls."""
import glob
import os
import re

from machines.table import LIBRARY
from repository import ROOT, read

PREFIX = "mudasgup_raw_"
# What a column's main loop calls.
ALONE = [PREFIX + name for name in ("tree_check", "column_fresh", "order", "take", "next", "note", "halt")]
TYPES = {"usize": "uint64_t", "u8": "uint8_t", "u32": "uint32_t"}


def sources(crate="firmware"):
    """The texts of a crate."""
    return [read(path) for path in sorted(glob.glob(os.path.join(ROOT, "crates", crate, "src", "*.rt")))]


def exported():
    """The C declaration of each function that the crate exports, by its name."""
    found = {}
    for text in sources(LIBRARY):
        for name, parameters, result in re.findall(r'pub extern "C" fn (\w+)\(([^)]*)\) -> (\w+)', text):
            words = []
            for parameter, kind in re.findall(r"(\w+): ([^,]+)", parameters):
                kind = kind.strip()
                words.append(TYPES[kind] + " " + parameter if kind in TYPES
                             else ("const " if kind == "&[u8]" else "") + f"uint8_t *{parameter}, uint64_t {parameter}_size")
            found[name] = f"{TYPES[result]} {name}({', '.join(words)});"
    return found
