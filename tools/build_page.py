#!/usr/bin/env python3
"""Builds docs/bank.html, the page that runs the proved programs in a browser, from the sources of tools/page, the scripts of examples/ and the four
programs as WebAssembly, which tools/targets makes.
"""
import base64
import json
import os
import re
import subprocess
import sys
import tempfile

from machines.table import PROGRAMS, WASM
from repository import ROOT, examples, parser, read

PAGE = os.path.join(ROOT, "docs", "bank.html")
SOURCES = os.path.join(ROOT, "tools", "page")
# The largest page, in bytes.
LARGEST = 310_000
IMPORT = re.compile(r'^import (\{ [^}]* \}) from "\./(\w+)\.mjs";\n', re.M)
EXPORT = re.compile(r"^export (?:async )?(?:function\*?|class|const) (\w+)", re.M)


def in_turn(name, folder, done, above=()):
    """The modules that a module rests on, each before those that rest on it, and itself last."""
    if name in above:
        sys.exit(f"{name}.mjs rests on itself")
    for _, other in IMPORT.findall(read(folder, f"{name}.mjs")):
        if other not in done:
            in_turn(other, folder, done, (*above, name))
    done.append(name)
    return done


def scoped(name, folder):
    """A module as a function that is called once and answers what the module exports, since a page in one file has nothing to import from."""
    text = read(folder, f"{name}.mjs")
    body = IMPORT.sub(lambda found: f"const {found[1]} = {found[2]}_module;\n", text)
    return f"const {name}_module = (() => {{\n{re.sub('^export ', '', body, flags=re.M)}return {{ {', '.join(EXPORT.findall(text))} }};\n}})();\n"


def modules(folder):
    return "".join(scoped(name, folder) for name in in_turn("main", folder, []))


def scripts():
    """The examples by their names."""
    return {os.path.basename(path).removesuffix(".script"): read(path) for path in examples()}


def embedded(value):
    """JSON that ends no element of a page."""
    return json.dumps(value, indent=0).replace("<", "\\u003c")


def page(programs, folder=SOURCES):
    """The page with the programs, each as base64."""
    parts = {"/*STYLE*/": read(folder, "page.css"), "/*EXAMPLES*/": embedded(scripts()), "/*PROGRAMS*/": embedded(programs), "/*MODULES*/": modules(folder)}
    text = read(folder, "page.html")
    for mark, part in parts.items():
        if text.count(mark) != 1:
            sys.exit(f"page.html has {mark} {text.count(mark)} times")
        text = text.replace(mark, part)
    if len(text.encode()) > LARGEST:
        sys.exit(f"the page has {len(text.encode())} bytes, more than {LARGEST}")
    return text


def programs_of(path):
    """The programs of a built page, each as base64."""
    return json.loads(re.search(r'id="programs">(.*?)</script>', read(path), re.S)[1])


def programs_made():
    """The programs as tools/targets makes them of the proved modules, each as base64."""
    found = {}
    with tempfile.TemporaryDirectory() as folder:
        subprocess.run([os.path.join(ROOT, "tools", "targets"), "-o", folder, *PROGRAMS], check=True, stdout=subprocess.DEVNULL)
        for name in PROGRAMS:
            with open(os.path.join(folder, WASM.name, f"{name}.wasm"), "rb") as file:
                found[name] = base64.b64encode(file.read()).decode()
    return found


def main():
    words = parser(__doc__)
    words.add_argument("--programs-of", nargs=2, metavar=("PAGE", "OUT"), help="write OUT with the programs that a built page has")
    asked = words.parse_args().programs_of
    programs, out = (programs_of(os.path.abspath(asked[0])), asked[1]) if asked else (programs_made(), PAGE)
    text = page(programs)
    with open(out, "w", encoding="utf8") as file:
        file.write(text)
    print(f"{os.path.relpath(out)}: {len(text.encode())} bytes")


if __name__ == "__main__":
    main()
