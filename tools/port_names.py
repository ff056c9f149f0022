#!/usr/bin/env python3
"""Gives the definitions and lemmas of crates/ the spelling of today's Rattle: words in snake case. It is run once, at the top of a repository, right after the
kit's own script has turned the rest.

A name is renamed where it is declared in specs/ or proofs/ of a crate. Names of the library, of Rattle source, of goals and of modules stay. Two names of one file
that would fall together are told apart: the lemma gets `_lem`, or CHOSEN says what.
"""
import collections
import glob
import re
import sys

from repository import parser

WORD = r"[A-Za-z_][A-Za-z0-9_'₀₁₂₃₄₅₆₇₈₉-]*"
NAME = re.compile(r"(?<![\w'-])" + WORD)
MARKS = r"(?:(?:unfoldable|abbrev|pub|pattern|mutual|record|data)\s+)*"
DECLARED = re.compile(r"^\s*" + MARKS + r"((?:" + WORD + r")(?:\s+" + WORD + r")*)\s+(?:\{[^}]*\}\s*|\([^)]*\)\s*)*:(?=\s|$)", re.M)
GOAL = re.compile(r"^(?:abbrev )?(" + WORD + r") : tie\.", re.M)
USED = re.compile(r"use ((?:[A-Za-z_][\w'+-]*\.)+)\{([^}]*)\}")
OWN = re.compile(r"Rattle\.(?!std\b)")

# Definitions that would have the name of a field, a law or a function's test beside them.
CHOSEN = {"parentBelow": "is_parent_below", "listedBelow": "is_listed_below", "atRest": "is_at_rest"}
# A lemma that the scripts before gave the name of its definition.
LEMMAS = ["held_by", "is_digit", "members_run", "same_line", "same_way", "step_left", "with_all"]


def snake(name):
    return re.sub(r"(?<=[a-z0-9])([A-Z])", lambda m: "_" + m.group(1).lower(), name).replace("-", "_")


def read(path):
    with open(path, encoding="utf-8") as f:
        return f.read()


def files():
    antt = sorted(glob.glob("crates/*/specs/**/*.antt", recursive=True) + glob.glob("crates/*/proofs/**/*.antt", recursive=True))
    return antt, sorted(glob.glob("crates/*/src/**/*.rt", recursive=True))


def without_comments(text, path):
    return re.sub(r"--.*" if path.endswith(".antt") else r"//.*", "", text)


def goals(text):
    """The names that a proof gives its goals: they follow the code, and are no lemmas."""
    return set(GOAL.findall(text))


def declared_in(text, path):
    """The names that a file declares, its goals aside."""
    own = goals(text) if path.endswith("Proof.antt") else set()
    return {name for names in DECLARED.findall(without_comments(text, path)) for name in names.split()} - own


def declared(texts):
    found = collections.defaultdict(set)
    for path, text in texts.items():
        for name in declared_in(text, path) if path.endswith(".antt") else ():
            found[name].add(path)
    return found


def library_names(texts):
    return {name for text in texts.values() for module, names in USED.findall(text) if not OWN.match(module) for name in re.findall(WORD, names)}


def together(texts, old, known):
    """The names that one file has under two spellings, by the spelling that they would share."""
    found = collections.defaultdict(set)
    for path, text in texts.items():
        by = collections.defaultdict(set)
        for name in set(re.findall(r"(?<![\w'.-])" + WORD, without_comments(text, path))):
            if name in old or name in known:
                by[snake(name) if name in old else name].add(name)
        for new, names in by.items():
            if len(names) > 1:
                found[new] |= names
    return found


def renamed(texts):
    known = declared(texts)
    library = library_names(texts)
    old = {n for n in known if n[0].islower() and ("-" in n or re.search(r"[a-z0-9][A-Z]", n)) and n not in library and not n.endswith("-spec")}
    new = {n: CHOSEN.get(n, snake(n)) for n in old}
    for names in together(texts, old, known).values():
        for name in names:
            if "-" in name and name in old:
                new[name] = snake(name) + "_lem"
    for name in LEMMAS:
        if name in known:
            new[name] = name + "_lem"
    return new


def in_text(path, text, new):
    own = goals(text) if path.endswith("Proof.antt") else set()

    def turn(m):
        name = m.group(0)
        before = text[: m.start()]
        if name not in new or name in own or before.endswith("tie."):
            return name
        return new[name]

    if path.endswith(".antt"):
        return NAME.sub(turn, text)
    return in_clauses(text, new)


CLAUSE = re.compile(r"^\s*(?:requires|ensures|ghost)\b.*$", re.M)


def in_clauses(text, new):
    """Source keeps its names: only clauses, the lines that continue them, and ghost items are turned."""
    lines, depth = text.split("\n"), 0
    for at, line in enumerate(lines):
        if depth or CLAUSE.match(line):
            lines[at] = NAME.sub(lambda m: new.get(m.group(0), m.group(0)) if m.group(0) not in LEMMAS else m.group(0), line)
            depth = max(depth + line.count("{") - line.count("}"), 0)
    return "\n".join(lines)


def turn(texts, new):
    """Writes each file whose text is another with the new names."""
    for path, text in texts.items():
        turned = in_text(path, text, new)
        if turned != text:
            with open(path, "w", encoding="utf-8") as file:
                file.write(turned)


def main():
    words = parser(__doc__)
    words.add_argument("-n", action="store_true", help="print the names alone, old and new, and write nothing")
    only_names = words.parse_args().n
    antt, sources = files()
    texts = {path: read(path) for path in antt + sources}
    new = renamed(texts)
    clash = {n for n in new.values() if n in library_names(texts)}
    if clash:
        print("names of the library: " + " ".join(sorted(clash)), file=sys.stderr)
    if only_names:
        print(*(f"{name} {new[name]}" for name in sorted(new)), sep="\n")
        return
    turn(texts, new)
    print(f"{len(new)} names")


if __name__ == "__main__":
    main()
