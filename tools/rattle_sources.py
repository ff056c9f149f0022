"""The Rattle of crates/ read as functions, types, constants and loops, of a commit or of the work tree; for tools/design_places.py."""
import glob
import os
import re
import subprocess

from repository import ROOT, read

FUNCTION = re.compile(r'^(\s*)(?:pub(?:\(\w+\))? )?(?:const )?(?:unsafe )?(?:extern "C" )?fn (\w+)')
TYPE = re.compile(r"^(\s*)(?:pub(?:\(\w+\))? )?(enum|struct) (\w+)")
CONSTANT = re.compile(r"^\s*(?:pub(?:\(\w+\))? )?const (\w+): ([^=]+?) = (.*)$")
CLAUSE = re.compile(r"^(requires|ensures)(?: \w+)? \{ (.*) \}$")
TOKEN = re.compile(r"""b?"(?:[^"\\]|\\.)*"|b'(?:[^'\\]|\\.)'|\w+|[^\s\w]""")
USED = re.compile(r"^use (\w+)(?:::\w+)*::(\w+|\{[^}]*\});", re.M)
BRACKETS = "()[]{}"


def git(*words):
    return subprocess.run(["git", *words], cwd=ROOT, capture_output=True, text=True, check=True).stdout


def of_tree(part):
    """The texts of the work tree's files of one part of every crate, by their paths."""
    paths = sorted(path for path in glob.glob(os.path.join(ROOT, "crates", "*", part, "**", "*"), recursive=True) if path.endswith((".rt", ".antt")))
    return {os.path.relpath(path, ROOT): read(path) for path in paths}


def of_commit(commit, part):
    """The same of a commit."""
    paths = [path for path in git("ls-tree", "-r", "--name-only", commit, "crates").splitlines() if path.split("/")[2] == part and path.endswith((".rt", ".antt"))]
    asked = "".join(f"{commit}:{path}\n" for path in paths)
    said = subprocess.run(["git", "cat-file", "--batch"], cwd=ROOT, input=asked.encode(), capture_output=True, check=True).stdout
    texts = {}
    for path in paths:
        head, _, said = said.partition(b"\n")
        size = int(head.split()[-1])
        texts[path], said = said[:size].decode("utf8"), said[size + 1:]
    return texts


def texts_of(commit, part):
    """The files of one part of every crate, `src` or `proofs`, of a commit or, for None, of the work tree."""
    return of_tree(part) if commit is None else of_commit(commit, part)


def bare(line):
    """A line without its comment."""
    return re.sub(r"(^|\s)//.*", "", line)


def split(text, sign=",", brackets=BRACKETS):
    """The parts of a text at a sign that is outside of brackets."""
    parts, depth, start = [], 0, 0
    for at, mark in enumerate(text):
        arrow = mark == ">" and text[at - 1:at] in ("-", "=")
        depth += 0 if arrow or mark not in brackets else 1 - 2 * (brackets.index(mark) % 2)
        if depth == 0 and mark == sign:
            parts.append(text[start:at])
            start = at + 1
    return [part for part in (one.strip() for one in [*parts, text[start:]]) if part]


def conjuncts(fact):
    """The facts that a clause joins by `×`, at whatever depth."""
    fact = fact.strip()
    while fact.startswith("(") and closes(fact) == len(fact) - 1:
        fact = fact[1:-1].strip()
    parts = split(fact, "×") if fact[:1] not in "λ" and "→" not in top_level(fact) else [fact]
    return [fact] if len(parts) == 1 else [one for part in parts for one in conjuncts(part)]


def closes(text):
    """Where the bracket closes that a text begins with."""
    depth = 0
    for at, mark in enumerate(text):
        depth += (mark == "(") - (mark == ")")
        if depth == 0:
            return at
    return -1


def past_name(signature, name):
    """Where the parameters of a signature begin, past its name and what is generic in it."""
    at = re.search(rf"fn {name}", signature).end()
    depth = 0
    while depth or signature[at] != "(":
        depth += 0 if signature[at - 1:at + 1] == "->" else {"<": 1, ">": -1}.get(signature[at], 0)
        at += 1
    return at


def top_level(text):
    """A text without what is in brackets."""
    while re.search(r"\([^()]*\)", text):
        text = re.sub(r"\([^()]*\)", "", text)
    return text


class Item:
    """What is declared at a line of a file."""

    def __init__(self, path, line, name):
        self.path, self.line, self.name = path, line, name
        self.crate = path.split("/")[1]


class Function(Item):
    """A function: its parameters by name and type, what it gives, its clauses, and the lines of its body."""

    def __init__(self, path, line, name, lines):
        super().__init__(path, line, name)
        self.lines = [bare(one) for one in lines]
        head = [one.strip() for one in self.lines]
        end = next((at for at, one in enumerate(head) if one == "{" or one.endswith(" {")), len(head) - 1)
        self.clauses = [(found[1], found[2]) for found in map(CLAUSE.match, head[1:end]) if found]
        signature = " ".join(one for one in head[:end + 1] if not CLAUSE.match(one)).rstrip("{ ")
        brackets = signature[past_name(signature, name):]
        close = closes(brackets)
        self.parameters = [tuple(part.removeprefix("mut ").split(": ", 1)) for part in split(brackets[1:close], ",", f"{BRACKETS}<>") if ": " in part]
        self.gives = brackets[close + 1:].partition("->")[2].strip()
        self.start = end + 1
        self.body = self.lines[end + 1:-1] if len(self.lines) > 1 else []

    def text(self):
        return " ".join(" ".join(self.body).split())

    def types(self):
        return [given for _, given in self.parameters]


class Type(Item):
    """An enum or a struct: its variants or fields by name, each with what it holds."""

    def __init__(self, path, line, name, kind, lines):
        super().__init__(path, line, name)
        self.kind = kind
        text = " ".join(re.sub(r"#\[[^\]]*\]", "", bare(one)).strip() for one in lines)
        inner = text[text.index("{") + 1:text.rindex("}")] if "{" in text else ""
        self.parts = [self.part(one) for one in split(inner)]

    def part(self, text):
        text = re.sub(r"^pub(\(\w+\))? ", "", re.sub(r"^(ghost .*?; )*", "", text))
        if self.kind == "struct":
            return tuple(one.strip() for one in text.partition(":")[::2])
        found = re.match(r"(\w+)\s*(.*?)(?: = \w+)?$", text)
        return (found[1], found[2].strip("(){} ")) if found else (text, "")


class Loop(Item):
    """A `while` loop: its condition and its body."""

    def __init__(self, path, line, name, condition, body):
        super().__init__(path, line, name)
        self.condition, self.body = condition, body


def block(lines, at, edge):
    """The line past the block that is begun at a line with so many spaces before it; a declaration may have none."""
    opened = False
    for end in range(at, len(lines)):
        line = bare(lines[end]).rstrip()
        if end == at and line.endswith("}") or not opened and line.endswith(";"):
            return end + 1
        if opened and line.startswith(edge + "}"):
            return end + 1
        opened = opened or line.endswith("{")
    return len(lines)


def loops(function):
    """The `while` loops of a function."""
    for at, line in enumerate(function.lines):
        found = re.match(r"(\s*)while (.*) \{$", line.rstrip())
        if found:
            end = block(function.lines, at, found[1])
            yield Loop(function.path, function.line + at, function.name, found[2], [one.strip() for one in function.lines[at + 1:end - 1]])


class Code:
    """The functions, types, constants and loops of the files of src/."""

    def __init__(self, texts):
        self.functions, self.types, self.constants, self.loops, self.uses = [], [], [], [], {}
        for path, text in texts.items():
            self.take(path, text.splitlines())
        self.loops = [loop for function in self.functions for loop in loops(function)]

    def crate_of(self, path, name):
        """Of which crate the type is that a file calls by a name."""
        return self.uses[path].get(name, path.split("/")[1])

    def take(self, path, lines):
        pairs = [(crate, name.strip()) for crate, names in USED.findall("\n".join(lines)) for name in names.strip("{}").split(",")]
        self.uses[path] = {name: path.split("/")[1] if crate == "crate" else crate for crate, name in pairs}
        for at, line in enumerate(lines):
            function, kind, constant = FUNCTION.match(line), TYPE.match(line), CONSTANT.match(bare(line))
            if function:
                self.functions.append(Function(path, at + 1, function[2], lines[at:block(lines, at, function[1])]))
            elif kind and not kind[1]:
                self.types.append(Type(path, at + 1, kind[3], kind[2], lines[at:block(lines, at, kind[1])]))
            elif constant and not line.startswith(" "):
                found = Item(path, at + 1, constant[1])
                found.type, found.value = constant[2], constant[3]
                self.constants.append(found)
