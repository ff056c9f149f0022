"""How the documents are read: their blocks, tables and sections, and the names that they cite with the files that they name for them."""
import os
import re
import unittest

from repository import ROOT, read

SHORT = re.compile(r"^(column|fastest|bank|losses|figure|agreement|text|list|table|script|fastest_text|losses_text|journals|firmware|firmware_c|streams|edges_test|handed_test)/((?:proofs|inner|laws|examples)/(?:[a-z]+/)*)?([A-Za-z_]+)(\.rt)?$")
WHOLE = re.compile(r"^(crates/.+|tests/.+|tools/.+|docs/.+|examples/.+|include/.+|crates\.txt|README\.md|CONTRIBUTING\.md)$")
BLOCK = re.compile(r"```c?\n(.*?)```", re.S)
QUOTED = re.compile(r'"(?:[^"]|"(?:send|await|exactly)")*"')


def spans(text):
    """What is between single backquotes."""
    return re.findall(r"`([^`]+)`", BLOCK.sub("", text))


def file_of(word):
    """The path that a cited word means, if it is a file's."""
    short = SHORT.match(word)
    if short:
        crate, folder, name, source = short.groups()
        place = "src" if source else (folder or "") if (folder or "").startswith("proofs/") else f"specs/{folder or ''}"
        return os.path.join("crates", crate, place, name + (".rt" if source else ".antt"))
    return word if WHOLE.match(word) else None


def rows(text):
    """The cells of each row of a table."""
    return [[cell.strip() for cell in re.split(r"(?<=\s)\|(?=\s)", line.strip("|"))] for line in text.splitlines() if line.startswith("|")]


def cells(table):
    """The parts of a table's cells, each with the file that its column's heading names."""
    heading, _, *body = rows(table)
    heads = [next((word for word in spans(cell) if file_of(word)), "") for cell in heading]
    for row in body:
        for head, cell in zip(heads, row):
            for part in re.split(r';(?=(?:[^"]*"[^"]*")*[^"]*$)', cell):
                yield part + (f" `{head}`" if head else "")


def cited(part):
    """Each name of a part with the file that is named after it, and each file with no name."""
    names = []
    for word in spans(QUOTED.sub("", part)):
        path = file_of(word)
        if path:
            yield from ((name, path) for name in [*names, None])
        names = [] if path else [*names, word]


def citations(text):
    """Each name with the file that is named after it, paragraph by paragraph and in tables cell by cell."""
    text = re.sub(r"## How to read a contract.*?\n## ", "## ", text, flags=re.S)
    for paragraph in re.split(r"\n\s*\n", BLOCK.sub("", text)):
        for part in cells(paragraph.strip()) if paragraph.lstrip().startswith("|") else [paragraph]:
            yield from cited(part)


def section(document, heading):
    return re.search(rf"^## {heading}\n(.*?)(?=^## |\Z)", document, re.M | re.S)[1]


def blocks(text):
    """The lines of the text's blocks of code, without what is said beside them."""
    return [line.split("#")[0].strip() for block in BLOCK.findall(text) for line in block.splitlines()]


class Citations(unittest.TestCase):
    """What holds of a name that a document cites."""

    def assert_cited(self, document, name, path):
        self.assertTrue(os.path.exists(os.path.join(ROOT, path)), f"{document}: {path}")
        if name:
            self.assertRegex(read(path), r"(?<![\w'·])" + re.escape(name) + r"(?![\w'])", f"{document}: {name} in {path}")
