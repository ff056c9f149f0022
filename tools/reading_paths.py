#!/usr/bin/env python3
"""What has to be believed, claim by claim: the definitions that public contracts and statements rest on, by file and lines, as rows of a table.
What names what is read from the `use` lines: a name means the declaration that is imported under it, or for the file's own."""
import glob
import itertools
import os
import re

from repository import ROOT, parser, read

FOLDERS = ("inner", "laws", "examples")
WORD = re.compile(r"\[\]|[^\s(){}\[\];,.⌜⌝λ\"]+")
CITED = re.compile(r"Rattle\.(?!std\b)(\w+)\.specs\.(?!declared)(\S+?)(?:\.\{([^}]*)\})?(?: as (\S+))?$")
MARKS = ("abbrev", "unfoldable", "pub", "mutual")

# A claim: what it is called, the statements that it makes, by crate and file, and the crates and modules whose public contracts it makes.
CLAIMS = (
    ("demand 3", {"agreement/Agreement": ["Agrees"]}, ()),
    ("a step of the core", {}, ("column/step",)),
    ("a step of the bank", {"bank/Exact": ["Exact"]}, ("bank/bank", "bank/step")),
    ("a call from C", {}, ("firmware",)),
    ("the script's text", {"script/Scripts": ["script_text"], "script/Advances": ["start", "filled_by", "printed_by"]}, ("script/script",)),
    ("journals", {"agreement/Journals": ["JournalsAgree", "TextsAgree"]}, ("journals",)),
    ("fastest trees", {"fastest/Fastest": ["*"], "fastest/Formula": ["*"]}, ("fastest",)),
    ("losses", {"agreement/Losing": ["Losing"]}, ("losses",)),
)
# The other statements, and definitions that only laws name: a sentence rendered, or the way back from what a contract names.
OTHERS = {
    "agreement/Companions": ["*"], "agreement/Dispatching": ["*"], "agreement/Limits": ["*"], "agreement/Returning": ["*"], "bank/Strips": ["*"],
    "bank/Rest": ["*"], "bank/Apart": ["*"], "figure/Comparison": ["*"], "column/Trees": ["IsTree"], "column/Packets": ["occupied"],
    "column/Frames": ["joined"], "firmware/Blocks": ["tree_bytes"],
}


def words(lines):
    """The names in a text, without its comments."""
    return set(WORD.findall("\n".join(re.sub(r"(?<!\S)--.*", "", line) for line in lines)))


def heading(line):
    """The marks, the kind and the names of a declaration that a line begins; None where it begins none."""
    parts = line.split()
    marks = [parts.pop(0) for _ in list(parts) if parts and parts[0] in MARKS]
    if not parts:
        return (marks, "mutual", []) if "mutual" in marks else None
    if parts[0] in ("record", "data", "module"):
        return marks, parts[0], parts[1:2] if parts[0] != "module" else []
    names = parts[:parts.index(":")] if ":" in parts else []
    if not names or "=" in names:
        return None
    return marks, "definition" if {"abbrev", "unfoldable"} & set(marks) else "theorem", names


class Declaration:
    """A definition, record, data type, mutual block or theorem, with the comment above it; in a module, of the first also the module's line."""

    def __init__(self, place, comment, line, kind, names):
        self.place, self.comment, self.lines, self.kind, self.names = place, comment, [line], kind, names
        if kind == "mutual":
            self.names = []

    def all_names(self):
        """Its own names, those of a mutual block, and the constructors of a data type."""
        if self.kind == "data":
            return self.names + [name for line in self.lines[1:] for found in re.findall(r"^\s+([^\s:-][^:]*?)\s+:\s", line) for name in found.split()]
        blocks = [heading(line) for line in self.lines[1:] if self.kind == "mutual"]
        return self.names + [name for block in blocks if block for name in block[2]]

    def type_lines(self):
        """Its first lines, up to where its clauses begin."""
        edge = len(self.lines[0]) - len(self.lines[0].lstrip())
        return self.lines[:1] + list(itertools.takewhile(lambda line: line[edge:edge + 1] == " ", self.lines[1:]))

    def statement(self):
        """What has to be read of it: of a theorem its type, of all else the whole."""
        return self.type_lines() if self.kind == "theorem" else self.lines

    def size(self):
        return len(self.comment) + len(self.lines)


def declarations(place, text):
    """The declarations of a file, in their order, those in modules too."""
    found, comment, edges = [], [], [0]
    for line in text.splitlines():
        edge = len(line) - len(line.lstrip())
        outer = line.strip() and edge in edges and not line.startswith(("use ", "pub use ", "pub mod "))
        began = heading(line) if outer and not line.lstrip().startswith(("--", "unfolding ")) else None
        if began:
            edges = [other for other in edges if other <= edge] + [edge + 2] * (began[1] == "module")
        if began and began[1] != "module":
            found.append(Declaration(place, comment, line, began[1], began[2]))
        elif not began and found and line.strip() and not (outer and line.lstrip().startswith("--")):
            found[-1].lines.append(line)
        if outer and (line.lstrip().startswith("--") or began and began[1] == "module"):
            comment = comment + [line]
        elif began or not line.strip() and not (comment and comment[-1].endswith(" where")):
            comment = []
    return found


def cited(text, before=""):
    """What the `use` lines of a text give: the place and the name of each name, and the place of each alias."""
    names, aliases = {}, {}
    for use in re.findall(rf"^{before}use ([^;\n]+?(?:\{{[^}}]*\}})?);?$", text, re.M):
        found = CITED.match(" ".join(use.split()))
        if found:
            place = f"{found[1]}/{found[2].replace('.', '/')}"
            if found[3] is None:
                aliases[found[4] or place.split("/")[-1]] = place
            for name in (found[3] or "").split(","):
                parts = name.split(" as ")
                names[parts[-1].strip()] = (place, parts[0].strip())
    return names, aliases


class Specifications:
    """Every file of the folders specs, by its place, as `column/Trees` or `column/laws/TreeLaws`."""

    def __init__(self):
        paths = sorted(glob.glob(os.path.join(ROOT, "crates", "*", "specs", "**", "*.antt"), recursive=True))
        self.texts = {}
        for path in paths:
            crate, _, rest = os.path.relpath(path, os.path.join(ROOT, "crates")).split(os.sep, 2)
            if os.path.basename(path) != "Lib.antt" and not os.path.isdir(path.removesuffix(".antt")):
                self.texts[f"{crate}/{rest.removesuffix('.antt')}"] = read(path)
        self.files = {place: declarations(place, text) for place, text in self.texts.items()}
        self.uses = {place: cited(text) for place, text in self.texts.items()}
        self.owners = {(place, name): one for place, found in self.files.items() for one in found for name in one.all_names()}

    def named(self, lines, names, aliases, own=None):
        """The declarations that a text names."""
        found = [names[word] if word in names else (own, word) for word in words(lines)]
        code = "\n".join(re.sub(r"(?<!\S)--.*", "", line) for line in lines)
        found += [(aliases[alias], word) for alias, word in re.findall(r"([^\s(){}\[\];,.]+)\.([^\s(){}\[\];,.]+)", code) if alias in aliases]
        return [self.owners[place] for place in found if place in self.owners]

    def below(self, roots):
        """The declarations that some rest on, these too. A definition names no theorem: what looks so is a parameter of that name."""
        seen, ahead = [], list(roots)
        while ahead:
            one = ahead.pop()
            if one not in seen:
                seen.append(one)
                names, aliases = self.uses[one.place]
                ahead += [other for other in self.named(one.statement(), names, aliases, one.place) if other.kind != "theorem"]
        return seen

    def of(self, statements):
        """The declarations that a table of statements names; a star means all of a file."""
        return [one for place, names in statements.items() for one in self.files[place] if names == ["*"] or set(names) & set(one.names)]


def public_modules(crate):
    top = os.path.join(ROOT, "crates", crate, "src", "lib.rt")
    return ["lib", *re.findall(r"^pub mod (\w+);", read(top), re.M)] if os.path.exists(top) else []


def contracts(public):
    """Of each source module, by crate and name: the texts of its public functions up to their bodies; or else all of it but these."""
    for path in sorted(glob.glob(os.path.join(ROOT, "crates", "*", "src", "*.rt"))):
        crate, module, text = path.split(os.sep)[-3], os.path.basename(path)[:-3], read(path)
        called = r'^pub (?:extern "C" )?fn \w+(?:.|\n)*?^\{' if module in public_modules(crate) else r"(?!)"
        rest = re.sub(r"^\s*//.*|^(?:ghost )?use .*", "", re.sub(called, "", text, flags=re.M), flags=re.M)
        yield f"{crate}/{module}", "\n".join(re.findall(called, text, re.M)) if public else rest, cited(text, "ghost ")


def promised(specs, of, public=True):
    """The declarations that contracts of some crates or modules name."""
    return [one for module, text, uses in contracts(public) if module in of or module.split("/")[0] in of for one in specs.named(text.splitlines(), *uses)]


def row(name, found):
    """How much a reader reads of each file."""
    places = {}
    for one in found:
        places[one.place] = places.get(one.place, 0) + one.size()
    files = ", ".join(f"`{place}` {lines}" for place, lines in sorted(places.items()))
    return f"| {name} | {len(found)} | {sum(places.values())} | {len(places)} | {files} |"


def believed(specs):
    """All that public contracts and statements rest on."""
    crates = {place.split("/")[0] for place in specs.files}
    statements = [one for _, table, _ in CLAIMS for one in specs.of(table)] + specs.of(OTHERS)
    return specs.below(statements + promised(specs, crates))


def of_claim(specs, claim):
    return specs.below(specs.of(claim[1]) + promised(specs, claim[2]))


def totals(specs):
    """How much is believed in all, and for the first claim, in words."""
    (lines, files), (few, fewer) = ((sum(one.size() for one in found), len({one.place for one in found})) for found in (believed(specs), of_claim(specs, CLAIMS[0])))
    return f"{lines:,} lines in {files} files, of which {CLAIMS[0][0]} rests on {few} in {fewer}"


def table(specs):
    lines = ["| Claim | Definitions | Lines | Files | Of each file |", "|---|---|---|---|---|"]
    lines += [row(claim[0], of_claim(specs, claim)) for claim in CLAIMS]
    whole = believed(specs)
    lines.append(f"| all public contracts and statements | {len(whole)} | {sum(one.size() for one in whole)} | {len({one.place for one in whole})} | |")
    return "\n".join(lines) + "\n"


if __name__ == "__main__":
    parser(__doc__).parse_args()
    print(f"{table(Specifications())}\n{totals(Specifications())}")
