"""What the runners of this folder share: a copy of the repository to spoil, and the reading of what the prover says of it."""
import glob
import os
import re
import shutil
import subprocess
import sys
import tempfile

HERE = os.path.dirname(os.path.abspath(__file__))
sys.path.append(os.path.join(os.path.dirname(os.path.dirname(HERE)), "tools"))
from repository import ROOT, read

# An edit that only makes the proof file unfit for the code shows nothing.
UNFIT = re.compile(r"has no `|has no field|was not admitted|is not in scope|is no name|operand is missing|expected the end|cannot continue|expected type `goal\.")
# A change of an edit: the lines that its file has, and those in their place.
CHANGE = re.compile(r"((?:old:.*\n)*)((?:new:.*\n)+)")
# What a goal of a function's proof asks, by how its name begins or ends.
FACTS = ((r"(\w+-)?returns(-.*)?$", "would not answer what it ensures"), (r"loop-.*-init(-.*)?$", "would begin its loop without the invariant"),
         (r"loop-.*-preserved(-.*)?$", "would not keep the invariant of its loop"), (r"loop-.*-smaller(-.*)?$", "would come no nearer to the end of its loop"),
         (r".*-requires(-.*)?$", "would call a function without what that asks"), (r"(\w+_)?bounds-|overflow_", "would leave its bounds"))
# The remarks before an item, in a block of methods too.
REMARKS = r"(?:^ *//[^\n]*\n)*(?:^ *#\[[^\n]*\n)*"
# A function or a method, with its name, after its remarks.
FUNCTION = rf"{REMARKS}^(?P<margin> *)(?:pub(?:\(crate\))? )?(?:extern \"C\" )?fn (?P<name>\w+).*?^(?P=margin)\}}\n"
# The methods of a type, after their remarks.
METHODS = rf"{REMARKS}^impl\b[^\n]*\{{(?:\}}|\n.*?^\}})\n"
# The files of a function's proof.
PROOFS = ("Answers.antt", "Invariants.antt", "Proof.antt")


def copied(folder):
    """A copy of the repository without what was built; rt begins there with what it has kept of the same crates."""
    copy = os.path.join(folder, "copy")
    shutil.copytree(ROOT, copy, ignore=shutil.ignore_patterns(".git", "must-fail", "out", "target"))
    return copy


def rewrite(path, change):
    text = change(read(path))
    with open(path, "w", encoding="utf8") as file:
        file.write(text)


def declarations(text):
    """A source file without its functions and methods and what only they import."""
    text = re.sub(FUNCTION, "", re.sub(METHODS, "", text, flags=re.M | re.S), flags=re.M | re.S)
    line = re.compile(r"^((?:pub )?(?:ghost )?use [^{};]*?)(?:\{([^{}]*)\}|([^\s{}:.;]+));\n", re.M)
    rest = re.sub(r"//[^\n]*", "", line.sub("", text))

    def needed(found):
        """The line with the names alone that something is left of."""
        names = [name.strip() for name in (found[2] or found[3]).split(",") if name.strip()]
        kept = [name for name in names if re.search(rf"(?<![\w']){re.escape(name.split()[-1].strip('◌'))}(?![\w'])", rest)]
        return f"{found[1]}{{{', '.join(kept)}}};\n" if kept else ""

    return line.sub(needed, text)


def without_functions(crate):
    """Leaves the functions of a crate's folder out, with their proofs: its types stay, and the definitions and the laws of specs/ and of proofs/."""
    proofs, listed = os.path.join(crate, "proofs"), os.path.join(crate, "proofs", "Lib.antt")
    laws = re.findall(r"^(?:pub )?mod (\w+)$", read(listed), re.M) if os.path.exists(listed) else []
    for folder in glob.glob(os.path.join(proofs, "*", "")):
        if os.path.basename(os.path.dirname(folder)) not in laws:
            shutil.rmtree(folder)
    for path in glob.glob(os.path.join(crate, "src", "*.rt")):
        rewrite(path, declarations)


def function_of(path, line):
    """The function that a proof file is of, or that a line of a source is in; None where a law is meant."""
    if os.path.basename(path) in PROOFS:
        return os.path.basename(os.path.dirname(path))
    if path.endswith(".rt"):
        text = read(path)
        return next(found["name"] for found in re.finditer(FUNCTION, text, re.M | re.S) if line <= text.count("\n", 0, found.end()))
    return None


def in_words(path, line, name):
    """The fact of a name that no longer holds: a function's own, what its proof rests on, or a law."""
    function = function_of(path, line)
    if function is None:
        return f"the law `{name}` no longer holds"
    told = next((words for pattern, words in FACTS if re.match(pattern, name)), None)
    return f"`{function}` {told}" if told else f"`{name}`, on which the proof of `{function}` rests, no longer holds"


def first_error(copy, crate, log, of_functions=False):
    """The first fact that no longer holds, or the first of a function's proof, in words and with its place, or None. What the tactics do not find is told in a note."""
    for text in read(log).split("\n"):
        told = re.match(r"note: (\S+?):(\d+):\d+: it is not proved that .*\(`(\S+)`\)", text) or re.match(r"(\S+?):(\d+):\d+: error: `(\S+)`: ", text)
        if told and not UNFIT.search(text):
            place, line, name = told.group(1).removeprefix("./"), int(told.group(2)), told.group(3)
            path = os.path.join(copy, "crates", crate, place)
            if function_of(path, line) or not of_functions:
                return f"{in_words(path, line, name)} ({place}, {name})"
    return None


def unkeyed(lines):
    return "\n".join(line[len("old: "):] for line in lines.split("\n")[:-1])


def changes(text):
    """What an edit says, in turn: the file, the text that it has, None for the whole file, and the text in its place. A line without a key is a remark."""
    keyed = "".join(f"{line}\n" for line in text.split("\n") if line.startswith(("file:", "old:", "new:")))
    _, *parts = re.split(r"^file: (.*)\n", keyed, flags=re.M)
    for path, body in zip(parts[::2], parts[1::2]):
        if not re.fullmatch(f"(?:{CHANGE.pattern})+", body):
            raise ValueError(f"{path}: no change: {body}")
        for old, new in CHANGE.findall(body):
            yield path, unkeyed(old) if old else None, unkeyed(new)


def replaced(before, old, new, path):
    """A file's text with new in the place of old, which it has once. An edit that does not fit its file shows nothing."""
    if old is None:
        return new + "\n"
    if (before or "").count(old) != 1:
        raise ValueError(f"{path} has {(before or '').count(old)} times: {old}")
    return before.replace(old, new)


def text_of(root, path):
    """What a file holds, or None where there is no such file."""
    whole = os.path.join(root, path)
    return read(whole) if os.path.exists(whole) else None


def applied(crate, text):
    """The files of a crate that an edit changes or makes, by their paths, as they are after it."""
    texts = {}
    for name, old, new in changes(text):
        path = os.path.join("crates", crate, name)
        texts[path] = replaced(texts.get(path, text_of(ROOT, path)), old, new, path)
    return texts


def write(copy, texts):
    """Puts the texts into their files; a file of no text is taken away, with its folder where that is then empty."""
    for path, text in texts.items():
        whole = os.path.join(copy, path)
        folder = os.path.dirname(whole)
        if text is None:
            os.remove(whole)
            if not os.listdir(folder):
                os.rmdir(folder)
        else:
            os.makedirs(folder, exist_ok=True)
            with open(whole, "w", encoding="utf8") as file:
                file.write(text)


def checked(copy, crate, log):
    """What the prover says of the crate, over what it has kept: whatever an edit cannot have changed is not checked again."""
    with open(log, "w", encoding="utf8") as file:
        done = subprocess.run(["rt", "check"], cwd=os.path.join(copy, "crates", crate), stdout=file, stderr=subprocess.STDOUT)
    return done.returncode, read(log)


def refusals(crate, edits):
    """The edits, given as their texts by label, each tried on the crate: the label, the first fact that no longer holds, and what the prover said in all."""
    with tempfile.TemporaryDirectory() as folder:
        copy = copied(folder)
        log = os.path.join(folder, "log")
        if checked(copy, crate, log)[0] != 0:
            raise RuntimeError(f"{crate} is not proved as it is")
        for label, text in sorted(edits.items()):
            texts = applied(crate, text)
            before = {path: text_of(copy, path) for path in texts}
            write(copy, texts)
            said = checked(copy, crate, log)[1]
            yield label, first_error(copy, crate, log), said
            write(copy, before)
