"""Patterns of tools/design_places.py that look at one function, type, constant or loop: points 1, 3, 4 and 7. Each gives what it found, with words for it."""
import re

from rattle_sources import split

NUMBERS = ("u8", "u16", "u32", "u64", "usize", "Number")
NO_VALUE = {"Refused", "Unread", "Fewer", "Missing", "Nothing", "Absent", "Invalid"}
FLAGS = {"good", "named", "known", "begun", "over", "found", "valid", "refusal"}
KINDS = re.compile(r"MESSAGE|ACKNOWLEDGEMENT|SENT|GOT|ORDERING|ACTING|TAKING|HALTING|RETURNING|WRITING|REFUSED|(NO|NOT|OTHER)_\w+")
REFUSING = re.compile(r"refus|conditions|\bearlier\b", re.I)
NUMERAL = re.compile(r'(?:Refused|write_none|refused|unchanged)\((?:[^()]*, )?\d+\)|refused=", \d+')
HELD = re.compile(r"let (?:mut )?\w+ = [^;]*\b(?:\w+_refusal|\w+_conditions|earlier|refuse_if|opening)\(|\w\.refusal\b")
CONSTANT = re.compile(r"(?:\d+|true|false|[A-Z][A-Z_]+)$")
STEPS = re.compile(r"Step::|Chosen::|Asked::|^b'|^\d+$|^_$|Message$|Acknowledgement$")
ARM = re.compile(r"(?:^|[{,}|] )((?:\w+::)+\w+|b'.'|\d+|_)(?:\([^()]*\)| \{[^{}]*\})?(?: \| [^=]*?)? => (?:\{ )?([\w:]+)(?=[(,; ])(\(?)")


# Point 1.

def absent(code):
    """The enums that have a variant for no value, by crate and name."""
    return {(found.crate, found.name) for found in code.types if found.kind == "enum" and NO_VALUE & {name for name, _ in found.parts}}


def shaped_enums(code):
    for found in code.types:
        if (found.crate, found.name) in absent(code):
            yield found, f"enum {found.name} has " + " beside ".join(name for name, _ in found.parts)


def shaped_parts(code, found):
    """The fields of a struct whose type is such an enum."""
    return [name for name, given in found.parts if found.kind == "struct" and (code.crate_of(found.path, given), given) in absent(code)]


def flagged_structs(code):
    for found in code.types:
        shaped = shaped_parts(code, found)
        flags = [name for name, given in found.parts if found.kind == "struct" and (name in FLAGS and given in ("bool", "u8") or name in shaped)]
        kinds = [name for name, given in found.parts if name == "kind" and given in NUMBERS]
        if flags + kinds:
            yield found, f"struct {found.name} has {', '.join(flags + kinds)} beside values"


def answers_number(function):
    """Whether a function answers or is given the number of a refusal."""
    given = any(name in ("n", "m", "number", "refusal") and kind == "u8" for name, kind in function.parameters)
    return (function.gives == "u8" or given) and bool(REFUSING.search(f"{function.name} {function.text()}"))


def refusal_numbers(code):
    for found in code.functions:
        if answers_number(found):
            yield found, f"{found.name} has a refusal's number as u8"
        elif found.gives == "usize" and re.search(r"\brefusal\(", found.text()):
            yield found, f"{found.name} answers a refusal as 1000 and its number"


def kind_numbers(code):
    for found in code.constants:
        if KINDS.fullmatch(found.name) and found.type in NUMBERS and re.match(r"\d+;", found.value):
            yield found, f"const {found.name} is a number of a kind or of none"
    for found in code.functions:
        given = [name for name, kind in found.parameters if name in ("kind", "way") and kind in NUMBERS]
        if given or re.match(r"kind|way_number", found.name) and found.gives in NUMBERS:
            yield found, f"{found.name} has a kind as {found.gives if not given else 'a number'}"


def stand_ins(code):
    names = {found.name for found in code.types if found.kind == "struct"}
    for found in code.constants:
        if re.fullmatch(r"NO_\w+|UNREAD|NOTHING", found.name) and found.type in names:
            yield found, f"const {found.name}: {found.type} stands for no value"


def held_numbers(code):
    for found in code.functions:
        if HELD.search(found.text()):
            yield found, f"{found.name} holds or tests the number of a refusal"


def refusal_numerals(code):
    for found in code.functions:
        if NUMERAL.search(found.text()):
            yield found, f"{found.name} refuses by a numeral"


# Point 3.

def counted_loops(code):
    for found in code.loops:
        stepped = [line for line in found.body if re.fullmatch(r"[\w.]+ [+-]= 1;", line)]
        if stepped:
            yield found, f"{found.name}: while {found.condition}, {stepped[0]}"


def walked_loops(code):
    for found in code.loops:
        names = set(re.findall(r"\w+", found.condition))
        stepped = [line for line in found.body if (match := re.search(r"\b(\w+) (?:[+-]= (?!1;)\w+|= \w+ [+-] \w+)", line)) and match[1] in names]
        if stepped and not any(re.fullmatch(r"[\w.]+ [+-]= 1;", line) for line in found.body):
            yield found, f"{found.name}: while {found.condition}, {stepped[0]}"


# Point 4.

def comparisons(code):
    for found in code.functions:
        if re.match(r"(same|equal|eq)(_|$)", found.name) and found.gives == "bool":
            yield found, f"{found.name} compares by hand"


def arms(text):
    """What the arms of a match on an enum give, where a body is one match and no arm has a block."""
    found = re.fullmatch(r"(?:let [^;]*; )?match [^{]+ \{ ([^\d].*),? \}", text)
    return [one.partition("=>")[2].strip() for one in split(found[1])] if found else []


def constant_matches(code):
    for found in code.functions:
        given = arms(found.text())
        other = [one for one in given if not CONSTANT.match(one)]
        if given and len(other) <= 1 and 2 * len(other) <= len(given) and found.gives in (*NUMBERS, "bool"):
            yield found, f"{found.name} matches an enum to {found.gives}"
        elif re.search(r"\bkind\(\w+\)", found.text()):
            yield found, f"{found.name} compares the number of a kind"


def chosen_numbers(code):
    """A bool, or a bound, turned into a number by ifs."""
    for found in code.functions:
        text = found.text()
        by_ifs = re.fullmatch(r"(?:if [^{]+ \{ return \w+; \} )+[\w.]+(?: as \w+)?", text) and re.search(r"(?:return|\{|\}) (?:\d+|[A-Z_]{2,})\b", text)
        by_flag = re.search(r"if [^{]+ \{ return 1; \} 0$|\{ 0 \} else \{ 1 \}|\{ 1 \} else \{ 0 \}", text)
        if (by_ifs or by_flag) and found.gives in NUMBERS and not answers_number(found):
            yield found, f"{found.name} makes a number of a test"


def casts(text):
    """Whether a body has nothing but casts and sums of its parameters."""
    return bool(" as " in text and (re.fullmatch(r"[\w\s+*()]+", text) or re.fullmatch(r"let (\w+) = \w+\(\w+\) as \w+; \1", text)))


def conversions(code):
    for found in code.functions:
        read = found.types() == ["&[u8]"] and re.match(r"(?:u\d+|usize|Number|Tree|Column|\[u8.*)$", found.gives) and not re.match(r"mudasgup|changed|put", found.name)
        put = re.fullmatch(r"put_(tree|column|packet)", found.name) and found.path.startswith("crates/firmware")
        if (casts(found.text()) and found.gives in NUMBERS or read or put or found.path == "crates/bank/src/words.rt") and not answers_number(found):
            yield found, f"{found.name} converts by hand"


def digits(code):
    for found in code.functions:
        if re.search(r"48\.\.=57|\b48 \+ \(", found.text()):
            yield found, f"{found.name} reads or writes digits by hand"


def copies(code):
    for found in code.loops:
        moved = [line for line in found.body if re.fullmatch(r"\w+\[[^\]]+\] = (?:\w+\[[^\]]+\]|0);", line)]
        if moved and len(found.body) == 2:
            yield found, f"{found.name} copies by hand: {moved[0]}"


def printers(code):
    for found in code.functions:
        if re.match(r"print_\w+", found.name):
            yield found, f"{found.name} prints by hand"


# Point 7.

def steps_dispatched(code):
    """A match on a step, a kind or a letter whose arms only call functions, or only make another step."""
    for found in code.functions:
        arms_of = [(given, call) for pattern, given, call in ARM.findall(found.text()) if STEPS.search(pattern)]
        calls = {given for given, call in arms_of if call and re.match(r"[a-z]", given)}
        made = {given for given, _ in arms_of if re.match(r"[A-Z]\w+::[A-Z]", given)}
        if "print" not in found.name and (len(calls) >= 2 or len(made) >= 3):
            several = sorted(calls | made)
            yield found, f"{found.name} chooses between {', '.join(several[:4])}{' ..' if several[4:] else ''}"
        elif len(re.findall(r"if \w+ == b'", found.text())) >= 2:
            yield found, f"{found.name} chooses by the ifs of a letter"
