"""Patterns of tools/design_places.py that look at what several functions or types have in common, and at buffers: points 2, 5 and 6. Each gives what it found, with words
for it."""
import collections
import difflib
import functools
import itertools
import re

from design_forms import shaped_parts
from rattle_sources import TOKEN, conjuncts, split

WORDS = set("fn let mut if else while for in match return as loop break continue".split())
PLACES = {"at", "from", "to", "start", "end", "n", "count", "place", "last", "first", "size", "position", "room"}
PARALLEL = ({"heads", "doors"}, {"keys", "sizes"}, {"keys_one", "sizes_one"}, {"mine", "sizes"}, {"theirs", "their_sizes"}, {"theirs", "index"}, {"keys", "index"}, {"up", "first"})
LABELS = {"name", "key", "whose", "fault", "other", "part", "one", "two"}
PROGRAMS = ("_main", "_test", "_timing", "_example", "_c")
# How alike the shapes of two functions of one file are at least, and of two files.
NEAR, APART = 0.75, 0.83


# Point 2.

@functools.cache
def shape(text):
    """A text with one sign for each name, number and string; how many names are handed on is left out."""
    signs = []
    for token in TOKEN.findall(text):
        named = re.match(r"\w", token) and token not in WORDS
        signs.append("N" if re.match(r"\d", token) else "S" if re.match(r"b?[\"']", token) else "I" if named else token)
    found = " ".join(sign for sign in signs if sign not in ("&", "mut"))
    found = re.sub(r", (?=[)}\]])", "", re.sub(r"I(?: (?:: :|\.) I)+", "I", found))
    return re.sub(r"\bI(?: , I)+", "I", found)


def is_list_of_calls(text):
    """Whether a body has nothing but calls, each of which may fail: what they share is that there are as many."""
    return bool(re.fullmatch(r"(?:I \( I \) \? ; )+I \( I \)", shape(text)))


def likeness(function):
    """What twins have in common: the shape of their bodies, and of those that only make a struct its name."""
    made = re.match(r"(?:\w+::)*([A-Z]\w*) \{", function.text())
    return made and made[1], shape(function.text())


def are_near(one, other):
    """Whether two functions have nearly the same shape."""
    least = NEAR if one.path == other.path else APART
    found = difflib.SequenceMatcher(None, shape(one.text()).split(), shape(other.text()).split(), False)
    return found.real_quick_ratio() >= least and found.quick_ratio() >= least and found.ratio() >= least


def of_one(groups, least):
    """The groups with as many members as asked for, each member with the others' names."""
    for members in groups.values():
        for one in members if len(members) >= least else ():
            yield one, sorted({f"{other.name} of {other.crate}" for other in members if other is not one})


def grouped(items, key):
    groups = collections.defaultdict(list)
    for one in items:
        groups[key(one)].append(one)
    return groups


def twin_functions(code):
    long = [one for one in code.functions if len(one.lines) >= 6 and len(TOKEN.findall(one.text())) >= 10 and not forwards(one) and not is_list_of_calls(one.text())]
    seen = set()
    for one, others in of_one(grouped(long, likeness), 2):
        seen.add(one)
        yield one, f"{one.name} has the shape of {', '.join(others[:4])}{' ..' if others[4:] else ''}"
    same = [one for one in code.functions if one.body and one not in seen and not forwards(one)]
    for one, others in of_one(grouped(same, lambda found: (found.name, found.text())), 2):
        yield one, f"{one.name} is word for word {', '.join(others)}"


def mirrored(function):
    """A name with one word for low and high."""
    return re.sub("low|high", "", function.name)


def near_twins(code):
    """Functions that are longer and of nearly one shape: of one file, or long ones of two files of libraries."""
    long = [one for one in code.functions if len(one.lines) >= 6 and len(TOKEN.findall(one.text())) >= 24 and "io::" not in one.gives]
    longer = {one for one in long if len(shape(one.text()).split()) >= 40 and not one.crate.endswith(PROGRAMS)}
    near = collections.defaultdict(list)
    for one, other in itertools.combinations(long, 2):
        told = one.path == other.path and mirrored(one) == mirrored(other)
        if told or (one.path == other.path or {one, other} <= longer) and are_near(one, other):
            near[one].append(other)
            near[other].append(one)
    for one, others in near.items():
        yield one, f"{one.name} is nearly {', '.join(f'{other.name} of {other.crate}' for other in others[:4])}{' ..' if others[4:] else ''}"


def forwards(function):
    """Whether a function does no more than call the one of its name in another crate."""
    return bool(re.fullmatch(rf"\w+::{function.name}\([^()]*\)", function.text()))


def forwarders(code):
    for found in code.functions:
        if forwards(found):
            yield found, f"{found.name} calls its namesake"


def one_calls(code):
    """Functions of one file whose whole body is a call of the same function with another constant."""
    calls = [one for one in code.functions if re.fullmatch(r"\w+\(.*\)", one.text()) and re.search(r"\w+::\w+", one.text()) and ";" not in one.text()]
    for one, others in of_one(grouped(calls, lambda found: (found.path, found.text().partition("(")[0], found.gives)), 3):
        if "io::" not in one.gives:
            yield one, f"{one.name} is one call, as {', '.join(others[:4])}{' ..' if others[4:] else ''}"


def twin_types(code):
    enums = [one for one in code.types if one.kind == "enum" and len(one.parts) == 2]
    for one, others in of_one(grouped(enums, lambda found: tuple(len(split(held.rstrip(","))) for _, held in found.parts)), 2):
        yield one, f"enum {one.name} has the shape of {', '.join(others[:4])}{' ..' if others[4:] else ''}"
    structs = [one for one in code.types if one.kind == "struct"]
    for one, others in of_one(grouped(structs, lambda found: (found.name, len(found.parts))), 2):
        yield one, f"struct {one.name} is {', '.join(others)} with another type"


# Point 5.

def with_types(fact, function):
    """A fact with the type of a parameter in place of its name."""
    for name, kind in function.parameters:
        fact = re.sub(rf"(?<![\w.·]){name}(?![\w·])", f"<{kind}>", fact)
    return fact


def facts(code):
    groups = collections.defaultdict(list)
    for found in code.functions:
        stated = {with_types(one, found) for kind, fact in found.clauses if kind == "requires" for one in conjuncts(fact)}
        for fact in stated:
            groups[fact].append(found)
    for fact, members in sorted(groups.items()):
        for crate, own in itertools.groupby(members, lambda one: one.crate) if len(members) >= 3 else ():
            own = list(own)
            yield own[0], f"requires {fact}: {', '.join(one.name for one in own)}"


def together(functions):
    """The groups of two or more parameters that three or more functions have, the most told first: each with its functions. Where output goes is none of them."""
    sets = [frozenset(pair for pair in one.parameters if pair[1] != "io::Stdout") for one in functions]
    groups = {both for one, other in itertools.combinations(sets, 2) if len(both := one & other) >= 2}
    counted = [(group, [one for one, held in zip(functions, sets) if group <= held]) for group in groups]
    return sorted((pair for pair in counted if len(pair[1]) >= 3), key=lambda pair: (-(len(pair[0]) - 1) * len(pair[1]), sorted(pair[0])))


def travelling(code):
    """The groups of a crate's functions, but for those that fewer than three have besides another group that shares a parameter with it."""
    for functions in grouped(code.functions, lambda found: found.crate).values():
        taken = []
        for group, members in together(functions):
            near = [other for other in taken if other & group]
            if not any(group < other for other in near) and sum(not any(other <= set(one.parameters) for other in near) for one in members) >= 3:
                taken.append(group)
                names = ", ".join(f"{name}: {kind}" for name, kind in members[0].parameters if (name, kind) in group)
                yield members[0], f"({names}) together in {len(members)}: {', '.join(one.name for one in members)}"


# Point 6.

def array_structs(code):
    for found in code.types:
        held = [name for name, kind in found.parts if found.kind == "struct" and (kind.startswith("[") or kind == "Words")]
        counts = [name for name, kind in found.parts if kind == "usize" and name in ("count", "columns", "length") or name in shaped_parts(code, found)]
        if held and counts:
            yield found, f"struct {found.name} has {', '.join(held)} with {', '.join(counts)} beside"
        elif len(held) > 1:
            yield found, f"struct {found.name} has parallel {', '.join(held)}"


def is_array(kind):
    return bool(re.match(r"&(?:'\w+ )?(?:mut )?(?:\[|Words)", kind))


def placed_buffers(code):
    for found in code.functions:
        held = [name for name, kind in found.parameters if is_array(kind) and name not in LABELS]
        beside = [name for name, kind in found.parameters if kind == "usize" and name in PLACES]
        if held and beside and not parallel(found):
            yield found, f"{found.name} has {', '.join(held)} with {', '.join(beside)} beside"


def counted_arrays(code):
    for found in code.functions:
        made = set(re.findall(r"let mut (\w+) = \[", found.text()))
        used = [name for name in re.findall(r"&(\w+)\[\.\.\w+\]", found.text()) if name in made]
        if used or re.search(r"let \(\w+, _\) = read_full", found.text()):
            yield found, f"{found.name} has an array {', '.join(sorted(set(used)))} and how much of it is filled"


def parallel(function):
    names = {name for name, kind in function.parameters if is_array(kind) or kind == "Words"}
    return sorted(set().union(*(pair for pair in PARALLEL if pair <= names)))


def parallel_arrays(code):
    for found in code.functions:
        if parallel(found):
            yield found, f"{found.name} has parallel {', '.join(parallel(found))}"


def searches(code):
    for found in code.loops:
        text = " ".join(found.body)
        if re.search(r"if (?:\w+\[[^{]*(?:==|<) \w+(?:\[\w+\])?|has\(set, \w+\)) \{ (?:return (?!false)|best =)", text):
            yield found, f"{found.name} searches by hand"
        elif re.search(r"\b(\w+) = \w+\[[^;]*\b\1\b[^;]*\] as usize;", text):
            yield found, f"{found.name} follows indices"
