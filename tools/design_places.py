#!/usr/bin/env python3
"""The places of src/ that could be written in another form of today's Rattle, by eight points, in each crate: of a commit, or of the work tree without one.

    tools/design_places.py                  how many places each crate has
    tools/design_places.py 41d3b24          the same of a commit
    tools/design_places.py --list           each place, as file:line: what
    tools/design_places.py --point 3        of one point alone; may be given again

Each point has its patterns, which the tables name. A place is found by how it is written, so that a pattern may find what has to stay, and says nothing of why.
Of point 8, the proofs, the answers are counted, how many of them are found by a search alone, and the blocks of six or more lines that stand more than once."""
import collections
import re
import subprocess

import design_forms as forms
import design_shapes as shapes
from rattle_sources import Code, texts_of
from repository import parser

POINTS = {
    1: ("own enums like Option or Result, flags beside values, numbers for kinds and refusals", {
        "enum with a variant for no value": forms.shaped_enums, "struct with a flag or an answer": forms.flagged_structs, "refusal's number": forms.refusal_numbers,
        "kind's number": forms.kind_numbers, "value for none": forms.stand_ins, "refusal's number held": forms.held_numbers, "refusal by a numeral": forms.refusal_numerals}),
    2: ("twins", {"function": shapes.twin_functions, "nearly a twin": shapes.near_twins, "type": shapes.twin_types, "one call": shapes.one_calls, "call of a namesake": shapes.forwarders}),
    3: ("loops that count by hand", {"stepped by one": forms.counted_loops, "stepped otherwise": forms.walked_loops}),
    4: ("equality, order, copying, conversion and printing by hand", {
        "equality": forms.comparisons, "match to a constant": forms.constant_matches, "number of a test": forms.chosen_numbers, "conversion": forms.conversions,
        "digits": forms.digits, "copying": forms.copies, "printing": forms.printers}),
    5: ("facts of three or more contracts, and parameters that travel together", {"fact": shapes.facts, "parameters": shapes.travelling}),
    6: ("lengths beside buffers, parallel arrays, searches by hand", {
        "struct": shapes.array_structs, "buffer with a place": shapes.placed_buffers, "parallel arrays": shapes.parallel_arrays,
        "array with its length": shapes.counted_arrays, "search": shapes.searches}),
    7: ("switches on which step to run", {"switch": forms.steps_dispatched}),
}
PROOFS = 8
BLOCK = 6


def places(code, point):
    """Each place of a point: its pattern, what is there and words for it; a place that two patterns find is the first one's."""
    seen = set()
    for pattern, find in POINTS[point][1].items():
        for item, words in find(code):
            key = (item.path, item.line, words if point == 5 else "")
            if key not in seen:
                seen.add(key)
                yield pattern, item, words


def row(*cells):
    return f"| {' | '.join(map(str, cells))} |"


def show_point(code, point):
    """The table of a point: its places in each crate, and of which pattern."""
    counted = collections.defaultdict(collections.Counter)
    for pattern, item, _ in places(code, point):
        counted[item.crate][pattern] += 1
    print(f"### Point {point}: {POINTS[point][0]}\n\n{row('Point', 'Crate', 'Places', 'Of which')}\n|---|---|---|---|")
    for crate, patterns in sorted(counted.items()):
        print(row(point, crate, patterns.total(), ", ".join(f"{pattern} {patterns[pattern]}" for pattern in POINTS[point][1] if patterns[pattern])))
    whole = sum(counted.values(), collections.Counter())
    print(row(point, "all", whole.total(), ", ".join(f"{pattern} {whole[pattern]}" for pattern in POINTS[point][1] if whole[pattern])), end="\n\n")


def show_places(code, point):
    for pattern, item, words in sorted(places(code, point), key=lambda place: (place[1].path, place[1].line, place[2])):
        print(f"{point} {item.path}:{item.line}: {pattern}: {words}")


def answers(text):
    """The line and the terms of each answer of a file."""
    lines = text.splitlines()
    for at, line in enumerate(lines):
        found = re.match(r"pub (\S+) : goal\.", line)
        if found:
            end = next((end for end in range(at + 1, len(lines)) if not lines[end].strip()), len(lines))
            told = [one for one in lines[at + 1:end] if not one.startswith("unfolding ")]
            yield at + 1, " ".join(" ".join(told).partition(" = ")[2].split())


def found_alone(term):
    """Whether a term is `search rules`, `omega arith` or `refl`, or a tuple of these."""
    return bool(re.fullmatch(r"search \(?rules\)?|omega arith|refl|\((?:(?:search rules|omega arith|refl)(?:, )?)+\)", term))


def repeated(texts):
    """The first lines of the blocks of six or more equal lines that stand more than once, by file and line."""
    told = {path: [(at + 1, line.strip()) for at, line in enumerate(text.splitlines()) if line.strip() and not line.startswith(("use ", "--"))] for path, text in texts.items()}
    begun = collections.defaultdict(list)
    for path, lines in told.items():
        for at in range(len(lines) - BLOCK + 1):
            begun[tuple(line for _, line in lines[at:at + BLOCK])].append((path, at))
    twice = {place for members in begun.values() if len(members) > 1 for place in members}
    return sorted((path, *told[path][at]) for path, at in twice if (path, at - 1) not in twice)


def of_crates(texts):
    """The files of each crate."""
    crates = collections.defaultdict(dict)
    for path, text in texts.items():
        crates[path.split("/")[1]][path] = text
    return sorted(crates.items())


def proof_counts(texts):
    """How many files of answers and of invariants there are, their lines, the answers, those found alone, and the repeated blocks."""
    files = [[path for path in texts if path.endswith(f"/{name}.antt")] for name in ("Answers", "Invariants")]
    told = [term for path in files[0] for _, term in answers(texts[path])]
    lines = sum(texts[path].count("\n") for path in [*files[0], *files[1]])
    return len(files[0]), len(files[1]), lines, len(texts) - len(files[0]) - len(files[1]), len(told), sum(map(found_alone, told)), len(repeated(texts))


def show_proofs(texts):
    heads = ("Point", "Crate", "Files of answers", "Files of invariants", "Their lines", "Other files", "Answers", "Of them `search rules`, `omega arith` or `refl`", "Blocks that stand twice")
    print(f"### Point {PROOFS}: proofs\n\n{row(*heads)}\n{'|---' * len(heads)}|")
    counted = [(crate, proof_counts(own)) for crate, own in of_crates(texts)]
    for crate, numbers in counted:
        print(row(PROOFS, crate, *numbers))
    print(row(PROOFS, "all", *map(sum, zip(*(numbers for _, numbers in counted)))))


def show_proof_places(texts):
    told = [(path, *answer) for path, text in sorted(texts.items()) if path.endswith("/Answers.antt") for answer in answers(text)]
    for path, line, term in told:
        if found_alone(term):
            print(f"{PROOFS} {path}:{line}: found alone: {term}")
    for path, line, words in (place for _, own in of_crates(texts) for place in repeated(own)):
        print(f"{PROOFS} {path}:{line}: stands twice, from: {words}")


def texts_or_error(words, commit, part):
    try:
        return texts_of(commit, part)
    except subprocess.CalledProcessError as error:
        words.error(f"no commit {commit}: {error.stderr or ''}".strip())


def main():
    words = parser(__doc__)
    words.add_argument("commit", metavar="COMMIT", nargs="?", help="what is read in place of the work tree")
    words.add_argument("--list", action="store_true", help="prints each place in place of the tables")
    words.add_argument("--point", metavar="POINT", type=int, action="append", choices=[*POINTS, PROOFS], help="1 to 8, all without it")
    asked = words.parse_args()
    points = asked.point or [*POINTS, PROOFS]
    code = Code(texts_or_error(words, asked.commit, "src"))
    for point in points:
        if point != PROOFS:
            (show_places if asked.list else show_point)(code, point)
    if PROOFS in points:
        (show_proof_places if asked.list else show_proofs)(texts_or_error(words, asked.commit, "proofs"))


if __name__ == "__main__":
    main()
