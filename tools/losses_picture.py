#!/usr/bin/env python3
"""How many halts lose an order, for every step count up to rest: prints kept, lost and none of each table, and draws them.

    tools/losses_picture.py docs/losses.svg                a chain, a bush and a fastest tree of 8 columns
    tools/losses_picture.py mine.svg NAME=TABLE...         TABLE is a file with a table, without `after=`

It asks ./losses and ./lockers, which build themselves where they must."""
import argparse
import html
import sys

from repository import parser
from tree_losses import TREES, counts, table, to_rest

WIDTH, HEIGHT, LEFT, TOP, GAP = 720, 190, 64, 54, 74
KEPT, LOST, NONE, INK, FAINT = "#2b8a78", "#d9532c", "#8a8f98", "#23262b", "#dfe2e6"


def rows(given):
    """Kept, lost and none after each count of steps up to rest."""
    steps = to_rest(given)
    if steps is None:
        sys.exit("the table is refused")
    found = [counts(given, count) for count in range(steps + 1)]
    if len(found[0]) != 3:
        sys.exit(f"refused={found[0][0]}")
    return found


def printed(name, found):
    print(f"{name}: after how many steps the set halts, and how many sets keep the order, lose it, leave nobody running")
    print("| after | kept | lost | none |\n|---|---|---|---|")
    for steps, (kept, lost, none) in enumerate(found):
        print(f"| {steps} | {kept} | {lost} | {none} |")


def text(x, y, words, size=12, fill=INK, anchor="start", weight="normal"):
    return f'<text x="{x:.1f}" y="{y:.1f}" font-size="{size}" fill="{fill}" text-anchor="{anchor}" font-weight="{weight}">{html.escape(words)}</text>'


def bar(x, width, top, part, whole, fill):
    """A part of a column of the panel; the least is still seen."""
    return f'<rect x="{x:.2f}" y="{top:.2f}" width="{width:.2f}" height="{max(part / whole * HEIGHT, 1.5):.2f}" fill="{fill}"/>'


def panel(name, found, y):
    """A column for each step count: at the bottom the sets that lose the order, over them those that keep it, on top that of all columns."""
    whole = sum(found[0])
    step = (WIDTH - LEFT - 24) / len(found)
    first = next(steps for steps, (_, lost, _) in enumerate(found) if lost == 0)
    drawn = [text(LEFT, y - 14, name, 15, weight="bold"),
             text(WIDTH - 24, y - 14, f"no set loses the order from step {first} on; rest after {len(found) - 1}", 12, anchor="end")]
    for steps, (kept, lost, none) in enumerate(found):
        x, width = LEFT + steps * step, step * 0.86
        tops = [y, y + none / whole * HEIGHT, y + (none + kept) / whole * HEIGHT]
        drawn += [bar(x, width, top, part, whole, fill) for top, part, fill in zip(tops[::-1], (lost, kept, none), (LOST, KEPT, NONE)) if part]
        if lost:
            drawn.append(text(x + width / 2, tops[2] - 3, str(lost), 10, "#ffffff", "middle"))
        if len(found) <= 16 or steps % 4 == 0:
            drawn.append(text(x + width / 2, y + HEIGHT + 15, str(steps), 11, anchor="middle"))
    drawn += [text(LEFT - 8, y + share * HEIGHT + 4, str(round(whole * (1 - share))), 11, anchor="end") for share in (0, 0.5, 1)]
    return drawn + [text(WIDTH - 24, y + HEIGHT + 32, "steps before the halt", 11, anchor="end")]


def legend(names):
    drawn = [text(LEFT, 22, "How many sets of columns lose an order, by the moment at which they halt", 13, weight="bold")]
    for place, (words, fill) in enumerate(names):
        drawn += [f'<rect x="{LEFT + place * 150}" y="32" width="11" height="11" fill="{fill}"/>', text(LEFT + 16 + place * 150, 42, words, 12)]
    return drawn


def picture(panels):
    height = TOP + len(panels) * (HEIGHT + GAP)
    drawn = legend([("kept: the order", KEPT), ("lost: no order", LOST), ("none: nobody runs", NONE)])
    for place, (name, found) in enumerate(panels):
        drawn += panel(name, found, TOP + 34 + place * (HEIGHT + GAP))
    body = "\n".join(drawn)
    return (f'<svg xmlns="http://www.w3.org/2000/svg" viewBox="0 0 {WIDTH} {height}" width="{WIDTH}" height="{height}" font-family="sans-serif">\n'
            f'<rect width="{WIDTH}" height="{height}" fill="#ffffff"/>\n{body}\n</svg>\n')


def named_table(word):
    """The name and the table of a word NAME=TABLE."""
    name, sign, path = word.partition("=")
    if not sign:
        raise argparse.ArgumentTypeError(f"{word} is not NAME=TABLE")
    try:
        with open(path, encoding="ascii") as file:
            return name, file.read()
    except (OSError, UnicodeDecodeError) as error:
        raise argparse.ArgumentTypeError(f"cannot read {path}: {error}") from None


def main():
    words = parser(__doc__)
    words.add_argument("picture", metavar="PICTURE", help="the SVG file to write")
    words.add_argument("tables", metavar="NAME=TABLE", nargs="*", type=named_table, help="a table with the name that its part of the picture has")
    asked = words.parse_args()
    tables = asked.tables or [(name, table(up)) for name, up in TREES]
    panels = [(name, rows(given)) for name, given in tables]
    for name, found in panels:
        printed(name, found)
    with open(asked.picture, "w", encoding="utf8") as file:
        file.write(picture(panels))


if __name__ == "__main__":
    main()
