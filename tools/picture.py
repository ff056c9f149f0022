#!/usr/bin/env python3
"""Draws the run of a script as SVG: a line for each column, time downwards, a row for each step. The answers are those of the program; where one does not
fit the run, nothing is drawn and the status is 1.

    tools/picture.py examples/taken-over.script > mine.svg
"""
import html
import sys

import recorded
from repository import parser

ROW = 22
TOP = 128
MARGIN = 16
TEXTS = 296
# Where the words begin that say what a step does.
DOES = 92
ANSWERS = 280
# More characters of an answer, and of what a step does, than these are left out.
LONGEST = 30
# How far apart the columns of a bank are, and of one with many.
APART, CLOSE, MANY = 124, 46, 6
# After so many rows the columns are named again, in a band of this height.
EVERY, BAND = 25, 26
# A colour for each order's number, again from the first after the last.
RECORDS = ("#9aa0a6", "#1a73e8", "#e8710a", "#188038", "#a142f4", "#d01884", "#00796b", "#b06000")
HALTED = "#c5221f"
# How wide a small letter is at most.
LETTER = 6.2
STEP_LETTER = 7.3


def colour(number):
    return RECORDS[0] if number == 0 else RECORDS[1 + (number - 1) % (len(RECORDS) - 1)]


def text(x, y, words, kind="", anchor="start"):
    return f'<text x="{x:g}" y="{y:g}" class="{kind}" text-anchor="{anchor}">{html.escape(words)}</text>'


def line(x, y, to_x, to_y, kind, stroke, more=""):
    return f'<line x1="{x:g}" y1="{y:g}" x2="{to_x:g}" y2="{to_y:g}" class="{kind}" stroke="{stroke}" {more}/>'


def cross(x, y, stroke):
    return line(x - 5, y - 5, x + 5, y + 5, "cross", stroke) + line(x - 5, y + 5, x + 5, y - 5, "cross", stroke)


def shortened(answer):
    """An answer as it fits; a list without the column, whose number its step has."""
    answer = " ".join(word for word in answer.split() if not word.startswith(("column=", "occupied=")))
    return answer if len(answer) <= LONGEST else f"{answer[:LONGEST]}…"


def box(x, y, width, height, kind, more=""):
    return f'<rect x="{x:g}" y="{y:g}" width="{width:g}" height="{height:g}" class="{kind}" {more}/>'


def boxed(x, y, words, kind):
    """A text with white behind it, so that no line goes through it."""
    return box(x - 2, y - 10, LETTER * len(words) + 4, 14, "behind") + text(x, y, words, kind)


def table_words(bank):
    """What the table says beside the tree: its sequence and whom columns watch."""
    return f"first={','.join(map(str, bank.first[:len(bank.columns)]))}   watch={bank.watch}"


class Picture:
    """The parts of a picture of a bank's moments and flights."""

    def __init__(self, bank):
        self.bank, self.moments = bank, bank.moments
        self.close = len(bank.columns) > MANY
        self.apart = CLOSE if self.close else APART
        self.bands = range(EVERY, len(self.moments) - EVERY // 2, EVERY)
        self.width = TEXTS + self.apart * len(bank.columns) + ANSWERS
        self.height = self.y(len(self.moments) - 1) + ROW / 2 + MARGIN

    def x(self, column):
        return TEXTS + self.apart * (column + 0.5)

    def y(self, moment):
        return TOP + ROW * (moment + 0.5) + BAND * min(moment // EVERY, len(self.bands))

    def rests(self):
        """A band behind every row after which the bank is at rest."""
        for at, moment in enumerate(self.moments):
            if moment.rests:
                yield f'<rect x="{MARGIN}" y="{self.y(at) - ROW / 2:g}" width="{self.width - 2 * MARGIN}" height="{ROW}" class="rest"/>'

    def heads(self):
        for i, parent in enumerate(self.bank.up[:len(self.bank.columns)]):
            under = "root" if i == self.bank.root else f"under {parent}"
            yield text(self.x(i), TOP - 34, str(i) if self.close else f"column {i}", "head", "middle")
            yield text(self.x(i), TOP - 18, under, "small", "middle")

    def heads_again(self):
        """The number of each column, on its line, after every so many rows."""
        for at in self.bands:
            y = self.y(at) - (ROW + BAND) / 2
            for i in range(len(self.bank.columns)):
                yield box(self.x(i) - 12, y - 8, 24, 16, "again", 'rx="4"') + text(self.x(i), y + 4, str(i), "head", "middle")

    def guides(self):
        """From the words of a step to the column that acts, where the columns are many."""
        for at, moment in enumerate(self.moments):
            if self.close and moment.actor is not None:
                yield line(TEXTS, self.y(at), self.x(moment.actor), self.y(at), "guide", "#d5d8dc")

    def texts(self):
        for at, moment in enumerate(self.moments):
            kind = "dispatched" if moment.dispatched else "step"
            kind += " refused" if moment.answer.startswith("refused") else ""
            yield text(MARGIN + (14 if moment.dispatched else 0), self.y(at) + 4, moment.text, kind)
            if moment.does and len(moment.text) * STEP_LETTER < DOES - 14:
                yield text(MARGIN + DOES, self.y(at) + 4, shortened(moment.does), "small")
            yield text(self.width - ANSWERS + 3 * MARGIN, self.y(at) + 4, shortened(moment.answer), kind)

    def life(self, i):
        """A column's line, in the colour of the record that it holds; thin and broken while it is halted."""
        for at in range(len(self.moments) - 1):
            moment = self.moments[at]
            kind, stroke = ("life", colour(moment.numbers[i])) if moment.running[i] else ("halted", HALTED)
            yield line(self.x(i), self.y(at), self.x(i), self.y(at + 1), kind, stroke)

    def records(self, i):
        """The number of the record where a column begins to hold it."""
        before = None
        for at, moment in enumerate(self.moments):
            number = moment.numbers[i]
            if moment.running[i] and number != before:
                yield f'<circle cx="{self.x(i):g}" cy="{self.y(at):g}" r="8" class="record" fill="{colour(number)}"/>'
                yield text(self.x(i), self.y(at) + 4, str(number), "number", "middle")
            before = number if moment.running[i] else before

    def flight(self, flight):
        """A packet's way: an arrow to where it is taken, a cross where it is lost, an open end where it is under way."""
        start, toward = self.x(flight.sender), self.x(flight.to)
        side = 1 if toward > start else -1
        kind, stroke = flight.kind, colour(flight.number)
        if flight.end == "not put":
            end = start + side * self.apart * 0.4
            yield line(start + side * 9, self.y(flight.put), end, self.y(flight.put), kind, stroke) + cross(end, self.y(flight.put), stroke)
            return
        reached = flight.left[0] if flight.left else flight.ended
        if flight.end == "under way" and not flight.left:
            yield line(start + side * 9, self.y(flight.put), (start + toward) / 2, self.height - MARGIN, kind, stroke, 'marker-end="url(#open)"')
            return
        end = toward - side * (9 if flight.end == "taken" else 14)
        yield line(start + side * 9, self.y(flight.put), end, self.y(reached), kind, stroke, f'marker-end="url(#{"tip" if flight.end == "taken" else "open"})"')
        if flight.left:
            yield line(end, self.y(reached), end, self.y(len(self.moments) - 1 if flight.ended is None else flight.ended), "waiting", stroke)
        if flight.end == "vanished":
            yield cross(end, self.y(flight.ended), stroke)

    def marks(self):
        for at, moment in enumerate(self.moments):
            for i, kind, words in moment.marks:
                if kind == "halt":
                    yield cross(self.x(i), self.y(at), HALTED)
                if kind == "takeover":
                    yield f'<circle cx="{self.x(i):g}" cy="{self.y(at):g}" r="11" class="takeover"/>'
                if kind == "note":
                    yield box(self.x(i) - 5, self.y(at) - 5, 10, 10, "note")
                if not self.close:
                    yield boxed(self.x(i) + 15, self.y(at) + 4, words, "mark")

    def legend(self):
        """What the strokes mean."""
        y, below = 22, 44
        for x, kind in ((MARGIN, "message"), (MARGIN + 116, "acknowledgement")):
            yield line(x, y, x + 34, y, kind, colour(1), 'marker-end="url(#tip)"') + text(x + 42, y + 4, kind, "small")
        for number in range(3):
            x = MARGIN + 276 + 76 * number
            yield line(x, y, x + 14, y, "life", colour(number)) + text(x + 20, y + 4, f"record {number}", "small")
        yield cross(MARGIN + 8, below, HALTED) + text(MARGIN + 20, below + 4, "halts, or a packet to a halted one", "small")
        yield f'<circle cx="{MARGIN + 226}" cy="{below}" r="9" class="takeover"/>' + text(MARGIN + 242, below + 4, "takes over", "small")
        yield box(MARGIN + 320, below - 7, 20, 14, "rest") + text(MARGIN + 346, below + 4, "at rest", "small")
        yield box(MARGIN + 402, below - 5, 10, 10, "note") + text(MARGIN + 418, below + 4, "notes a halt", "small")
        yield text(MARGIN, below + 24, table_words(self.bank), "dispatched")

    def parts(self):
        columns = range(len(self.bank.columns))
        yield from self.rests()
        yield from self.legend()
        yield from self.heads()
        yield from self.guides()
        yield from self.texts()
        for i in columns:
            yield from self.life(i)
        for flight in self.bank.flights:
            yield from self.flight(flight)
        for i in columns:
            yield from self.records(i)
        yield from self.marks()
        yield from self.heads_again()


STYLE = """
text { font: 12px sans-serif; fill: #202124; } .small { font-size: 11px; fill: #5f6368; } .head { font-weight: bold; }
.step { font-family: monospace; } .dispatched { font: 11px monospace; fill: #5f6368; } .refused { fill: #c5221f; }
.mark { font-size: 11px; } .behind { fill: white; } .again { fill: white; stroke: #9aa0a6; } .guide { stroke-width: 1; stroke-dasharray: 1 3; }
.note { fill: white; stroke: #202124; stroke-width: 1.5; } .number { font-size: 10px; fill: white; font-weight: bold; }
.life { stroke-width: 5; } .halted { stroke-width: 1.5; stroke-dasharray: 2 4; } .cross { stroke-width: 2.5; }
.message { stroke-width: 2; } .acknowledgement { stroke-width: 1.5; stroke-dasharray: 6 3; } .waiting { stroke-width: 1.5; stroke-dasharray: 1 3; }
.record { stroke: white; stroke-width: 1.5; } .takeover { fill: none; stroke: #202124; stroke-width: 2; } .rest { fill: #e6f4ea; }
"""

ENDS = """
<marker id="tip" viewBox="0 0 10 10" refX="9" refY="5" markerWidth="9" markerHeight="9" markerUnits="userSpaceOnUse" orient="auto"><path d="M0 0L10 5L0 10z" fill="context-stroke"/></marker>
<marker id="open" viewBox="0 0 10 10" refX="5" refY="5" markerWidth="8" markerHeight="8" markerUnits="userSpaceOnUse" orient="auto"><circle cx="5" cy="5" r="4" fill="white" stroke="#5f6368" stroke-width="2"/></marker>
"""


def drawn(bank):
    """The picture of a recorded run, as SVG."""
    picture = Picture(bank)
    size = f'width="{picture.width}" height="{picture.height}" viewBox="0 0 {picture.width} {picture.height}"'
    body = "\n".join(picture.parts())
    return (f'<svg xmlns="http://www.w3.org/2000/svg" {size}>\n<title>The run of a script</title>\n<style>{STYLE}</style>\n<defs>{ENDS}</defs>\n'
            f'<rect width="100%" height="100%" fill="white"/>\n{body}\n</svg>\n')


def main():
    words = parser(__doc__)
    words.add_argument("script", metavar="SCRIPT", help="the file of a script whose table is accepted")
    words.add_argument("program", metavar="PROGRAM", nargs="?", default=recorded.PROGRAM, help="another program than ./lockers that answers a script")
    asked = words.parse_args()
    try:
        with open(asked.script, "rb") as file:
            data = file.read()
        sys.stdout.write(drawn(recorded.recorded(data, recorded.answers_of(asked.program, asked.script))))
    except OSError as error:
        sys.exit(f"picture: cannot read {asked.script}: {error.strerror}")
    except recorded.Unfit as unfit:
        sys.exit(f"picture: {unfit}")


if __name__ == "__main__":
    main()
