"""The comparison of two journals that were pulled, after Point 11 of document 02. `tell` is given in words what a comparison met."""
import re

import model
from model import HIGHEST

LIMIT = 32768
HEAD = re.compile(rb"column=(0|[1-9][0-9]?)")
LINE = re.compile(rb"(sent|got)=([12]),(0|[1-9][0-9]?),(0|[1-9][0-9]{0,9})")


class Journal:
    """The owner of a journal, its lines, and which lines it has."""

    def __init__(self, text):
        model.refuse(19, len(text) > LIMIT and "too long")
        model.refuse(19, not text.endswith(b"\n") and "unended")
        first, *lines = text.split(b"\n")[:-1]
        head = HEAD.fullmatch(first)
        model.refuse(19, not head and "no owner")
        self.owner = int(head.group(1))
        model.refuse(19, self.owner > 15 and "no such owner")
        self.lines = [self.line(text) for text in lines]
        self.known = set(self.lines)

    def line(self, text):
        found = LINE.fullmatch(text)
        model.refuse(19, not found and "another form")
        way, kind, other, number = found.group(1).decode(), *(int(found.group(place)) for place in (2, 3, 4))
        model.refuse(19, other > 15 and "no such column")
        model.refuse(19, other == self.owner and "about its owner")
        model.refuse(19, number > HIGHEST and "too high a number")
        return way, kind, other, number

    def unheard(self, other):
        return any(way == "got" and about == other.owner and ("sent", kind, self.owner, number) not in other.known
                   for way, kind, about, number in self.lines)

    def missing(self, other):
        return [(way, kind, about, number) for way, kind, about, number in self.lines
                if way == "sent" and about == other.owner and ("got", kind, self.owner, number) not in other.known]


def compare(first, second, tell=lambda words: None):
    """What the comparison of two journals prints."""
    try:
        one, two = Journal(first), Journal(second)
        model.refuse(19, one.owner == two.owner and "one owner")
        model.refuse(20, any(len(journal.known) < len(journal.lines) for journal in (one, two)) and "the same line twice")
        model.refuse(21, (one.unheard(two) or two.unheard(one)) and "got and not sent")
    except model.Refused as refusal:
        tell(f"refused {refusal}")
        return f"refused={refusal.number}\n".encode()
    missing = one.missing(two) + two.missing(one)
    tell("both miss" if one.missing(two) and two.missing(one) else "one misses" if missing else "nothing is missing")
    return "".join(f"{way}={kind},{other},{number}\n" for way, kind, other, number in missing).encode()
