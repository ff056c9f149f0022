"""Wrong comparisons of journals, each an edit of tests/models/model_journals.py's source: a name, the text that it has once, and the one in its place."""
from generators import marks
from journals import BUCKETS
from models import model_journals
from wrong_models import edited

# A wrong reader has no room for more lines.
MANY = 2000
EDITS = [
    ("a repeated line is looked for between the two columns only", "any(len(journal.known) < len(journal.lines) for journal in (one, two))",
     "any(sum(line[2] == there.owner for line in here.lines) > len({line for line in here.lines if line[2] == there.owner})"
     " for here, there in ((one, two), (two, one)))"),
    ("a got of a third column is tested", "way == \"got\" and about == other.owner and", "way == \"got\" and"),
    ("the second journal's lines first", "missing = one.missing(two) + two.missing(one)", "missing = two.missing(one) + one.missing(two)"),
    ("the newest sending counts as got", "missing = one.missing(two) + two.missing(one)", "missing = (one.missing(two) + two.missing(one))[:-1]"),
    ("kinds are not told apart", "(\"got\", kind, self.owner, number) not in other.known",
     "all((\"got\", either, self.owner, number) not in other.lines for either in (1, 2))"),
    ("20 after 21", "model.refuse(20,", "model.refuse(21, (one.unheard(two) or two.unheard(one)) and \"got and not sent\")\n        model.refuse(20,"),
    ("21 before 19 of the second journal", "one, two = Journal(first), Journal(second)",
     "one = Journal(first)\n        model.refuse(20, len(one.known) < len(one.lines) and \"twice\")\n        two = Journal(second)"),
    ("32,768 bytes are too long", "len(text) > LIMIT", "len(text) >= LIMIT"),
    ("the highest number is none", "number > HIGHEST", "number >= HIGHEST"),
    ("32,769 bytes are read", "len(text) > LIMIT", "len(text) > LIMIT + 1"),
    ("a number above the highest passes", "number > HIGHEST and", "False and"),
    ("an unended line is read", "model.refuse(19, not text.endswith(b\"\\n\") and \"unended\")", "text += b\"\" if text.endswith(b\"\\n\") else b\"\\n\""),
    ("column 16 is an owner", "self.owner > 15", "self.owner > 16"),
    ("an owner may begin with 0", 'rb"column=(0|[1-9][0-9]?)"', 'rb"column=([0-9][0-9]?)"'),
    ("column 16 is another", "other > 15", "other > 16"),
    ("a line about its owner passes", 'model.refuse(19, other == self.owner and "about its owner")', "pass"),
    ("kind 3 passes", "=([12]),", "=([123]),"),
    ("one owner passes", "one.owner == two.owner and", "False and"),
    ("one owner is 20", 'model.refuse(19, one.owner == two.owner and "one owner")', 'model.refuse(20, one.owner == two.owner and "one owner")'),
    ("a repeated line is looked for in the first journal only", "for journal in (one, two)) and", "for journal in (one,)) and"),
    ("a repeated line passes", "any(len(journal.known) < len(journal.lines) for journal in (one, two))", "False"),
    ("what the first journal got is not tested", "(one.unheard(two) or two.unheard(one))", "two.unheard(one)"),
    ("what the second journal got is not tested", "(one.unheard(two) or two.unheard(one))", "one.unheard(two)"),
    ("what was got is listed", 'if way == "sent" and about == other.owner and', "if about == other.owner and"),
    ("what was sent to a third column is listed", 'if way == "sent" and about == other.owner and', 'if way == "sent" and'),
    ("what was got too is listed", 'if way == "sent" and about == other.owner and ("got", kind, self.owner, number) not in other.known]',
     'if way == "sent" and about == other.owner]'),
    ("a number is got by any column's number", '("got", kind, self.owner, number) not in other.known]', "all(line[3] != number for line in other.lines)]"),
    ("what is missing by its number", "missing = one.missing(two) + two.missing(one)",
     "missing = sorted(one.missing(two), key=lambda line: line[3]) + sorted(two.missing(one), key=lambda line: line[3])"),
    ("what the second journal's owner sent is not listed", "missing = one.missing(two) + two.missing(one)", "missing = one.missing(two)"),
    ("what is missing as got", 'f"{way}={kind},{other},{number}\\n" for', 'f"got={kind},{other},{number}\\n" for'),
    ("more than 2,000 lines are refused", "self.lines = [", f'model.refuse(19, len(lines) > {MANY} and "too many lines")\n        self.lines = ['),
    ("what is missing is cut at 32,768 bytes", "for way, kind, other, number in missing).encode()", "for way, kind, other, number in missing).encode()[:LIMIT]"),
]

# Wrong readers: what each strikes from a text before it is divided into lines.
STRUCK = [
    ("CR before a line's end is taken", marks.RETURNS),
    ("spaces where a line begins or ends are taken", marks.SPACES_AROUND),
    ("spaces beside what divides a line's parts are taken", marks.SPACES_WITHIN),
    ("a blank last line is taken", rb"(?m)^\n\Z"),
    ("`+` before any numeral is taken", rb"(?<=[=,])\+"),
    ("`+` before an order's number is taken", rb"(?m)(?<=,)\+(?=[0-9]+$)"),
]


def by_number(modulus):
    """A line with its number modulo another."""
    return lambda line: (*line[:3], line[3] % modulus)


def by_remainder(line):
    """The remainder by which the code finds the word of a line."""
    way, kind, other, number = line
    return ((((way == "got") * 256 + kind) * 256 + other) * 2 ** 32 + number) % BUCKETS


# What lines have in common that are taken for equal, and where they are.
ALIKE = [("with its number modulo 2^16", by_number(2 ** 16)), ("with its number modulo 2^31", by_number(2 ** 31)), ("of its remainder", by_remainder)]
TAKEN = [
    ("a line is there twice if another {} is", "len(journal.known)", "len(set(map(alike, journal.lines)))"),
    ("what was got was sent if a line {} was", '("sent", kind, self.owner, number) not in other.known', 'alike(("sent", kind, self.owner, number)) not in map(alike, other.lines)'),
    ("what was sent was got if a line {} was", '("got", kind, self.owner, number) not in other.known', 'alike(("got", kind, self.owner, number)) not in map(alike, other.lines)'),
]


def wrong():
    """The wrong comparisons by their names."""
    edits = [(name, old, new, {}) for name, old, new in EDITS]
    edits += [(name, "text.split(", 're.sub(struck, b"", text).split(', {"struck": struck}) for name, struck in STRUCK]
    edits += [(name.format(words), old, new, {"alike": alike}) for words, alike in ALIKE for name, old, new in TAKEN]
    return {name: edited.edited(model_journals, name, (old, new), **given).compare for name, old, new, given in edits}
