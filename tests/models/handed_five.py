"""The bank of crates/handed_test/src/five.rt, whose root is not its lowest column and whose columns differ, on the models: what a line of the program must say
of a return or a write in it, and wrong returns, each an edit of tools/model that some line must tell from the program."""
import model
from models import model_pages

ROOT, PARENTS = 2, [2, 2, 2, 1, 0]
# Who sent a column its record, the number and the doors, the mask and what is pending.
HELD = [(3, 7, 70, 16, 6), (2, 6, 60, 17, 2), (4, 9, 90, 18, 4), (0, 8, 80, 19, 7), (1, 5, 50, 20, 8)]
ALWAYS_HALTED = {0, 3}
SETS = ("send", "awaited", "owed", "noted")

COPIED = "self.columns[running[0]]"
RECORD = "column.number, column.doors = copied.number, copied.doors"
MADE = "Column(not root.running, running[0])"
NOTED = "column.noted = {i for i, other in enumerate(self.columns) if not other.running}"
STRUCK = "        for other in self.columns:\n            other.noted.discard(j)\n"
# A name, the text that the model has once, and the one in its place.
WRONG_RETURNS = [
    *((f"the record is {words}", COPIED, copied) for words, copied in (
        ("the root's", "self.columns[self.root]"), ("column 0's", "self.columns[0]"), ("what it was", "self.columns[j]"),
        ("the highest running column's", "self.columns[running[-1]]"),
        ("the highest", "max((self.columns[i] for i in running), key=lambda held: held.number)"),
        ("the lowest", "min((self.columns[i] for i in running), key=lambda held: held.number)"))),
    ("the doors are what they were", RECORD, "column.number, column.doors = copied.number, old.doors"),
    ("the number is what it was", RECORD, "column.number, column.doors = old.number, copied.doors"),
    *((f"the sender is {words}", MADE, f"Column(not root.running, {sender})") for words, sender in (
        ("the root", "self.root"), ("who it was", "old.sender"), ("who sent to the one copied", "copied.sender"), ("the highest running column", "running[-1]"))),
    *((f"the goal is {words}", MADE, f"Column({goal}, running[0])") for words, goal in (
        ("its subtree", "False"), ("the whole bank", "True"), ("what it was", "old.whole"), ("that of the one copied", "copied.whole"))),
    *((f"{name} is what it was", NOTED, f"{NOTED}\n        column.{name} = old.{name}") for name in SETS),
    ("the one copied hands on whom it noted", NOTED, "column.noted = set(copied.noted)"),
    ("nobody is noted", NOTED, "pass"),
    ("the root alone strikes it", STRUCK, "        root.noted.discard(j)\n"),
    ("the one copied alone strikes it", STRUCK, "        copied.noted.discard(j)\n"),
    ("halted columns keep it noted", STRUCK, "        for other in self.columns:\n            other.noted -= {j} if other.running else set()\n"),
]


def with_pages(columns, root, up, watch):
    return model_pages.Bank(columns, root, up, watch, lambda words: None)


def without_pages(module):
    """Makes banks of a model, or of an edit of it, that knows no pages."""
    return lambda columns, root, up, watch: module.Bank(columns, root, up, list(range(16)), watch, lambda words: None)


def five(name, make=with_pages):
    """The bank in which a line's step is taken, as the line's name tells of the root and of whom columns watch."""
    halted = ALWAYS_HALTED | ({ROOT} if name.startswith("root 2 is halted") else set())
    bank = make(len(HELD), ROOT, PARENTS, "sender" if name.endswith("senders watched") else "root")
    for i, column in enumerate(bank.columns):
        column.sender, column.number, doors = HELD[i][:3]
        column.doors = doors.to_bytes(8, "little")
        column.running, column.noted = i not in halted, halted - {i}
        column.whole = i in (ROOT, 4 if ROOT in halted else 1)
    zero, one = bank.columns[:2]
    zero.send, zero.awaited, zero.owed, zero.noted = {1}, {2}, {1}, {3}
    one.awaited, one.noted = {2}, halted | {4}
    bank.columns[3].noted = {0}
    bank.masks, bank.pending = [row[3] for row in HELD], [row[4] for row in HELD]
    return bank


def shown(bank, i):
    """Column i in the words of a line."""
    column = bank.columns[i]
    sets = " ".join(f"{name} {{{','.join(map(str, sorted(getattr(column, name))))}}}" for name in SETS)
    return (f"column {i} {'runs' if column.running else 'halted'} number {column.number} doors {int.from_bytes(column.doors, 'little')} {sets} "
            f"{'whole' if column.whole else 'own'} sender {column.sender} mask {bank.masks[i]} pending {bank.pending[i]}")


def said(bank, step, numbers):
    """What a line says of the step: the answer, the columns that are rewritten, and of a return every column, of a write the one that it names."""
    before = [shown(bank, i) for i in range(len(HELD))]
    try:
        getattr(bank, step)(*numbers)
    except model.Refused as refusal:
        return f"refused {refusal.number}, unchanged"
    after = [shown(bank, i) for i in range(len(HELD))]
    rewritten = ",".join(str(i) for i in range(len(HELD)) if before[i] != after[i])
    rest = [*after, "words kept"] if step == "back" else ["count 0", after[numbers[0]]]
    return ", ".join([f"ok, changed, rewritten {{{rewritten}}}", *rest])
