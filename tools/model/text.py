"""The text of a script, by patterns: its table, its lines, and what is printed for them."""
import re

from model.bank import Bank
from model.steps import Refused, refuse

LIMIT = 65536
NUMERAL = r"(0|[1-9][0-9]?)"
NUMERALS = "({0}(?:,{0})*)".format(NUMERAL.replace("(", "(?:"))
STEPS = {"order": r"order=([0-9a-f]{16})", "take": r"take=(0|[1-9][0-9]{0,2})", "note": rf"note={NUMERAL},{NUMERAL}", "halt": f"halt={NUMERALS}",
         "run": r"run=(0|[1-9][0-9]{0,3})",
         **{name: f"{name}={NUMERAL}" for name in ("send", "ack", "all", "back", "list")}}


def numbers(text):
    return [int(numeral) for numeral in text.split(",")]


def sequence(text):
    """The numbers of the line that begins `first=`, where a text begins with it, and what follows it."""
    if not text.startswith("first="):
        return None, text
    found = re.match(rf"first={NUMERALS}\n", text)
    refuse(1, not found and "another form of the sequence")
    return numbers(found.group(1)), text[found.end():]


def watch(text):
    """Whom the line that begins `watch=` names, where a text begins with it, and what follows it."""
    if not text.startswith("watch="):
        return None, text
    found = re.match(r"watch=(root|sender)\n", text)
    refuse(1, not found and "another form of the watch")
    return found.group(1), text[found.end():]


def table(text, tell, made=Bank):
    """The bank of a table at the start of a text, and what follows it."""
    found = re.match(rf"columns={NUMERAL}\nroot={NUMERAL}\nup={NUMERALS}\n", text)
    refuse(1, not found and "another form")
    columns, root = int(found.group(1)), int(found.group(2))
    up = numbers(found.group(3))
    first, rest = sequence(text[found.end():])
    watched, rest = watch(rest)
    refuse(2, columns == 0 and "no column")
    refuse(2, columns > 16 and "more than 16 columns")
    refuse(3, root >= columns and "root not below columns")
    refuse(3, any(parent >= columns for parent in up) and "parent not below columns")
    refuse(3, len(up) != columns and "another length")
    refuse(3, up[root] != root and "root not its own parent")
    for c in range(columns):
        for _ in range(columns):
            c = up[c]
        refuse(3, c != root and "a climb that misses the root")
    named = "without a sequence" if first is None else "with a sequence"
    first = list(range(columns)) if first is None else first
    refuse(3, len(first) != columns and "a sequence of another length")
    refuse(3, any(c >= columns for c in first) and "a sequence that exceeds a column")
    refuse(3, len({*first}) < columns and "a sequence that repeats a column")
    tell(f"table {named}")
    tell("table without a watch" if watched is None else f"table with watch={watched}")
    return made(columns, root, up, first, watched or "root", tell), rest


def line(bank, text):
    """What a line prints."""
    name = text.split("=")[0]
    found = name in STEPS and re.fullmatch(STEPS[name], text)
    if not found:
        bank.tell("line refused 13: no such form")
        return "refused=13\n"
    try:
        asked = [bytes.fromhex(found.group(1))] if name == "order" else numbers(",".join(found.groups()))
        printed = getattr(bank, name)(*asked) or "step=ok\n"
        bank.tell(f"{name} accepted")
        return printed
    except Refused as refusal:
        bank.tell(f"{name} refused {refusal}")
        return f"refused={refusal.number}\n"


def run(data, tell, made=Bank):
    """The texts that the program prints for the bytes of a script, each with the bank after it, if there is one."""
    try:
        refuse(13, len(data) > LIMIT and "past the limit")
        bank, rest = table(data.decode("latin-1"), tell, made)
    except Refused as refusal:
        tell(f"input refused {refusal}")
        yield f"refused={refusal.number}\n", None
        return
    yield "table=ok\n", bank
    *lines, last = rest.split("\n")
    for text in lines:
        yield line(bank, text), bank
    if last:
        tell("line refused 13: unended")
        yield "refused=13\n", bank
    yield "rest=yes\n" if bank.at_rest() else "rest=no\n", bank


def script(data):
    """All that the program prints for the bytes of a script."""
    return "".join(printed for printed, _ in run(data, lambda words: None))
