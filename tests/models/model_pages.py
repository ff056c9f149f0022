"""The register pages of document 02, Point 12, written from the paper on the bank of tools/model: masks and what is pending are beside the columns."""
import model

RECORD_RECEIVED, HALT_NOTED, TOOK_OVER = 1, 2, 4
MASK, CLEAR = 5, 7


class Bank(model.Bank):
    """A bank with a page for each column."""

    def __init__(self, columns, root, up, watch, tell):
        super().__init__(columns, root, up, list(range(16)), watch, tell)
        self.masks = [0] * columns
        self.pending = [0] * columns

    def raised(self, i, bit, words):
        self.tell(f"{words}, pending before" if self.pending[i] & bit else words)
        self.pending[i] |= bit

    def order(self, doors):
        super().order(doors)
        self.raised(self.root, RECORD_RECEIVED, "bit 0 by an order")

    def receive(self, sender, to, number, doors):
        super().receive(sender, to, number, doors)
        self.raised(to, RECORD_RECEIVED, "bit 0 by a take")

    def note(self, i, j):
        super().note(i, j)
        self.raised(i, HALT_NOTED, "bit 1 by a note")

    def all(self, i):
        super().all(i)
        self.raised(i, TOOK_OVER, "bit 2 by a takeover")

    def back(self, j):
        super().back(j)
        if self.masks[j] or self.pending[j]:
            self.tell("a return with its page kept")

    def page(self, i):
        column = self.columns[i]
        return [i, column.running + 2 * column.whole, len(column.send), len(column.awaited), len(column.owed), self.masks[i], self.pending[i], 0]

    def read(self, i, offset):
        model.refuse(4, i >= len(self.columns) and "no such column")
        model.refuse(22, offset > 7 and ("an offset above 255" if offset > 255 else "an offset above 7"))
        self.tell("a read of a running column" if self.columns[i].running else "a read of a halted column")
        return self.page(i)[offset]

    def write(self, i, offset, value):
        model.refuse(4, i >= len(self.columns) and "no such column")
        model.refuse(22, offset > 7 and ("a write above 255" if offset > 255 else "a write above 7"))
        model.refuse(22, offset not in (MASK, CLEAR) and "a write elsewhere")
        self.tell(f"a write to {offset} of a {'running' if self.columns[i].running else 'halted'} column")
        if offset == MASK:
            self.masks[i] = value
        else:
            self.tell("a clear of what is pending" if self.pending[i] & value else "a clear of nothing")
            self.pending[i] &= ~value

    def line_up(self, i):
        up = self.masks[i] & self.pending[i] != 0
        self.tell("the line up" if up else "the line down")
        return up


def number(low, high):
    return low + 256 * high


def obeyed(bank, letter, x, y, z, value):
    """What a command prints. Offsets are numbers of two bytes, and so are doors, sets, places and limits; a write alone has a value."""
    if letter == "p":
        shown = [f"byte={bank.read(x, offset)}\n" for offset in range(8)]
        return "".join(shown) + ("line=up\n" if bank.line_up(x) else "line=down\n")
    if letter == "r":
        return f"byte={bank.read(x, number(y, z))}\n"
    if letter == "d":
        return "ok\n" + bank.run(number(x, y)).splitlines()[0] + "\n"
    if letter == "o":
        bank.order(number(x, y).to_bytes(8, "little"))
    elif letter == "h":
        members = [i for i in range(16) if number(x, y) >> i & 1]
        if members:
            bank.halt(*members)
    elif letter == "t":
        bank.take(number(x, y))
    elif letter == "n":
        bank.note(x, y)
    elif letter in "sagb":
        {"s": bank.send, "a": bank.ack, "g": bank.all, "b": bank.back}[letter](x)
    else:
        bank.write(x, number(y, z), value)
    return "ok\n"


def answer(bank, letter, x, y, z, value):
    """The same, or the refusal: of a page, at each of its bytes and at its line."""
    try:
        return obeyed(bank, letter, x, y, z, value)
    except model.Refused as refusal:
        bank.tell(f"refused {refusal}")
        return f"refused={refusal.number}\n" * (9 if letter == "p" else 1)
