"""How many halts lose the order, after document 02, Point 13, written from the papers over the bank of tools/model. `tell` is given in words which way each
input went. The methods of `Losses` are what the papers say; others make wrong programs."""
import copy
import itertools
import re

from model import LIMIT, Refused, refuse, table


def silent(words):
    pass


class Losses:
    limit = LIMIT
    most = 8
    steps = r"after=(0|[1-9][0-9]{0,2})\n"

    def __init__(self, tell=silent):
        self.tell = tell

    # ---- "give order 1 with clear doors to a fresh bank and dispatch that many steps or to rest"

    def begin(self, bank, steps):
        bank.order(bytes(8))
        taken = 0
        while taken < steps and self.turn(bank):
            taken += 1
        self.tell("begun to rest" if bank.at_rest() else "begun")
        return bank

    def turn(self, bank):
        return bank.turn()

    # ---- "for every set of columns, halt the set and dispatch to rest"

    def sets(self, columns):
        return itertools.chain.from_iterable(itertools.combinations(range(columns), size) for size in range(columns + 1))

    def end(self, bank, halted):
        if halted:
            if any(packet[2] in halted for packet in bank.network):
                self.tell("a packet to the set vanishes")
            if any(packet[1] in halted for packet in bank.network):
                self.tell("a packet from the set is under way")
            bank.halt(*halted)
        while bank.turn():
            pass
        assert bank.at_rest() and bank.agrees()
        return bank

    def fate(self, bank):
        """The record with which a set ends, or none where no column runs."""
        return next((str(column.number) for column in bank.columns if column.running), "none")

    def ends(self, bank):
        """The fates of all sets, each halted in the same bank."""
        return [self.fate(self.end(copied(bank), halted)) for halted in self.sets(len(bank.columns))]

    def counts(self, bank, steps):
        fates = self.ends(self.begin(bank, steps))
        kept, lost, none = (fates.count(fate) for fate in ("1", "0", "none"))
        self.tell("kept, whatever halts" if not lost else "lost where any other column runs" if not kept else "kept and lost")
        return f"kept={kept}\nlost={lost}\nnone={none}\n"

    # ---- the program

    def read(self, rest):
        """The step count of what follows the table: 'another form being 13'"""
        found = re.fullmatch(self.steps, rest)
        refuse(13, not found and "another form")
        return int(found.group(1))

    def check(self, bank):
        """'23 for more than 8 columns or for watch=sender'"""
        refuse(23, len(bank.columns) > self.most and "more than 8 columns")
        refuse(23, bank.watch == "sender" and "watch=sender")

    def asked(self, data):
        refuse(13, len(data) > self.limit and "past the limit")
        bank, rest = table(data.decode("latin-1"), silent)
        self.check(bank)
        return bank, self.read(rest)

    def answer(self, data):
        """What the program prints."""
        try:
            text = self.counts(*self.asked(data))
            self.tell("answered")
            return text
        except Refused as refusal:
            self.tell(f"refused {refusal}")
            return f"refused={refusal.number}\n"


def copied(bank):
    other = copy.copy(bank)
    other.columns = [copy.copy(column) for column in bank.columns]
    for column in other.columns:
        column.send, column.awaited, column.owed, column.noted = set(column.send), set(column.awaited), set(column.owed), set(column.noted)
    other.network, other.received, other.awaits, other.taken_over = list(bank.network), list(bank.received), set(bank.awaits), set(bank.taken_over)
    other.tell = silent
    return other
