"""The dispatch that `turn_order` of agreement/examples/TurnRuns computes, taken by the model: any other order of a turn's steps leads to another list."""
import itertools
import re
import unittest

import model
from repository import read

# "for running columns from 0 up, note (lowest j first), send, ack, all; if no column has any, the oldest packet is taken": the kinds of steps, and
# whether the lowest is noted first, columns come from 0 up, each with all its steps, the packet comes last, and is the oldest.
KINDS = ("note", "send", "ack", "all")
PAPER = (KINDS, True, True, True, True, True)
ORDERS = [(kinds, *chosen) for kinds in itertools.permutations(KINDS) for chosen in itertools.product((True, False), repeat=5)]


class Bank(model.Bank):
    """A bank that offers a turn's steps in another order, and keeps the last one that it offered."""

    def __init__(self, order):
        # columns=4, root=0, up=0,0,1,1, as in the example
        super().__init__(4, 0, [0, 0, 1, 1], list(range(16)), "root", lambda words: None)
        self.kinds, self.lowest_first, self.from_0_up, self.by_column, self.packet_last, self.oldest = order

    def steps_of(self, i, kind):
        columns = range(len(self.columns))
        return [(kind, (i, j)) for j in (columns if self.lowest_first else reversed(columns))] if kind == "note" else [(kind, (i,))]

    def offers(self):
        running = [i for i, column in enumerate(self.columns) if column.running]
        columns = running if self.from_0_up else running[::-1]
        pairs = [(i, kind) for i in columns for kind in self.kinds] if self.by_column else [(i, kind) for kind in self.kinds for i in columns]
        steps = [step for pair in pairs for step in self.steps_of(*pair)]
        packet = [("take", (0 if self.oldest else max(len(self.network) - 1, 0),))]
        for step, numbers in steps + packet if self.packet_last else packet + steps:
            self.offered = (step, *numbers)
            yield step, numbers


def computed():
    """The steps that lead to the example's bank, and those of its dispatch, as the example has them."""
    lists = re.findall(r"(?:[A-Z][a-z]+ [\d ]+ ∷ )+\[\]", read("crates", "agreement", "specs", "examples", "TurnRuns.antt"))
    return [[(step.lower(), *map(int, numbers.split())) for step, numbers in re.findall(r"([A-Z][a-z]+) ([\d ]+) ∷", text)] for text in lists]


BEGUN, TAKEN = computed()


def perform(bank, step, *numbers):
    """A step as the definitions have it: doors are a number, and so is a set of columns."""
    if step == "order":
        bank.order(numbers[0].to_bytes(8, "little"))
    elif step == "halt":
        bank.halt(*(i for i in range(16) if numbers[0] >> i & 1))
    else:
        getattr(bank, step)(*numbers)


def taken(order):
    """The steps that a dispatch takes in this order, to rest."""
    bank, steps = Bank(order), []
    for step in BEGUN:
        perform(bank, *step)
    while bank.turn():
        steps.append(bank.offered)
    return steps


class Turns(unittest.TestCase):
    def test_the_dispatch_is_the_one_that_is_computed(self):
        self.assertEqual((len(BEGUN), len(TAKEN)), (9, 14))
        self.assertEqual(taken(PAPER), TAKEN)

    def test_every_other_order_takes_other_steps(self):
        self.assertEqual(len(ORDERS), 768)
        self.assertEqual([order for order in ORDERS if taken(order) == TAKEN], [PAPER])
