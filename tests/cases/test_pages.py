"""The register pages beside the model of tests/models/model_pages.py: random steps, reads and writes, led by the model's state."""
import collections
import random
import unittest

from generators import trees
from helpers import refusals
from helpers.counting import seldom
from models import model_pages
from wrong_models.pages_mutants import WRONG

SEEDS = (1, 2, 3)
RUNS = 120
COMMANDS = 250
# A command is a letter and as many numbers of a byte; those that are not told are 0.
NUMBERS = 4
# In some runs all columns halt before the last commands.
LAST = 10
LEAST = 5
TOLD = ["bit 0 by an order", "bit 0 by a take", "bit 1 by a note", "bit 2 by a takeover", "bit 0 by an order, pending before", "bit 0 by a take, pending before",
        "bit 1 by a note, pending before", "a return with its page kept", "a read of a running column", "a read of a halted column",
        "a write to 5 of a running column", "a write to 5 of a halted column", "a write to 7 of a running column", "a write to 7 of a halted column",
        "a clear of what is pending", "a clear of nothing", "the line up", "the line down", "equal number", "lower number answered", "left take, one owed",
        "run takes note", "run takes take", "refused 4: no such column", "refused 22: an offset above 7", "refused 22: an offset above 255",
        "refused 22: a write above 7", "refused 22: a write above 255", "refused 22: a write elsewhere",
        "refused 14: not at rest", "refused 15: the root", "refused 16: no column runs"]


def watched_tree(rng):
    """A tree of any size, with whom its columns watch."""
    columns = rng.choice((1, 2, 3, 3, 4, 4, 5, 6, 8, 16))
    up, root = trees.random_tree(rng, columns)
    return columns, root, up, rng.choice(("root", "sender"))


def steps(rng, bank):
    """The steps that the model would accept, most of them; a halt and a return now and then."""
    columns = range(len(bank.columns))
    running = [i for i in columns if bank.columns[i].running]
    found = [("t", rng.randrange(len(bank.network)))] * 8 if bank.network else []
    for i in running:
        found += [(letter, i) for letter, refused in (("s", bank.refused_send), ("s", bank.refused_send), ("s", bank.refused_send),
                                                      ("a", bank.refused_ack), ("g", bank.refused_all)) if not refused(i)]
        found += [("n", i, j) for j in columns if not bank.refused_note(i, j)] * (4 if i == bank.root else 1)
    root = bank.columns[bank.root]
    if root.running and not root.send and not root.awaited:
        found += [("o", rng.randrange(256))] * 20
    if len(running) > 1 and rng.random() < 0.02:
        found = [("h", *(1 << rng.choice([i for i in running if i != bank.root or rng.random() < 0.3] or running)).to_bytes(2, "little"))]
    if len(running) < len(columns) and (bank.at_rest() or rng.random() < 0.03):
        found += [("b", i) for i in columns if i not in running]
    return found or [("d", 1)]


def page_command(rng, bank):
    i = rng.randrange(len(bank.columns)) if rng.random() < 0.95 else rng.randrange(256)
    letter = rng.choice("ppprwww")
    offset = rng.choice((5, 7, 7, rng.randrange(8))) if letter == "w" else rng.randrange(8)
    if rng.random() < 0.3:
        offset = rng.choice((offset + 256, rng.randrange(256), rng.randrange(256, 301), rng.randrange(65536)))
    return letter, i, *offset.to_bytes(2, "little"), rng.choice((0, 1, 2, 4, 7, 255, rng.randrange(256)))


def random_command(rng, bank):
    choice = rng.random()
    if choice < 0.35:
        return page_command(rng, bank)
    if choice < 0.37:
        return "d", rng.randrange(20)
    if choice < 0.4:
        return rng.choice("ostagnhb"), rng.randrange(20), rng.randrange(20)
    return rng.choice(steps(rng, bank))


# A chain of three whose middle column halts: the last one still owes it when the next order comes, and leaves that packet in its place.
CHAIN = (3, 0, [0, 0, 1])
LEFT = [("o", 1), ("s", 0), ("t", 0), ("s", 1), ("t", 0), ("h", 2), ("n", 0, 1), ("s", 0), ("w", 2, 7, 0, 1), ("t", 0), ("p", 2), ("a", 2), ("t", 0),
        ("o", 2), ("s", 0), ("s", 0), ("w", 2, 7, 0, 1), ("t", 0), ("p", 2)]
# A root that halts when the first of its two children has the second order: the other takes over, and sends it the first again, which is lower.
STAR = (3, 0, [0, 0, 0])
LOWER = [("o", 1), ("s", 0), ("s", 0), ("t", 0), ("t", 0), ("a", 1), ("a", 2), ("t", 0), ("t", 0), ("o", 2), ("s", 0), ("t", 0), ("h", 1), ("n", 2, 0), ("g", 2),
         ("s", 2), ("s", 2), ("t", 0), ("p", 1)]
SCENES = [(CHAIN, LEFT), (STAR, LOWER)]


def led(rng, bank, given):
    """The commands given, with reads and writes between them."""
    for command in given:
        while rng.random() < 0.4:
            yield page_command(rng, bank)
        yield command


def head(columns, root, up, watch):
    return bytes([columns, root, watch == "sender", *up, *[0] * (16 - columns)])


def random_run(rng, tell):
    """A tree and its commands, with what the model answers to each."""
    scene, lines = rng.choice(SCENES) if rng.random() < 0.3 else (None, [])
    tree = (*scene, rng.choice(("root", "sender"))) if scene else watched_tree(rng)
    bank = model_pages.Bank(*tree, tell)
    given = led(rng, bank, lines)
    commands, answers, ending = [], ["ok\n"], rng.random() < 0.2
    while len(commands) < COMMANDS:
        letter, *numbers = next(given, None) or random_command(rng, bank)
        if ending and len(commands) == COMMANDS - LAST:
            letter, numbers = "h", [*sum(1 << i for i, column in enumerate(bank.columns) if column.running).to_bytes(2, "little")]
        commands.append((letter, *numbers, *[0] * (NUMBERS - len(numbers))))
        answers.append(model_pages.answer(bank, *commands[-1]))
    return tree, commands, answers


def printed(tree, commands):
    return answered(head(*tree) + b"".join(bytes([ord(letter), *numbers]) for letter, *numbers in commands))


def answered(data):
    return refusals.answered("pages_test", data)


def differs(wrong, tree, commands, answers):
    bank = wrong(*tree, lambda words: None)
    return any(model_pages.answer(bank, *command) != answer for command, answer in zip(commands, answers[1:]))


class Pages(unittest.TestCase):
    def test_random_commands_print_what_the_model_prints(self):
        for seed in SEEDS:
            rng = random.Random(seed)
            told = collections.Counter()
            apart = set()
            for _ in range(RUNS):
                tree, commands, answers = random_run(rng, lambda words: told.update([words]))
                self.assertEqual(printed(tree, commands), "".join(answers), (seed, tree))
                apart |= {wrong for wrong in WRONG if wrong not in apart and differs(wrong, tree, commands, answers)}
            few = seldom(told, TOLD, LEAST)
            self.assertEqual(few, {})
            self.assertEqual([wrong.__name__ for wrong in WRONG if wrong not in apart], [])
            print(f"seed {seed}: {RUNS} runs of {COMMANDS} commands, 0 differences, {len(TOLD)} counters, {len(WRONG)} wrong pages told apart")

    def test_trees_that_are_refused(self):
        for bytes_in, number in ((b"", 2), (bytes([17]), 2), (bytes([3, 3]), 3)):
            self.assertEqual(answered(bytes_in + bytes(19 - len(bytes_in)) + b"r" + bytes(NUMBERS)), f"refused={number}\n" * 2)
