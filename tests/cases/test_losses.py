"""The program of crates/losses_main beside the model of tests/models/model_losses.py."""
import collections
import itertools
import os
import random
import subprocess
import tempfile
import unittest

import model
from generators import marks
from generators.trees import random_tree
from helpers import refusals
from helpers.counting import seldom
from measure import plain
from models import model_losses
from repository import ROOT, read
from wrong_models import losses_mutants

SEEDS = (1, 2, 3)
INPUTS = 500
LARGE = 2
LEAST = 5
TOLD = ["answered", "begun", "begun to rest", "kept, whatever halts", "kept and lost", "a packet to the set vanishes", "a packet from the set is under way",
        *(f"refused {words}" for words in ("1: another form", "2: more than 16 columns", "3: a climb that misses the root", "23: more than 8 columns",
                                           "23: watch=sender", "13: another form", "13: past the limit"))]


def request(up, root, steps, further=""):
    return f"columns={len(up)}\nroot={root}\nup={','.join(map(str, up))}\n{further}after={steps}\n".encode()


def answer(data):
    return refusals.answered("losses_main", data)


def trees(columns):
    """Every root and parents of so many columns that are a tree."""
    for root in range(columns):
        for up in itertools.product(range(columns), repeat=columns):
            try:
                model.table(request(up, root, 0).decode(), model_losses.silent)
                yield up, root
            except model.Refused:
                pass


def to_rest(up, root):
    """How many steps an order takes to rest."""
    bank, _ = model.table(request(up, root, 0).decode(), model_losses.silent)
    bank.order(bytes(8))
    return sum(1 for _ in iter(bank.turn, False))


# ---- random inputs

def random_steps(rng, columns):
    return rng.choice((rng.randrange(4 * columns), rng.randrange(4 * columns), rng.randrange(100), 999))


def sequence(rng, columns):
    return f"first={','.join(map(str, rng.sample(range(columns), columns)))}\n" if rng.random() < 0.4 else ""


def whole(rng, columns):
    up, root = random_tree(rng, columns)
    return request(up, root, random_steps(rng, columns), sequence(rng, columns) + rng.choice(("", "", "watch=root\n")))


def of_many(rng, columns):
    return whole(rng, rng.choice((9, 9, 12, 16, 17, 17, 17)))


def of_senders(rng, columns):
    up, root = random_tree(rng, columns)
    return request(up, root, random_steps(rng, columns), sequence(rng, columns) + "watch=sender\n")


def of_many_and_another_form(rng, columns):
    return of_many(rng, columns)[:-1]


def astray(rng, columns):
    up, root = random_tree(rng, max(columns, 3))
    first, second = [column for column in range(len(up)) if column != root][:2]
    up[first], up[second] = second, first
    return request(up, root, 1)


def dropped(rng, columns):
    return marks.dropped(rng, whole(rng, columns))


def changed(rng, columns):
    return marks.changed(rng, whole(rng, columns), b"0123456789=,\n\r\0aeft")


def other_counts(rng, columns):
    up, root = random_tree(rng, columns)
    return request(up, root, rng.choice(("1000", "9999", "", "-1", "+1", " 1", "1 ", "0x1", "1\r")))


def zero_led(rng, columns):
    up, root = random_tree(rng, columns)
    return request(up, root, f"0{rng.randrange(100)}")


def of_four_digits(rng, columns):
    up, root = random_tree(rng, columns)
    return request(up, root, rng.randrange(1000, 10000))


def followed(rng, columns):
    return whole(rng, columns) + rng.choice((b"\n", b"0", b"\0", b"after=1\n", b"order=0000000000000000\n"))


def at_the_limit(rng, columns):
    """What is refused for its table, though more lines follow it."""
    return rng.choice((of_many, of_senders))(rng, columns).ljust(model.LIMIT, b"\n")


def past_the_limit(rng, columns):
    return at_the_limit(rng, columns) + b"\n"


def unended(rng, columns):
    return whole(rng, columns)[:-1]


def unasked(rng, columns):
    return b"".join(whole(rng, columns).splitlines(keepends=True)[:-1])


OTHERS = (of_many, of_senders, of_many_and_another_form, astray, dropped, changed, other_counts, zero_led, of_four_digits, followed, at_the_limit,
          past_the_limit, unended, unasked)
ASKED = TOLD + [other.__name__ for other in OTHERS]


def random_input(rng):
    """What was made, and the input; most banks are small, so that the model has few sets."""
    make = whole if rng.random() < 0.4 else rng.choice(OTHERS)
    return make.__name__, make(rng, rng.choice((1, 2, 3, 3, 4, 4, 5)))


class Losses(unittest.TestCase):
    def test_every_table_of_few_columns_after_every_step_count(self):
        program = model_losses.Losses()
        tried = 0
        for columns in range(1, 5):
            for up, root in trees(columns):
                most = to_rest(up, root)
                self.assertLessEqual(most, 4 * (columns - 1))
                for steps in range(most + 2):
                    self.assertEqual(answer(request(up, root, steps)), program.answer(request(up, root, steps)), (up, root, steps))
                    tried += 1
        self.assertGreater(tried, 900)

    def test_random_inputs_are_answered_as_the_model_answers_them(self):
        for seed in SEEDS:
            rng = random.Random(seed)
            made = [*(random_input(rng) for _ in range(INPUTS)), ("whole", whole(rng, 8))]
            met = collections.Counter()
            program = model_losses.Losses(tell=lambda words: met.update([words]))
            told = {data: answer(data) for _, data in made}
            for kind, data in made:
                self.assertEqual(told[data], program.answer(data), data)
                met[kind] += 1
            self.assertEqual(seldom(met, ASKED, LEAST), {}, f"seed {seed}")
            quick_first = sorted(told, key=lambda data: ("refused" not in told[data], len(data)))
            for name, wrong in losses_mutants.WRONG.items():
                self.assertTrue(any(wrong().answer(data) != told[data] for data in quick_first), f"seed {seed}: {name}")

    def test_random_tables_of_up_to_eight_columns(self):
        program = model_losses.Losses()
        for seed in SEEDS:
            rng = random.Random(seed)
            for columns in (6, 7, 8):
                for _ in range(LARGE):
                    data = whole(rng, columns)
                    self.assertEqual(answer(data), program.answer(data), data)

    def test_the_counts_add_to_every_set_and_one_has_nobody(self):
        for columns in range(1, 9):
            for steps in (0, 1, 5, 12, 999):
                data = request([max(column - 1, 0) for column in range(columns)], 0, steps)
                kept, lost, none = (int(line.split("=")[1]) for line in answer(data).splitlines())
                self.assertEqual((kept + lost + none, none), (2 ** columns, 1), data)

    def test_the_limits(self):
        whole_bank = request([0] * 8, 0, 999)
        self.assertEqual(answer(whole_bank), "kept=255\nlost=0\nnone=1\n")
        self.assertEqual(answer(request([0] * 9, 0, 999)), "refused=23\n")
        self.assertEqual(answer(request([0] * 9, 0, 1000)), "refused=23\n")
        self.assertEqual(answer(request([0] * 8, 0, 1000)), "refused=13\n")
        self.assertEqual(answer(request([0] * 8, 0, 3, "watch=sender\n")), "refused=23\n")
        self.assertEqual(answer(request([0] * 17, 0, 3)), "refused=2\n")
        self.assertEqual(answer(request([0, 2, 1] + [0] * 6, 0, 3)), "refused=3\n")
        self.assertEqual(answer(b""), "refused=1\n")
        self.assertEqual(answer(whole_bank.ljust(model.LIMIT, b"\n")), "refused=13\n")
        self.assertEqual(answer(request([0] * 9, 0, 3).ljust(model.LIMIT, b"\n")), "refused=23\n")
        for longer in (whole_bank.ljust(model.LIMIT + 1, b"\n"), request([0] * 9, 0, 3).ljust(model.LIMIT + 1, b"\n"), bytes(70_000)):
            self.assertEqual(answer(longer), "refused=13\n")

    def test_the_picture_is_what_is_drawn(self):
        with tempfile.TemporaryDirectory() as folder:
            path = os.path.join(folder, "drawn.svg")
            printed = subprocess.run([os.path.join(ROOT, "tools", "losses_picture.py"), path], capture_output=True, text=True, check=True).stdout
            self.assertEqual(read(path), read("docs", "losses.svg"))
        self.assertEqual(printed.count("| 0 | 128 | 127 | 1 |"), 3)
        self.assertEqual(printed.count("| 28 | 255 | 0 | 1 |"), 3)
        self.assertNotIn("| 29 |", printed)

    def test_plain_c_counts_the_same(self):
        rng = random.Random(1)
        for data in [whole(rng, columns) for columns in range(1, 9) for _ in range(20)] + [random_input(rng)[1] for _ in range(200)]:
            self.assertEqual(subprocess.run([plain("losses")], input=data, capture_output=True, check=True).stdout.decode(), answer(data), data)

    def test_a_bank_of_one_column(self):
        self.assertEqual(answer(request([0], 0, 0)), "kept=1\nlost=0\nnone=1\n")
