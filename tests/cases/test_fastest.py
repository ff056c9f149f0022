"""The program of crates/fastest_main beside the model of tests/models/model_fastest.py, formula 4.1 and every tree and schedule of few columns."""
import collections
import functools
import itertools
import random
import unittest

from generators import marks
from helpers import refusals
from helpers.counting import seldom
from helpers.programs import run_script
from models import model_fastest
from wrong_models import fastest_mutants

SMALL = range(1, 9)
COLUMNS = range(1, 17)
SEEDS = (1, 2, 3)
REQUESTS = 1000
LEAST = 10
TOLD = ["answered", "a tie", "no tie",
        *(f"refused {words}" for words in ("1: another form", "2: no column", "2: more than 16 columns", "17: no delay", "17: no gap", "17: delay above 255",
                                           "17: gap above 255"))]


def request(columns, delay, gap):
    return f"columns={columns}\ndelay={delay}\ngap={gap}\n".encode()


@functools.lru_cache(maxsize=None)
def answer(data):
    return refusals.answered("fastest_main", data)


# ---- apart from the strategy: trees and schedules tried one by one

@functools.lru_cache(maxsize=None)
def forests(columns):
    """Every ordered forest of so many columns: a tree is the forest of its root's children."""
    if columns == 0:
        return [()]
    return [(first,) + rest for size in range(columns) for first in forests(size) for rest in forests(columns - 1 - size)]


@functools.lru_cache(maxsize=None)
def completion(children, delay, gap):
    """When a tree is complete in which each column sends to its children in turn, none later than it must."""
    return max((place * gap + delay + completion(child, delay, gap) for place, child in enumerate(children)), default=0)


def most_by(time, columns, delay, gap):
    """How many columns can have the message by a time, at most so many, whoever sends to whom and however long each waits: the sends as they follow
    each other, each with its sender and its time."""
    def most(arrival, sent, last):
        if len(arrival) == columns:
            return columns
        found = len(arrival)
        for sender, now in itertools.product(range(len(arrival)), range(last, time - delay + 1)):
            if now >= arrival[sender] and all(now - before >= gap for before in sent[sender]):
                more = sent[:sender] + [sent[sender] + [now]] + sent[sender + 1:] + [[]]
                found = max(found, most(arrival + [now + delay], more, now))
        return found
    return most([0], [[]], 0)


# ---- random requests

def numbers(rng):
    """Columns, delay and gap that are answered, small or not, often equal; or one of them, or all, at an edge."""
    most = rng.choice((9, 9, 255))
    delay = rng.randint(1, most)
    within = [rng.randint(1, 16), delay, delay if rng.random() < 0.3 else rng.randint(1, most)]
    edges = [rng.choice((0, 16, 17, 99)), rng.choice((0, 255, 256, 999)), rng.choice((0, 255, 256, 999))]
    at_edge = rng.choice(([], [], [], [], [0], [1], [2], [0, 1, 2]))
    return [edges[place] if place in at_edge else within[place] for place in range(3)]


def whole(rng, data):
    return data


def doubled(rng, data):
    at = rng.randrange(len(data))
    return data[:at] + data[at:at + 1] + data[at:]


def changed(rng, data):
    return marks.changed(rng, data, b"0123456789=,\n\r\0acdeglmnopsuy")


def zero_led(rng, data):
    lines = data.split(b"=")
    at = rng.randrange(1, len(lines))
    return b"=".join(lines[:at] + [b"0" + lines[at]] + lines[at + 1:])


def longer_numeral(rng, data):
    return rng.choice((request(rng.randrange(100, 1000), 2, 1), request(5, rng.randrange(1000, 10000), 1), request(5, 2, rng.randrange(1000, 10000))))


def exchanged(rng, data):
    lines = data.splitlines(keepends=True)
    a, b = rng.sample(range(3), 2)
    lines[a], lines[b] = lines[b], lines[a]
    return b"".join(lines)


def unended(rng, data):
    return data[:-1]


def capital(rng, data):
    """One letter, or all of them."""
    at = rng.choice([at for at, byte in enumerate(data) if chr(byte).isalpha()])
    return data.upper() if rng.random() < 0.3 else data[:at] + data[at:at + 1].upper() + data[at + 1:]


def followed(rng, data):
    return data + rng.choice((b"\n", b"0", b"\0", b"first=0\n", b"order=0102000000000000\n", bytes(70_000)))


DAMAGES = (marks.dropped, doubled, changed, zero_led, longer_numeral, exchanged, unended, marks.returned, marks.spaced_around, marks.spaced_within, capital, followed)

ASKED = TOLD + [damage.__name__ for damage in DAMAGES]


def random_request(rng):
    """What was done to a request, and the request."""
    damage = whole if rng.random() < 0.7 else rng.choice(DAMAGES)
    return damage.__name__, damage(rng, request(*numbers(rng)))


class Fastest(unittest.TestCase):
    def test_the_example_of_document_02(self):
        self.assertEqual(answer(request(5, 2, 1)), "columns=5\nroot=0\nup=0,0,0,0,1\n")
        self.assertEqual(model_fastest.Strategy().broadcast(5, 2, 1)[1][-1], 4)

    def test_every_small_request_is_answered_as_the_model_answers_it(self):
        strategy = model_fastest.Strategy()
        for data in itertools.starmap(request, itertools.product(COLUMNS, SMALL, SMALL)):
            self.assertEqual(answer(data), strategy.answer(data), data)

    def test_no_tree_of_few_columns_completes_earlier(self):
        for columns, delay, gap in itertools.product(range(1, 10), SMALL, SMALL):
            complete = model_fastest.Strategy().broadcast(columns, delay, gap)[1][-1]
            self.assertEqual(complete, min(completion(tree, delay, gap) for tree in forests(columns - 1)), (columns, delay, gap))

    def test_no_schedule_of_few_columns_completes_earlier(self):
        for columns, delay, gap in itertools.product(range(2, 6), range(1, 4), range(1, 4)):
            complete = model_fastest.Strategy().broadcast(columns, delay, gap)[1][-1]
            self.assertEqual(most_by(complete, columns, delay, gap), columns)
            self.assertLess(most_by(complete - 1, columns, delay, gap), columns, (columns, delay, gap))

    def test_as_many_arrive_as_the_formula_says(self):
        for columns, delay, gap in itertools.product(COLUMNS, SMALL, SMALL):
            arrival = model_fastest.Strategy().broadcast(columns, delay, gap)[1]
            before = [model_fastest.received(delay, gap, time) for time in range(arrival[-1])]
            self.assertEqual([arrival.count(time) for time in range(arrival[-1])], before, (columns, delay, gap))
            self.assertEqual(arrival.count(arrival[-1]), columns - sum(before))
            self.assertLessEqual(arrival.count(arrival[-1]), model_fastest.received(delay, gap, arrival[-1]))

    def test_the_limits(self):
        edges = (0, 1, 255, 256, 999, 1000)
        for data in itertools.starmap(request, itertools.product((0, 1, 16, 17, 99, 100), edges, edges)):
            self.assertEqual(answer(data), model_fastest.Strategy().answer(data), data)
        self.assertEqual(answer(request(1, 255, 255)), "columns=1\nroot=0\nup=0\n")
        self.assertEqual(model_fastest.Strategy().broadcast(16, 255, 255)[1][-1], 1020)

    def test_random_requests_are_answered_as_the_model_answers_them(self):
        for seed in SEEDS:
            rng = random.Random(seed)
            made = [random_request(rng) for _ in range(REQUESTS)]
            met = collections.Counter()
            strategy = model_fastest.Strategy(tell=lambda words: met.update([words]))
            for damage, data in made:
                self.assertEqual(answer(data), strategy.answer(data), data[:80])
                met[damage] += 1
            self.assertEqual(seldom(met, ASKED, LEAST), {}, f"seed {seed}")
            for name, wrong in fastest_mutants.WRONG.items():
                self.assertTrue(any(wrong.answer(data) != answer(data) for _, data in made), f"seed {seed}: {name}")

    def test_every_table_brings_an_order_to_rest(self):
        tables = {answer(request(*asked)): asked[0] for asked in itertools.product(COLUMNS, SMALL, SMALL)}
        self.assertGreater(len(tables), 100)
        for table, columns in tables.items():
            lists = "".join(f"list={column}\n" for column in range(columns))
            printed = run_script(f"{table}order=0102000000000000\nrun=9999\n{lists}".encode()).decode().splitlines()
            self.assertEqual((printed[:2], printed[3], printed[-1]), (["table=ok", "step=ok"], "step=ok", "rest=yes"), table)
            self.assertEqual(printed[4:-1], [line for column in range(columns) for line in (f"column={column}", "number=1", "occupied=2", "doors=1,10")], table)
