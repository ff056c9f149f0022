"""The program of crates/journals_main beside the model of tests/models/model_journals.py: journals of random runs, pulled at random moments, whole and damaged."""
import collections
import itertools
import os
import random
import subprocess
import tempfile
import unittest

import model
import script_journals
from generators import marks
from helpers import refusals
from helpers.counting import seldom
from journals import BUCKETS, full
from models import model_journals
from repository import ROOT, built
from wrong_models import journals_mutants

PROGRAM = built("journals_main")
SEEDS = (1, 2, 3)
PAIRS = 1200
LEAST = 5
TOLD = ["both miss", "one misses", "nothing is missing",
        *(f"refused {words}" for words in ("19: too long", "19: unended", "19: no owner", "19: no such owner", "19: another form", "19: no such column",
                                           "19: about its owner", "19: too high a number", "19: one owner", "20: the same line twice",
                                           "21: got and not sent"))]
MORE_MISSING, MANY_LINES = "more is missing than a journal holds", f"more than {journals_mutants.MANY:,} lines"
# Two numbers so far apart are neighbours, or have what a wrong comparison may take for the number: the lower 16 or 31 bits, the remainder of a word.
APART = {1: "numbers one apart", 2 ** 16: "numbers 2^16 apart", 2 ** 31: "numbers 2^31 apart", BUCKETS: "numbers of one remainder"}


def answer(one, two):
    with tempfile.TemporaryDirectory() as folder:
        paths = [os.path.join(folder, name) for name in ("one", "two")]
        for path, text in zip(paths, (one, two)):
            with open(path, "wb") as file:
                file.write(text)
        printed = subprocess.run([PROGRAM, *paths], capture_output=True, check=True).stdout
    refusals.count("journals_main", printed.decode())
    return printed


# ---- journals of a run

def bank_of(rng):
    columns = rng.randint(2, 6)
    root = rng.randrange(columns)
    order = [root] + rng.sample([c for c in range(columns) if c != root], columns - 1)
    up = {root: root, **{c: rng.choice(order[:place]) for place, c in enumerate(order) if place}}
    parents = ",".join(str(up[c]) for c in range(columns))
    return script_journals.fresh(f"columns={columns}\nroot={root}\nup={parents}\nwatch={rng.choice(('root', 'sender'))}\n")


def step(rng, bank, slow):
    running = [i for i, column in enumerate(bank.columns) if column.running]
    steps = [("send", i) for i in running if bank.columns[i].send] + [("ack", i) for i in running if bank.columns[i].owed]
    steps += [("take", place) for place in range(len(bank.network)) if not slow or rng.random() < 0.3] + [("all", i) for i in running]
    steps += [("note", i, j) for i in running for j in range(len(bank.columns)) if not bank.columns[j].running]
    if rng.random() < 0.2:
        steps = [("order", bytes(8))]
    if len(running) > 1 and rng.random() < 0.03:
        steps = [("halt", rng.choice(running))]
    name, *numbers = rng.choice(steps or [("order", bytes(8))])
    try:
        getattr(bank, name)(*numbers)
    except model.Refused:
        pass


def pulled(rng):
    """The journals of two columns of a bank at one moment."""
    bank, slow = bank_of(rng), rng.random() < 0.5
    for _ in range(rng.randint(5, 120)):
        step(rng, bank, slow)
    pairs = list(itertools.permutations(range(len(bank.columns)), 2))
    under_way = {(packet[1], packet[2]) for packet in bank.network}
    both = [(one, two) for one, two in pairs if {(one, two), (two, one)} <= under_way]
    one, two = rng.choice(both or [pair for pair in pairs if pair in under_way] or pairs if rng.random() < 0.6 else pairs)
    return bank.journal(one), bank.journal(two)


# ---- damage

def lines_of(text):
    return text.split(b"\n")[:-1]


def joined(lines):
    return b"".join(line + b"\n" for line in lines)


def dropped(rng, text):
    lines = lines_of(text)
    del lines[rng.randrange(len(lines))]
    return joined(lines)


def doubled(rng, text):
    lines = lines_of(text)
    return joined(lines[:1] + rng.sample(lines[1:], len(lines) - 1) + ([rng.choice(lines[1:])] if lines[1:] else lines))


def swapped(rng, text):
    lines = lines_of(text)
    return joined(lines[:1] + rng.sample(lines[1:], len(lines) - 1))


def digit_changed(rng, text):
    places = [place for place, byte in enumerate(text) if 48 <= byte <= 57]
    at = rng.choice(places)
    return text[:at] + str(rng.randrange(10)).encode() + text[at + 1:]


def numbered(rng, text):
    number = rng.choice((4294967295, 4294967296, 9999999999, 10000000000, 0))
    return text + f"sent={rng.choice((1, 2, 2, 3))},{rng.randrange(16)},{number}\n".encode()


def elsewhere(rng, text):
    return text + f"{rng.choice(('sent', 'got'))}={rng.randint(1, 2)},{rng.choice((16, 17, 99))},1\n".encode()


def about_owner(rng, text):
    return text + b"got=1," + lines_of(text)[0][7:] + b",1\n"


def unended(rng, text):
    return text[:-1]


def headed(rng, text):
    return rng.choice((b"column=16\n", b"column=01\n", b"", b"column=\n")) + joined(lines_of(text)[1:])


def long(rng, text):
    """A journal at the limit, or one byte past it."""
    length = rng.choice((model_journals.LIMIT, model_journals.LIMIT + 1))
    lines = [b"column=15"] + [b"sent=1,%d,%d" % (rng.choice((14, 14, 0)), 100000 + place) for place in range(2000)]
    room = length - len(joined(lines))
    while room < 10:
        room += len(lines.pop()) + 1
    while room >= 36:
        lines.append(b"sent=2,9,%d" % (200000 + len(lines)))
        room -= len(lines[-1]) + 1
    while room > 19:
        lines.append(b"got=1,9,%d" % (len(lines) % 10))
        room -= len(lines[-1]) + 1
    lines.append(b"got=1,8," + b"1" * (room - 9))
    return joined(lines)


def signed(rng, text):
    return marks.put(rng, text, b"+", [at for at, byte in enumerate(text) if 48 <= byte <= 57 and text[at - 1] in b"=,"])


def blank_ended(rng, text):
    return text + b"\n"


def whole(rng, text):
    return text


DAMAGE = [whole, whole, dropped, doubled, swapped, digit_changed, digit_changed, numbered, numbered, elsewhere, about_owner, unended, headed, headed, long,
          marks.returned, marks.spaced_around, marks.spaced_within, signed, signed, blank_ended]
ASKED = {*TOLD, *APART.values(), MORE_MISSING, MANY_LINES, *(damage.__name__ for damage in DAMAGE)}


def damaged(rng, text, tell):
    damage = rng.choice(DAMAGE)
    tell(damage.__name__)
    return damage(rng, text)


# ---- journals of their own making

def dense(rng, tell):
    """Journals with two numbers, in which nearly every got was sent, so that most lines have one that is nearly the same."""
    one, two, third = rng.sample(range(16), 3)
    apart, lower = rng.choice(list(APART)), rng.choice((1, rng.randrange(2 ** 31 - 1)))
    tell(APART[apart])
    packets = list(itertools.product((1, 2), (lower, lower + apart)))
    sent = {way: [packet for packet in packets if rng.random() < 0.6] for way in ((one, two), (two, one), (one, third), (two, third))}
    got = {(there, here): [packet for packet in each if rng.random() < 0.6] for (here, there), each in sent.items()}
    if rng.random() < 0.3:
        other = rng.choice((two, two, third))
        unsent = [packet for packet in packets if packet not in sent.get((other, one), [])]
        got.setdefault((one, other), []).append(rng.choice(unsent or [(1, lower + apart + 1)]))
    journals = []
    for here in (one, two):
        lines = [b"%s=%d,%d,%d" % (way, kind, there, number) for way, packets in ((b"sent", sent), (b"got", got))
                 for (owner, there), each in packets.items() if owner == here for kind, number in each]
        if lines and rng.random() < 0.1:
            lines.append(rng.choice(lines))
        journals.append(joined([b"column=%d" % here] + rng.sample(lines, len(lines))))
    return journals


def nothing_got(rng):
    """Full journals in which each sent to the other and got nothing."""
    one, two = rng.sample(range(16), 2)
    numbers = rng.sample(range(10 ** 9, model_journals.HIGHEST + 1), 2000)
    return [full(here, (f"sent={rng.randint(1, 2)},{there},{number}" for number in numbers)).encode() for here, there in ((one, two), (two, one))]


def shortest_lines(rng):
    """Full journals of the shortest lines that there are, of which neither owner got one from the other."""
    one, two = rng.sample(range(16), 2)
    journals = []
    for here, there in ((one, two), (two, one)):
        lines = [f"{way}={kind},{other},{number}" for way, kind, other, number in itertools.product(("sent", "got"), (1, 2), range(16), range(100))
                 if other != here and (way, other) != ("got", there)]
        journals.append(full(here, sorted(rng.sample(lines, len(lines)), key=len)).encode())
    return journals


def pair(rng, tell):
    if rng.random() < 0.4:
        return dense(rng, tell)
    one, two = pulled(rng)
    if rng.random() < 0.1:
        two = rng.choice((one, pulled(rng)[1]))
    if rng.random() < 0.04:
        return doubled(rng, one), unended(rng, two)
    if rng.random() < 0.6:
        one = damaged(rng, one, tell)
    if rng.random() < 0.3:
        two = damaged(rng, two, tell)
    return (two, one) if rng.random() < 0.5 else (one, two)


def pairs(rng, tell):
    """Many pairs, and a few long ones, which take their time."""
    yield from (pair(rng, tell) for _ in range(PAIRS))
    yield from (make(rng) for make in (nothing_got, shortest_lines) for _ in range(LEAST))


class Journals(unittest.TestCase):
    def test_random_journals_are_compared_as_the_model_compares_them(self):
        for seed in SEEDS:
            rng = random.Random(seed)
            met = collections.Counter()
            tell = lambda words: met.update([words])
            left = journals_mutants.wrong()
            for one, two in pairs(rng, tell):
                said = answer(one, two)
                self.assertEqual(said, model_journals.compare(one, two, tell), (one[:200], two[:200]))
                met[MORE_MISSING] += len(said) > model_journals.LIMIT
                met[MANY_LINES] += b"refused" not in said and max(len(lines_of(one)[1:]), len(lines_of(two)[1:])) > journals_mutants.MANY
                left = {name: other for name, other in left.items() if other(one, two) == said}
            self.assertEqual({*met}, ASKED)
            self.assertEqual(seldom(met, ASKED, LEAST), {}, f"seed {seed}")
            self.assertEqual(list(left), [], f"seed {seed}: not told from the program")

    def test_journals_of_one_moment_are_never_refused(self):
        rng = random.Random(11)
        for _ in range(300):
            self.assertNotIn(b"refused", answer(*pulled(rng)))

    def test_every_pair_of_refusals_in_its_order(self):
        good, long_one = b"column=2\nsent=1,1,1\n", b"column=1\n" + b"x" * 33000
        nineteen, twenty, twenty_one = b"column=1\nsent=3,2,1\n", b"column=1\nsent=1,2,1\nsent=1,2,1\n", b"column=1\ngot=1,2,5\n"
        for one, two, number in ((nineteen, b"column=2\ngot=1,3,1\ngot=1,3,1\n", 19), (twenty, b"column=2\nsent=1,16,1\n", 19), (twenty_one, b"column=1\n", 19),
                                 (twenty, b"column=2\ngot=1,1,9\n", 20), (twenty_one, b"column=2\ngot=1,3,1\ngot=1,3,1\n", 20), (twenty_one, good, 21),
                                 (good, twenty_one, 21), (long_one, good, 19), (good, b"", 19)):
            self.assertEqual(answer(one, two), b"refused=%d\n" % number, (one, two))

    def test_the_journals_of_the_takeover_lack_nothing(self):
        with tempfile.TemporaryDirectory() as folder:
            subprocess.run(["python3", os.path.join(ROOT, "tools", "script_journals.py"), os.path.join(ROOT, "examples", "taken-over.script"), folder], check=True)
            texts = []
            for i in range(3):
                with open(os.path.join(folder, str(i)), "rb") as file:
                    texts.append(file.read())
        self.assertEqual(texts[0], b"column=0\nsent=1,1,1\n")
        self.assertEqual(answer(texts[0], texts[1]), b"")
        self.assertEqual(answer(texts[1], texts[2]), b"")
