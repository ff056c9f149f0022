"""A script in the making: each line is done on the model's bank, and the next is chosen by what the bank holds and by what the model told."""
import collections
import copy
import re

import model

# Which packet is taken next: the one whose key is least.
TAKING = {
    "oldest": lambda place, packet: place,
    "newest": lambda place, packet: -place,
    "lower numbers": lambda place, packet: packet[3],
    "higher numbers": lambda place, packet: -packet[3],
    "messages": lambda place, packet: packet[0] == "acknowledgement",
    "acknowledgements": lambda place, packet: packet[0] == "message",
}
# How a script ends: at the last moment at which steps of one kind alone were left, where nobody runs, anywhere, or at rest.
ENDS = ["take", "send", "ack", "ack", "all", "all", "note", "note", "anywhere", "nobody", "rest", "rest", "rest"]


# ---- what a bank holds

def asked(bank, noted):
    """Each step that refuses with 6 and the numbers that it can be asked with, notes of the columns in `noted` alone."""
    columns = range(len(bank.columns))
    return [(step, (i,)) for i in columns for step in ("send", "ack", "all")] + [("note", (i, j)) for i in columns for j in noted]


def refused(bank, step, numbers):
    """For which condition, if any."""
    return "halted" if not bank.columns[numbers[0]].running else getattr(bank, f"refused_{step}")(*numbers)


def written(step, numbers):
    return f"{step}={','.join(map(str, numbers))}"


def moves(bank):
    """The lines that would be accepted, but for orders, halts and returns."""
    halted = [j for j, column in enumerate(bank.columns) if not column.running]
    lines = [written(step, numbers) for step, numbers in asked(bank, halted) if not refused(bank, step, numbers)]
    return lines + [f"take={place}" for place in range(len(bank.network))]


def refusals(bank):
    """Lines that would be refused, by step and condition."""
    lines = collections.defaultdict(list)
    for step, numbers in asked(bank, range(len(bank.columns))):
        lines[step, refused(bank, step, numbers) or "not"].append(written(step, numbers))
    running, halted = ([i for i, column in enumerate(bank.columns) if column.running is runs] for runs in (True, False))
    lines["halt"] = [f"halt={i}" for i in halted]
    lines["halt, a later one halted"] = [f"halt={i},{j}" for i in running for j in halted]
    lines["halt, a later one not below columns"] = [f"halt={i},{len(bank.columns)}" for i in running + halted]
    lines["take"] = [f"take={len(bank.network)}"]
    lines["back, one that runs"] = [f"back={i}" for i in running]
    lines["back, the root"] = [f"back={bank.root}"] * (bank.root in halted)
    lines["back, no rest"] = [f"back={i}" for i in halted if i != bank.root] * (not bank.at_rest())
    lines["back, nobody runs"] = [f"back={i}" for i in halted if i != bank.root] * (not running)
    return [group for key, group in lines.items() if group and "not" not in key]


def root_idle(bank):
    return not bank.columns[bank.root].send and not bank.columns[bank.root].awaited


def holding(bank, name):
    """The members of a set that some running column holds."""
    return set().union(*(getattr(column, name) for column in bank.columns if column.running))


def between(bank):
    """The columns that are awaited by one and owed by another."""
    return holding(bank, "awaited") & holding(bank, "owed") - {bank.root}


def decisive(bank):
    """Sets of columns whose halt leads to a branch. The rarer: whom a left take serves next, who sent a lower number, who sent an acknowledgement
    that counts, who is between. The others: whom a packet is for, who is awaited, who is to be sent to."""
    packets = [(kind, sender, bank.columns[to], number) for kind, sender, to, number, _ in bank.network]
    return [{min(to.owed) for kind, _, to, number in packets if kind == "message" and number > to.number and to.owed},
            {sender for kind, sender, to, number in packets if kind == "message" and number < to.number},
            {sender for kind, sender, to, number in packets if kind == "acknowledgement" and number == to.number},
            between(bank)], [{packet[2] for packet in bank.network}, holding(bank, "awaited"), holding(bank, "send")]


def torn(bank):
    """Whether a running column may both send and acknowledge, or send and note: which it does first is the dispatcher's matter."""
    halted = {j for j, column in enumerate(bank.columns) if not column.running}
    return any(column.running and column.send and (column.owed and not bank.refused_ack(i) or halted - column.noted)
               for i, column in enumerate(bank.columns))


def nothing(line):
    """For whoever holds no line back."""


class Script:
    """A table and lines."""

    def __init__(self, rng, table):
        self.rng, self.table, self.lines, self.told = rng, table, [], []
        self.bank, _ = model.table(table, self.told.append)
        self.taking = rng.choice(list(TAKING.values()))

    def do(self, line):
        self.lines.append(line)
        self.told.clear()
        model.line(self.bank, line)

    def running(self):
        """The columns that run, but for the root, in any order."""
        columns = [i for i, column in enumerate(self.bank.columns) if column.running and i != self.bank.root]
        return self.rng.sample(columns, len(columns))

    # ---- lines

    def order(self):
        self.do(f"order={self.rng.randbytes(8).hex()}")

    def send_all(self, i):
        while self.bank.columns[i].send:
            self.do(f"send={i}")

    def show_wait(self, i, j):
        """j halts, and what i does next shows whether it waited for it."""
        self.do(f"halt={j}")
        self.do(f"note={i},{j}")
        self.send_all(i)
        self.do(f"send={i}")

    def step(self, line):
        """An accepted line, and now and then lines that show its effect where nothing else would: that of a left take, of a message to a halted
        column, of one received, or of an acknowledgement to a column that has taken over, which acknowledges whether it waits or not."""
        place = int(line.split("=")[1].split(",")[0])
        _, sender, to, *_ = self.bank.network[place] if line.startswith("take") else ("", 0, place)
        self.do(line)
        told, draw = self.told[0], self.rng.random()
        if told.startswith("left take") and draw < 0.7:
            self.do(f"take={len(self.bank.network)}")
            self.step(f"take={len(self.bank.network) - 1}")
        elif told == "send to a halted column, not noted" and draw < 0.7 or told.startswith("received") and draw < 0.05:
            self.do(f"{self.rng.choice(['send', 'ack', 'all'])}={to}")
        elif told.startswith("acknowledgement") and to != self.bank.root and self.bank.columns[to].whole and draw < (0.7 if "lower" in told else 0.1):
            self.show_wait(to, sender)

    def move(self, held=nothing):
        """Whether there was an accepted step that is not held back; one is done."""
        lines = [line for line in moves(self.bank) if not held(line)]
        if lines:
            self.step(self.rng.choice(lines))
        return bool(lines)

    def take(self):
        """The packet that is wanted first is taken."""
        keys = [(self.taking(place, packet), self.rng.random(), place) for place, packet in enumerate(self.bank.network)]
        self.step(f"take={min(keys)[2]}")

    def take_equal(self, columns):
        """Every message by which one of the columns will owe somebody more."""
        equal = lambda kind, sender, to, number, doors: kind == "message" and number == self.bank.columns[to].number and to in columns
        while any(equal(*packet) for packet in self.bank.network):
            self.do(f"take={[equal(*packet) for packet in self.bank.network].index(True)}")

    def halt(self):
        """A column other than the root halts where it matters, and now and then the others note it at once."""
        running = self.running()
        rarer, others = ([columns & set(running) for columns in sets if columns & set(running)] for sets in decisive(self.bank))
        halting = sorted(self.rng.choice(rarer or others or [running]))
        if halting:
            strip = self.strip(self.rng.choice(halting))
            self.do(f"halt={','.join(map(str, strip))}")
            self.do(f"take={len(self.bank.network)}")
            if self.rng.random() < 0.15:
                self.dispatch()
            for other in self.running() * (self.rng.random() < 0.5):
                for i in set(strip):
                    self.do(f"note={other},{i}")

    def strip(self, i):
        """Columns that halt with i, mostly none; some are named twice, and some so often that there are more numerals than columns."""
        others = self.running()[:self.rng.randint(1, 2)] if self.rng.random() < 0.25 else []
        named = self.rng.choice([[i] + others, others + [i]])
        return named * self.rng.choice([1, 1, 1, 2] + [17] * (self.rng.random() < 0.3))

    def dispatch(self):
        """A run that ends at its limit, at rest, or at both."""
        steps = int(re.match("steps=([0-9]+)", copy.deepcopy(self.bank).run(9999))[1])
        self.do(f"run={self.rng.choice([0, 1, steps // 2, max(steps - 1, 0), steps, steps + 1, 9999])}")

    def back(self):
        """A halted column comes back, where the bank is at rest and has one other than the root."""
        halted = [i for i, column in enumerate(self.bank.columns) if not column.running and i != self.bank.root]
        if halted:
            self.do(f"back={self.rng.choice(halted)}")

    def rest_and_back(self, most):
        """The bank is brought to rest, and some columns come back, one now and then to halt again and to come back once more."""
        self.until(model.Bank.at_rest)
        for _ in range(self.rng.randint(1, most)):
            self.back()
            if self.rng.random() < 0.3:
                self.halt()
                self.until(model.Bank.at_rest)

    def tempt(self):
        """A refused line, each condition as often as the others that can be met; or an order or a list, which may be."""
        groups = refusals(self.bank) + [[f"order={self.rng.randbytes(8).hex()}"], [f"list={i}" for i in range(len(self.bank.columns))]]
        self.do(self.rng.choice(self.rng.choice(groups)))

    # ---- phases

    def walk(self, length, halts=0.0, orders=0.0):
        """Accepted steps, with halts, orders and refused lines between them."""
        for _ in range(length):
            draw = self.rng.random()
            if draw < halts:
                self.halt()
            elif draw < halts + orders:
                self.order()
            elif draw < halts + orders + 0.15:
                self.tempt()
            elif draw < halts + orders + (0.2 if torn(self.bank) else 0.17):
                self.dispatch()
            elif self.bank.network and self.rng.random() < 0.5:
                self.take()
            else:
                self.move()

    def until(self, reached, held=nothing):
        """Accepted steps until it is so, or until the rest are held back."""
        while not reached(self.bank) and self.move(held):
            pass

    def take_over(self):
        """The root halts, and the others note it and take over where they may."""
        self.do(f"halt={self.bank.root}")
        for i in self.running():
            if self.rng.random() < 0.2:
                self.do(f"all={i}")
            self.do(f"note={i},{self.bank.root}")
            self.do(f"all={i}")
            if self.rng.random() < 0.8:
                self.send_all(i)
            elif torn(self.bank) and self.rng.random() < 0.3:
                self.dispatch()

    def finish(self, end=None):
        """The script up to its end, and a list of everyone."""
        end = end or self.rng.choice(ENDS)
        if end == "all":
            self.do(f"halt={self.bank.root}")
        elif end == "note":
            self.halt()
        elif end in ("take", "send", "ack"):
            self.order()
        elif end == "rest":
            self.dispatch()
        size = self.rng.randint(0, len(self.lines)) if end == "anywhere" else None
        while end not in ("anywhere", "nobody") and (self.move(lambda line: line.startswith(end)) or self.move()):
            if {line.split("=")[0] for line in moves(self.bank)} == {end}:
                size = len(self.lines)
        columns = range(len(self.bank.columns))
        last = [f"halt={i}" for i in self.rng.sample(columns, len(columns))] if end == "nobody" else []
        last = [f"halt={','.join(map(str, columns))}"] if last and self.rng.random() < 0.3 else last
        return (self.table + "".join(f"{line}\n" for line in self.lines[:size] + [f"list={i}" for i in columns] + last)).encode("latin-1")
