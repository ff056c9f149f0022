"""The run of a script, step by step, for whoever draws it: what the program answers, and beside it what happens in the bank as the model follows it.
Where an answer does not fit, there is no run to draw."""
import os
import subprocess

import model
from repository import ROOT

PROGRAM = os.path.join(ROOT, "lockers")


class Unfit(Exception):
    """An answer of the program that does not fit the run."""


class Flight:
    """A packet from where it was put to where it ends: `taken`, `vanished` with the halt of its receiver, `not put` to a halted one, or `under way`."""

    def __init__(self, packet, put):
        self.packet = packet
        self.kind, self.sender, self.to, self.number, _ = packet
        self.put, self.left, self.end, self.ended = put, [], "under way", None

    def stop(self, end, moment):
        self.end, self.ended = end, moment


class Moment:
    """A step: its text, the program's answer, what it does in words and the column that acts, marks at columns, and after it which columns run, what number each holds, and
    whether the bank rests."""

    def __init__(self, text, dispatched):
        self.text, self.dispatched = text, dispatched
        self.answer, self.marks = "", []
        self.does, self.actor = "", None
        self.running, self.numbers, self.rests = [], [], False

    def close(self, bank):
        self.running = [column.running for column in bank.columns]
        self.numbers = [column.number for column in bank.columns]
        self.rests = bank.at_rest()


class Bank(model.Bank):
    """A bank that keeps what happens in it."""

    def __init__(self, *given):
        super().__init__(*given)
        self.moments, self.flights = [], []
        self.begin("table")

    def begin(self, text, dispatched=False):
        self.moments.append(Moment(text, dispatched))
        self.moments[-1].close(self)

    def now(self):
        return len(self.moments) - 1

    def mark(self, column, kind, words=""):
        self.moments[-1].marks.append((column, kind, words))
        self.tell_does(column, words)

    def tell_does(self, column, words):
        self.moments[-1].actor, self.moments[-1].does = column, words

    def flight(self, packet):
        return next(flight for flight in self.flights if flight.packet is packet)

    def put(self, packet):
        under_way = len(self.network)
        super().put(packet)
        flight = Flight(packet, self.now())
        self.flights.append(flight)
        if not self.moments[-1].does:
            self.tell_does(flight.sender, f"{flight.kind} to {flight.to}")
        if len(self.network) == under_way:
            flight.stop("not put", self.now())

    def take(self, place):
        packet = self.network[place] if place < len(self.network) else None
        if packet:
            self.tell_does(packet[2], f"{packet[1]} to {packet[2]}: {packet[0]} {packet[3]}")
        super().take(place)
        flight = self.flight(packet)
        if any(kept is packet for kept in self.network):
            flight.left.append(self.now())
        else:
            flight.stop("taken", self.now())

    def send(self, i):
        served = self.earliest(self.columns[i].send) if i < len(self.columns) and self.columns[i].send else None
        super().send(i)
        if served == i:
            self.mark(i, "send", "itself")
        elif served in self.columns[i].noted:
            self.mark(i, "send", f"children of {served}")

    def halt(self, *columns):
        before = self.network
        super().halt(*columns)
        for packet in before:
            if packet[2] in columns:
                self.flight(packet).stop("vanished", self.now())
        for i in {*columns}:
            self.mark(i, "halt", "halts")

    def order(self, doors):
        super().order(doors)
        self.mark(self.root, "order", f"order {self.columns[self.root].number}")

    def all(self, i):
        super().all(i)
        self.mark(i, "takeover", "takes over")

    def note(self, i, j):
        super().note(i, j)
        self.mark(i, "note", f"notes {j}")

    def back(self, j):
        super().back(j)
        self.mark(j, "back", "comes back")

    def offers(self):
        """A step that a turn takes is a moment of its own, which has its text."""
        for step, numbers in super().offers():
            self.moments[-1].text = f"{step}={','.join(map(str, numbers))}"
            yield step, numbers

    def turn(self):
        self.begin("", dispatched=True)
        taken = super().turn()
        if taken:
            self.moments[-1].close(self)
        else:
            self.moments.pop()
        return taken


def answers_of(program, script):
    """What the program prints for a script."""
    done = subprocess.run([program, script], capture_output=True, text=True)
    if done.returncode:
        raise Unfit(done.stderr.strip() or f"{program} ended with status {done.returncode}")
    return done.stdout


class Answers:
    """The program's answers, one line of the script after the other."""

    def __init__(self, text):
        self.text = text

    def next(self, expected, line):
        if not self.text.startswith(expected):
            raise Unfit(f"{line}: the program answers {self.text[:40]!r}, where the run has {expected!r}")
        self.text = self.text[len(expected):]
        return " ".join(expected.split())


def recorded(data, answers):
    """The bank after a script, with its moments and flights."""
    told = Answers(answers)
    text = data.decode("latin-1")
    try:
        bank, steps = model.table(text, lambda words: None, Bank)
    except model.Refused as refusal:
        raise Unfit(f"the table is refused with {refusal.number}") from None
    bank.moments[0].answer = told.next("table=ok\n", "table")
    *lines, last = steps.split("\n")
    for line in lines:
        bank.begin(line)
        step = bank.moments[-1]
        step.answer = told.next(model.line(bank, line), line)
        if step is bank.moments[-1]:
            step.close(bank)
    if last:
        bank.begin(last)
        bank.moments[-1].answer = told.next("refused=13\n", last)
    bank.begin("end")
    bank.moments[-1].answer = told.next("rest=yes\n" if bank.at_rest() else "rest=no\n", "end")
    if told.text:
        raise Unfit(f"the program answers {told.text[:40]!r} after the end")
    return bank
