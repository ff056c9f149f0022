"""What random scripts must meet, each LEAST times on every seed: every step accepted, every condition of a refusal that a script can meet, every
branch of every step, every kind of rest, every form near to an accepted one. The model tells the first three."""
import collections
import re

import model
from generators import script_texts, script_walks

LEAST = 20
REFUSALS = {
    "order": ["5: halted", "7: the root sends", "7: the root awaits", "7: the root owes"],
    "send": ["4: no such column", "5: halted", "6: nobody to send to"],
    "take": ["10: no such place"],
    "ack": ["4: no such column", "5: halted", "6: nobody is owed", "6: own goal, sends", "6: own goal, awaits", "6: the root sends", "6: the root awaits"],
    "all": ["4: no such column", "5: halted", "6: the root", "6: the root is not noted", "6: the sender is not noted", "6: goal whole", "6: sends", "6: awaits"],
    "note": ["4: no such column", "4: no such second column", "5: halted", "6: itself", "6: it runs", "6: noted before"],
    "back": ["4: no such column", "6: it runs", "14: not at rest", "15: the root", "16: no column runs"],
    "halt": ["4: no such column", "4: no such later column", "5: halted", "5: a later one halted"],
    "list": ["4: no such column", "5: halted"],
    "line": ["13: no such form", "13: unended"],
    "input": ["1: another form", "1: another form of the sequence", "1: another form of the watch", "2: no column", "2: more than 16 columns", "3: root not below columns", "3: parent not below columns",
              "3: another length", "3: root not its own parent", "3: a climb that misses the root", "3: a sequence of another length",
              "3: a sequence that exceeds a column", "3: a sequence that repeats a column", "13: past the limit"],
}
# The model knows more words, and they fail the run where it tells them: an acknowledgement of a higher number (it has the number of a message that its
# receiver sent, and numbers rise), 8 (4,294,967,295 orders do not fit into a script), 9 (no network fills, `never_nine` of
# crates/agreement), and a run until a refused step, which only 9 could bring about.
BRANCHES = [
    "table with a sequence", "table without a sequence", "table without a watch", "table with watch=root", "table with watch=sender",
    "takeover, the noted sender the root", "takeover, the noted sender another", "takeover while the root runs", "a message taken by a running root",
    "send to the earliest, not the lowest",
    "ack, the lowest owed not the earliest", "left take, the lowest owed not the earliest",
    "the first order", "a further order after rest", "a further order before rest",
    "send to itself", "send to a noted column, whose children join", "send to a noted column without children", "send to a running column",
    "send to a halted column, not noted",
    "acknowledgement of the number, its sender awaited", "acknowledgement of the number, its sender not awaited",
    "acknowledgement of a lower number, its sender awaited", "acknowledgement of a lower number, its sender not awaited",
    "equal number", "lower number answered", "lower number from a halted sender",
    "left take, one owed", "left take, several owed", "left take, the lowest owed halted", "left take, the root running",
    "received with own goal", "received after a takeover", "received while sending", "received while awaiting",
    "ack with goal whole while busy", "ack with goal whole, idle", "ack with own goal, idle", "ack, the lowest owed halted",
    "takeover, the first of its column", "takeover of a column that took over before",
    "note of an awaited column with children", "note of an awaited column without children", "note of a column to send to",
    "note of a column neither awaited nor to send to",
    "halt of one column", "halt of several columns", "halt with a column named twice", "halt of more than sixteen numerals",
    "halt with packets from it under way", "halt with packets to it under way",
    "return while the root runs", "return while the root is halted", "return, the first of its column", "return of one that came back before",
    "return to a lower number", "return to a higher number", "return while others remain halted", "return of one that was halted at work",
    "an order after a return", "received by one that came back", "takeover of one that came back", "takeover after another came back",
    "list with doors", "list without doors",
    "run at rest", "run to rest", "run to rest at its limit", "run to its limit", "run of no step",
    *(f"run takes {step}" for step in ("note", "send", "ack", "all", "take")),
]
RESTS = ["rest with the root running", "rest with the root halted", "rest with nobody running", "no rest, several steps are left",
         *(f"no rest, only {step} is left" for step in ("take", "send", "ack", "all", "note"))]
# How near the scripts of three columns or more come to the two bounds: of fewer columns a single step is near.
NEAR = [f"{words}, watch={watch}" for words in ("a quarter of the packets that there can be", "a run of a twentieth of the steps that there can be")
        for watch in ("root", "sender")]
FORMS = script_texts.patterns(script_texts.FORMS)
TABLE_FORMS = script_texts.patterns(script_texts.TABLE_FORMS)
WANTED = ([f"{step} accepted" for step in model.STEPS] + [f"{step} refused {words}" for step, conditions in REFUSALS.items() for words in conditions]
          + BRANCHES + RESTS + NEAR + [name for name, _ in FORMS + TABLE_FORMS] + ["input at the limit"])


def rest(bank):
    """Which kind of rest it is, or what is left to do."""
    left = {line.split("=")[0] for line in script_walks.moves(bank)}
    if left:
        return f"no rest, only {left.pop()} is left" if len(left) == 1 else "no rest, several steps are left"
    if bank.columns[bank.root].running:
        return "rest with the root running"
    return "rest with the root halted" if any(column.running for column in bank.columns) else "rest with nobody running"


def step_bound(columns):
    """Below document 02's limit of Point 2, "9 times N squared less 5 times N": `within-2160` of crates/agreement."""
    return 9 * columns * (columns - 1)


def packet_bound(columns):
    """Below document 02's limit of Point 3, "2 times N times (N−1)": `at-435` of crates/agreement."""
    return (columns - 1) * (2 * columns - 3)


def near(columns, number, bound):
    return columns > 2 and number >= bound(columns)


class Counters:
    """What a model met, whether demand 3 held after every line, and whether no line left more packets and no run took more steps than there can be."""

    def __init__(self, module=model):
        self.module = module
        self.met = collections.Counter()
        self.lines = 0
        # The most packets under way at once and the longest run, by the columns of the bank and whom it watches.
        self.most_packets = collections.Counter()
        self.most_steps = collections.Counter()
        self.agreed = self.bounded = True

    def tell(self, words):
        self.met[words] += 1

    def script(self, data):
        """What the model prints for a script."""
        texts, fullest = [], 0
        for text, bank in self.module.run(data, self.tell):
            texts.append(text)
            if bank:
                self.lines += 1
                self.agreed = self.agreed and bank.agrees()
                self.measure(text, (len(bank.columns), bank.watch), len(bank.network))
                fullest = max(fullest, len(bank.network))
        text = data.decode("latin-1")
        if bank:
            self.tell(rest(bank))
            self.met[f"a quarter of the packets that there can be, watch={bank.watch}"] += near(len(bank.columns), fullest * 4, packet_bound)
            self.met.update({name: len(pattern.findall(text)) for name, pattern in FORMS})
        else:
            self.met.update(name for name, pattern in TABLE_FORMS if pattern.search(text))
        self.met["input at the limit"] += len(data) == model.LIMIT
        return "".join(texts)

    def measure(self, text, kind, packets):
        columns, watch = kind
        run = re.match("steps=([0-9]+)", text)
        steps = int(run[1]) if run else 0
        self.most_packets[kind] = max(self.most_packets[kind], packets)
        self.most_steps[kind] = max(self.most_steps[kind], steps)
        self.bounded = self.bounded and packets <= packet_bound(columns) and steps <= step_bound(columns)
        self.met[f"a run of a twentieth of the steps that there can be, watch={watch}"] += near(columns, steps * 20, step_bound)

    def faults(self):
        """What was met too seldom, and what was told that nobody wants."""
        return [*(f"{name}: {self.met[name]}" for name in WANTED if self.met[name] < LEAST), *(name for name in self.met if name not in WANTED)]
