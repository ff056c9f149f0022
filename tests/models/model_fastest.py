"""The fastest trees of document 02, Point 8, and formula 4.1 of the report's section 4, written from the papers. `tell` is given in words which way each
request went. The parameters of `Strategy` are what the papers say; others make wrong programs."""
import functools
import re

from model import Refused, refuse


def numeral(digits):
    return rf"(0|[1-9][0-9]{{0,{digits - 1}}})"


@functools.lru_cache(maxsize=None)
def received(delay, gap, time):
    """R of (4.1): how many processors receive the message at a time, where they never run out."""
    if time <= 0:
        return 1 if time == 0 else 0
    return sum(received(delay, gap, time - delay - j * gap) for j in range(-((delay - time) // gap) + 1))


class Strategy:
    def __init__(self, widths=(2, 3, 3), highest=255, numbers=16, tell=lambda words: None):
        self.form = "columns={}\ndelay={}\ngap={}\n".format(*map(numeral, widths))
        self.highest, self.numbers, self.tell = highest, numbers, tell

    # ---- the report's S: "A processor relays message m immediately upon receiving it and every E seconds thereafter, as long as some processor has not
    # been sent the message", unit of time by unit of time

    def sends(self, time, arrival, sent, gap):
        """Whether a column that has the message since its arrival, and has sent it so often, sends it at a time."""
        return time >= arrival and (time - arrival) % gap == 0

    def in_turn(self, senders):
        """'ties by the sender's number'"""
        return sorted(senders)

    def arrives(self, time, own, delay):
        """'arrival is D units later'; `own` is the sender's."""
        return time + delay

    def broadcast(self, columns, delay, gap):
        """Each column's sender and arrival; 'root 0'."""
        sender, arrival, time = [0], [0], 0
        while len(sender) < columns:
            ready = [c for c in range(len(sender)) if self.sends(time, arrival[c], sender[1:].count(c), gap)]
            self.tell("a tie" if len(ready) > 1 and len(sender) + 1 < columns else "no tie")
            for c in self.in_turn(ready)[:columns - len(sender)]:
                sender.append(c)
                arrival.append(self.arrives(time, arrival[c], delay))
            time += 1
        return sender, arrival

    # ---- the program

    def read(self, data):
        found = re.fullmatch(self.form.encode(), data)
        refuse(1, not found and "another form")
        return [int(number) for number in found.groups()]

    def check(self, columns, delay, gap):
        """'17 for D or E not 1 to 255, tested after 2'"""
        refuse(2, columns == 0 and "no column")
        refuse(2, columns > self.numbers and "more than 16 columns")
        for word, number in (("delay", delay), ("gap", gap)):
            refuse(17, number < 1 and f"no {word}")
            refuse(17, number > self.highest and f"{word} above 255")

    def table(self, data):
        numbers = self.read(data)
        self.check(*numbers)
        sender, _ = self.broadcast(*numbers)
        return f"columns={numbers[0]}\nroot=0\nup={','.join(map(str, sender))}\n"

    def answer(self, data):
        """What the program prints for a request."""
        try:
            text = self.table(data)
            self.tell("answered")
            return text
        except Refused as refusal:
            self.tell(f"refused {refusal}")
            return f"refused={refusal.number}\n"
