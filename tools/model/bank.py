"""A bank with its dispatcher, its lists and demand 3."""
from model.steps import Refused, Steps


class Bank(Steps):
    """A bank that can be dispatched and asked for lists, and demand 3 on it."""

    # ---- the dispatcher

    def offers(self):
        """What a turn looks at, in its sequence: "for running columns from 0 up, note (lowest j first), send, ack, all"; last the oldest packet."""
        columns = range(len(self.columns))
        for i in columns:
            if self.columns[i].running:
                yield from (("note", (i, j)) for j in columns)
                yield from ((step, (i,)) for step in ("send", "ack", "all"))
        yield "take", (0,)

    def turn(self):
        """Whether one of them is accepted; it is taken."""
        for step, numbers in self.offers():
            try:
                getattr(self, step)(*numbers)
            except Refused:
                continue
            self.tell(f"run takes {step}")
            return True
        return False

    def run(self, limit):
        """At rest no step of a turn is accepted, and the take is 10: "until rest" asks for no test of its own."""
        steps = 0
        while steps < limit and self.turn():
            steps += 1
        self.tell(("run at rest" if not steps else "run to rest" if steps < limit else "run to rest at its limit") if self.at_rest()
                  else "run of no step" if not limit else "run to its limit" if steps == limit else "run until a refused step")
        return f"steps={steps}\nstep=ok\n"

    def list(self, i):
        column = self.acting(i)
        doors = [8 * k + bit + 1 for k in range(8) for bit in range(8) if column.doors[k] >> bit & 1]
        self.tell("list with doors" if doors else "list without doors")
        return f"column={i}\nnumber={column.number}\noccupied={len(doors)}\ndoors={','.join(map(str, doors))}\n"

    def agrees(self):
        """Demand 3, both halves, on the state as it is."""
        records = {i: (column.number, column.doors) for i, column in enumerate(self.columns) if column.running}
        given = [bytes(8)] + self.orders
        if self.at_rest():
            highest = max((self.received[i] for i in records), default=0)
            if any(record != (highest, given[highest]) for record in records.values()):
                return False
        if self.root in records and not self.columns[self.root].send and not self.awaits:
            return all(record == (len(self.orders), given[-1]) for record in records.values())
        return True
