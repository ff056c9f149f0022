"""The steps of a bank: sets as sets, packets as tuples; with the words of demand 3 beside them (received, awaits), tracked from the steps
and their answers."""
CAPACITY = 512
HIGHEST = 4294967295


class Refused(Exception):
    """A refusal by document 01's number, for the condition in the words."""

    def __init__(self, number, words):
        super().__init__(f"{number}: {words}")
        self.number = number


def refuse(number, words):
    """Refuses where there are words."""
    if words:
        raise Refused(number, words)


class Column:
    """What a column holds."""

    def __init__(self, whole, sender):
        self.running = True
        self.number = 0
        self.doors = bytes(8)
        self.send, self.awaited, self.owed, self.noted = set(), set(), set(), set()
        self.whole = whole
        self.sender = sender


class Steps:
    """A bank with its network, and beside it the words of demand 3."""

    def __init__(self, columns, root, up, first, watch, tell):
        self.root, self.up, self.first, self.watch, self.tell = root, up, first, watch, tell
        self.columns = [Column(i == root, root) for i in range(columns)]
        self.network = []
        self.orders = []
        self.received = [0] * columns
        self.awaits = set()
        self.taken_over, self.came_back = set(), set()

    def children(self, i):
        return {c for c, parent in enumerate(self.up) if parent == i and c != self.root}

    def earliest(self, columns):
        return min(columns, key=self.first.index)

    def acting(self, i):
        refuse(4, i >= len(self.columns) and "no such column")
        refuse(5, not self.columns[i].running and "halted")
        return self.columns[i]

    def put(self, packet):
        if self.columns[packet[2]].running:
            refuse(9, len(self.network) == CAPACITY and "a full network")
            self.network.append(packet)

    def acknowledge(self, i, owed):
        self.put(("acknowledgement", i, owed, self.columns[i].number, None))
        self.columns[i].owed.remove(owed)

    # ---- when send, ack, all and note are refused with 6

    def refused_send(self, i):
        return not self.columns[i].send and "nobody to send to"

    def refused_ack(self, i):
        column = self.columns[i]
        if not column.owed:
            return "nobody is owed"
        if self.watch == "sender" and i == self.root:
            return "the root sends" if column.send else column.awaited and "the root awaits"
        if not column.whole and column.send:
            return "own goal, sends"
        return not column.whole and column.awaited and "own goal, awaits"

    def refused_all(self, i):
        column = self.columns[i]
        if i == self.root:
            return "the root"
        if self.watch == "root" and self.root not in column.noted:
            return "the root is not noted"
        if self.watch == "sender" and column.sender not in column.noted:
            return "the sender is not noted"
        if column.whole:
            return "goal whole"
        if column.send:
            return "sends"
        return column.awaited and "awaits"

    def refused_note(self, i, j):
        if j == i:
            return "itself"
        if self.columns[j].running:
            return "it runs"
        return j in self.columns[i].noted and "noted before"

    # ---- steps

    def order(self, doors):
        root = self.acting(self.root)
        refuse(7, root.send and "the root sends")
        refuse(7, root.awaited and "the root awaits")
        refuse(7, self.watch == "sender" and root.owed and "the root owes")
        refuse(8, root.number == HIGHEST and "the highest number")
        if self.came_back:
            self.tell("an order after a return")
        self.tell("the first order" if not self.orders else "a further order after rest" if self.at_rest() else "a further order before rest")
        root.number += 1
        root.doors = doors
        root.send = self.children(self.root)
        self.orders.append(doors)
        self.received[self.root] = len(self.orders)

    def send(self, i):
        column = self.acting(i)
        refuse(6, self.refused_send(i))
        c = self.earliest(column.send)
        if c != min(column.send):
            self.tell("send to the earliest, not the lowest")
        if c == i:
            self.tell("send to itself")
        elif c in column.noted:
            self.tell("send to a noted column, whose children join" if self.children(c) else "send to a noted column without children")
            column.send |= self.children(c)
        else:
            self.put(("message", i, c, column.number, column.doors))
            self.tell("send to a running column" if self.columns[c].running else "send to a halted column, not noted")
            column.awaited.add(c)
        column.send.remove(c)
        if i == self.root and c not in column.noted:
            self.awaits.add(c)

    def take(self, place):
        refuse(10, place >= len(self.network) and "no such place")
        kind, sender, to, number, doors = self.network[place]
        column = self.columns[to]
        if kind == "message" and number > column.number and column.owed:
            self.tell("left take, one owed" if len(column.owed) == 1 else "left take, several owed")
            if not self.columns[min(column.owed)].running:
                self.tell("left take, the lowest owed halted")
            if min(column.owed) != self.earliest(column.owed):
                self.tell("left take, the lowest owed not the earliest")
            if self.columns[self.root].running:
                self.tell("left take, the root running")
            self.acknowledge(to, min(column.owed))
            return
        del self.network[place]
        if kind == "acknowledgement":
            self.take_acknowledgement(sender, to, number)
            return
        if to == self.root:
            self.tell("a message taken by a running root")
        self.received[to] = max(self.received[to], number)
        if number == column.number:
            self.tell("equal number")
            column.owed.add(sender)
        elif number < column.number:
            self.tell("lower number answered" if self.columns[sender].running else "lower number from a halted sender")
            self.put(("acknowledgement", to, sender, number, None))
        else:
            self.receive(sender, to, number, doors)

    def take_acknowledgement(self, sender, to, number):
        column = self.columns[to]
        which = "the" if number == column.number else "a lower" if number < column.number else "a higher"
        self.tell(f"acknowledgement of {which} number, its sender {'awaited' if sender in column.awaited else 'not awaited'}")
        if number == column.number:
            column.awaited.discard(sender)
            if to == self.root:
                self.awaits.discard(sender)

    def receive(self, sender, to, number, doors):
        column = self.columns[to]
        self.tell("received after a takeover" if column.whole else "received with own goal")
        if to in self.came_back:
            self.tell("received by one that came back")
        if column.send or column.awaited:
            self.tell("received while sending" if column.send else "received while awaiting")
        column.number, column.doors = number, doors
        column.whole = to == self.root
        column.sender = sender
        column.owed = {sender}
        column.awaited = set()
        column.send = self.children(to)

    def ack(self, i):
        column = self.acting(i)
        refuse(6, self.refused_ack(i))
        busy = column.send or column.awaited
        self.tell("ack with goal whole while busy" if busy else "ack with goal whole, idle" if column.whole else "ack with own goal, idle")
        if not self.columns[min(column.owed)].running:
            self.tell("ack, the lowest owed halted")
        if min(column.owed) != self.earliest(column.owed):
            self.tell("ack, the lowest owed not the earliest")
        self.acknowledge(i, min(column.owed))

    def all(self, i):
        column = self.acting(i)
        refuse(6, self.refused_all(i))
        self.tell("takeover of a column that took over before" if i in self.taken_over else "takeover, the first of its column")
        self.taken_over.add(i)
        if self.watch == "sender":
            self.tell("takeover, the noted sender the root" if column.sender == self.root else "takeover, the noted sender another")
            if self.columns[self.root].running:
                self.tell("takeover while the root runs")
        if self.came_back:
            self.tell("takeover of one that came back" if i in self.came_back else "takeover after another came back")
        column.whole = True
        column.send = {self.root}

    def note(self, i, j):
        refuse(4, j >= len(self.columns) and "no such second column")
        column = self.acting(i)
        refuse(6, self.refused_note(i, j))
        column.noted.add(j)
        if j in column.awaited:
            self.tell("note of an awaited column with children" if self.children(j) else "note of an awaited column without children")
            column.awaited.remove(j)
            column.send |= self.children(j)
        else:
            self.tell("note of a column to send to" if j in column.send else "note of a column neither awaited nor to send to")
        if i == self.root:
            self.awaits.discard(j)

    def halt(self, first, *later):
        named, columns = [first, *later], {first, *later}
        refuse(4, first >= len(self.columns) and "no such column")
        refuse(4, any(i >= len(self.columns) for i in later) and "no such later column")
        refuse(5, not self.columns[first].running and "halted")
        refuse(5, any(not self.columns[i].running for i in later) and "a later one halted")
        self.tell("halt of one column" if len(columns) == 1 else "halt of several columns")
        if len(columns) < len(named):
            self.tell("halt with a column named twice" if len(named) <= 16 else "halt of more than sixteen numerals")
        if any(packet[1] in columns for packet in self.network):
            self.tell("halt with packets from it under way")
        if any(packet[2] in columns for packet in self.network):
            self.tell("halt with packets to it under way")
        for i in columns:
            self.columns[i].running = False
        self.network = [packet for packet in self.network if packet[2] not in columns]

    def back(self, j):
        refuse(4, j >= len(self.columns) and "no such column")
        refuse(6, self.columns[j].running and "it runs")
        refuse(15, j == self.root and "the root")
        refuse(14, not self.at_rest() and "not at rest")
        running = [i for i, column in enumerate(self.columns) if column.running]
        refuse(16, not running and "no column runs")
        copied, old, root = self.columns[running[0]], self.columns[j], self.columns[self.root]
        self.tell("return while the root runs" if root.running else "return while the root is halted")
        self.tell("return of one that came back before" if j in self.came_back else "return, the first of its column")
        if self.received[j] != copied.number:
            self.tell("return to a lower number" if self.received[j] > copied.number else "return to a higher number")
        if sum(not column.running for column in self.columns) > 1:
            self.tell("return while others remain halted")
        if old.send or old.awaited or old.owed:
            self.tell("return of one that was halted at work")
        column = self.columns[j] = Column(not root.running, running[0])
        column.number, column.doors = copied.number, copied.doors
        column.noted = {i for i, other in enumerate(self.columns) if not other.running}
        for other in self.columns:
            other.noted.discard(j)
        self.came_back.add(j)
        self.received[j] = copied.number

    # ---- rest

    def at_rest(self):
        columns = range(len(self.columns))
        return not self.network and all(self.refused_send(i) and self.refused_ack(i) and self.refused_all(i)
                                        and all(self.refused_note(i, j) for j in columns) for i in columns if self.columns[i].running)
