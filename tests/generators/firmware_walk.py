"""What random calls from C are made of: columns of a random tree, each a block, the packets between them, texts of tables, and all of these damaged."""
from model import HIGHEST
from models import model_firmware as model
from wrong_models.firmware_mutants import PASSED_OVER

TAILS = ("", "", "order=0102000000000000\n", "first=0\n", "watch=root\n", "watch=senders\n", "first=\n", "\n", "\0")


def far(rng, number):
    """The number, or now and then one that is taken for it where its high bytes or bits are passed over, one of 256 to 300, or the highest."""
    if rng.randrange(3):
        return number
    return rng.choice([*(number + more for more in PASSED_OVER), rng.randrange(256, 301), 2 ** 64 - 1])


class Walk:
    """A step's arguments are mostly what the bank offers, sometimes damaged."""

    def __init__(self, rng):
        self.rng = rng
        columns = rng.choice([1, 2, 3, 5, 8, 16])
        sequence = rng.sample(range(columns), columns)
        up = [rng.randrange(256) for _ in range(16)]
        for k, column in enumerate(sequence):
            up[column] = sequence[rng.randrange(max(k, 1))]
        first = rng.sample(range(columns), columns) + [rng.randrange(256) for _ in range(16 - columns)]
        self.tree = bytes([model.LAYOUT_TREE, columns + model.WATCH * rng.randrange(2), sequence[0], *up, *first])
        self.root = sequence[0]
        self.columns = [model.column_fresh(self.tree, i, bytes(model.COLUMN))[1] for i in range(columns)]
        self.packets = []

    def bytes(self, count):
        return bytes(self.rng.randrange(256) for _ in range(count))

    # ---- blocks

    def damaged(self, block):
        """The block with one byte changed, of another size, of random bytes, or of another layout."""
        block, way = bytearray(block), self.rng.randrange(5)
        if way == 0 or not block:
            return bytes(block) + self.bytes(1) if self.rng.randrange(2) else bytes(block[:-1])
        if way == 1:
            kept = self.rng.choice([0, 1, 2, 2])
            return bytes(block[:kept]) + self.bytes(len(block))[kept:]
        if way == 2:
            return self.rng.choice([bytes(len(block)), b"\xff" * len(block), self.tree, self.columns[0], bytes(block[1:]) + b"\0", bytes([block[0] ^ 1 << self.rng.randrange(8)]) + bytes(block[1:])])
        at = self.rng.choice([1, model.STATUS, *(self.rng.randrange(len(block)) for _ in range(4))])
        block[at if at < len(block) else 2] = self.rng.choice([0, 1, 2, 7, 15, 16, 17, 255, self.rng.randrange(256)])
        return bytes(block)

    def offered(self, block, odds=12):
        return self.damaged(block) if self.rng.randrange(odds) == 0 else bytes(block)

    def offered_tree(self, odds):
        """The tree, or now and then one that is damaged, of no count of columns, or in which a column has another parent."""
        rng, columns = self.rng, len(self.columns)
        if rng.randrange(odds):
            return self.tree
        way, tree = rng.randrange(3), bytearray(self.tree)
        if way == 0:
            tree[1] = rng.choice([0, 17, 128, 145])
        elif way == 1:
            tree[3 + rng.choice([self.root, rng.randrange(columns)])] = rng.randrange(columns)
        return bytes(tree) if way < 2 else self.damaged(self.tree)

    def stirred(self, i, block):
        """Column i in a state that a caller may hand in, though no bank comes to it: any sets, but that nobody owes itself, and numbers at an edge; or,
        most often, as it is."""
        rng, columns, block = self.rng, len(self.columns), bytearray(block)
        if rng.randrange(3):
            return bytes(block)
        block[model.NUMBER:model.MEMBERS] = rng.choice([bytes(block[model.NUMBER:model.MEMBERS]),
                                                        *(number.to_bytes(4, "big") for number in (0, 1, 65535, HIGHEST - 1, HIGHEST))])
        for k, name in enumerate(model.SETS):
            if rng.randrange(2):
                mask = rng.randrange(1 << columns) & (-1 if name == "noted" else rng.randrange(1 << columns)) & ~((name == "owed") << i)
                block[model.MEMBERS + 2 * k:model.MEMBERS + 2 * k + 2] = mask.to_bytes(2, "big")
        if i == self.root and columns > 1 and rng.randrange(2):
            self.owing(i, block)
        whole = i == self.root or rng.randrange(2)
        block[model.STATUS] = (rng.randrange(12) > 0) + 2 * whole + 4 * rng.randrange(columns)
        return bytes(block)

    def owing(self, i, block):
        """A root that owes another column, and sends to it, awaits it, or neither."""
        other = (1 << self.rng.choice([k for k in range(len(self.columns)) if k != i])).to_bytes(2, "big")
        for name, members in (("send", self.rng.choice([other, bytes(2), bytes(2)])), ("awaited", self.rng.choice([other, bytes(2)])), ("owed", other)):
            at = model.MEMBERS + 2 * model.SETS.index(name)
            block[at:at + 2] = members

    def halted(self, block):
        """The block of a column that does not run, most often."""
        if self.rng.randrange(4) == 0:
            return block
        return bytes(block[:model.STATUS]) + bytes([block[model.STATUS] & ~1]) + bytes(block[model.STATUS + 1:])

    def done(self, block):
        """The block of a column that has nothing to send and owes nobody, most often."""
        if self.rng.randrange(3) == 0:
            return block
        return bytes(block[:model.MEMBERS]) + bytes(6) + bytes(block[model.MEMBERS + 6:model.STATUS]) + bytes([block[model.STATUS] | 2]) + bytes(block[model.STATUS + 1:])

    # ---- what a return is given

    def returning(self, i):
        """The lowest running column, its record and those that remain halted, mostly such as a bank can have."""
        rng, columns = self.rng, len(self.columns)
        halted = rng.choice([0, rng.randrange(1 << columns), (1 << columns) - 1]) & ~((rng.randrange(12) > 0) << i)
        running = [k for k in range(columns) if k != i and not halted >> k & 1]
        lowest = running[0] if running and rng.randrange(10) else rng.randrange(17)
        copied = self.columns[lowest % columns]
        number = int.from_bytes(copied[model.NUMBER:model.MEMBERS], "big") if rng.randrange(3) else rng.choice([0, 1, HIGHEST])
        doors = copied[model.RECORD:model.NUMBER] if rng.randrange(3) else self.bytes(8)
        if rng.randrange(10) == 0:
            halted |= 1 << rng.choice([columns, 15, 16, 31, 32, 63])
        return far(rng, lowest) if rng.randrange(6) == 0 else lowest, number, self.offered(doors, 30), halted

    # ---- packets and texts

    def packet(self, i):
        """One for column i, if there is one, or one that somebody might have sent."""
        for k in self.rng.sample(range(len(self.packets)), len(self.packets)):
            if self.packets[k][2] == i:
                return k, self.packets[k]
        rng, ends = self.rng, [self.rng.randrange(self.rng.choice([*[len(self.columns)] * 7, 16])) for _ in range(2)]
        number = rng.choice([0, 1, 2, 65535, 65536, HIGHEST]).to_bytes(4, "big")
        return None, bytes([3 + rng.randrange(2), *ends]) + number + self.bytes(8)

    def frame(self):
        """Packets that are joined, seldom as many as a frame may have, or one more."""
        if self.rng.randrange(8) == 0:
            return bytes([4, 0, 1, 0, 0, 0, 7]) * self.rng.choice([511, 512, 512, 513])
        return b"".join(self.packets[:self.rng.randrange(20)])

    def table(self):
        """The text of a table, with other lines after it, mostly this tree's."""
        rng, (columns, root, up, first, watch) = self.rng, model.tree_of(self.tree)
        up, first = up[:columns], first[:columns]
        for numbers in (up, first):
            if rng.randrange(4) == 0:
                numbers[rng.randrange(columns)] = rng.choice([columns, 15, 16, 99, *numbers[:4]])
            if rng.randrange(12) == 0:
                numbers[columns:] = [0] if rng.randrange(2) else [0] * 16
            if rng.randrange(12) == 0:
                numbers.pop()
        if rng.randrange(4) == 0:
            child = rng.choice([root, rng.randrange(columns)])
            up[child:child + 1] = [rng.choice([child, rng.randrange(columns)])]
        count = columns if rng.randrange(8) else rng.choice([0, 17, 99, 3])
        lines = [f"columns={count}\n", f"root={root if rng.randrange(8) else rng.choice([columns, 15, 99])}\n", f"up={','.join(map(str, up))}\n"]
        lines += [f"first={','.join(map(str, first))}\n"] if rng.randrange(2) else []
        lines += [f"watch={watch}\n"] if rng.randrange(2) else []
        text = ("".join(lines) + rng.choice(TAILS)).encode()
        return self.misspelt(text) if rng.randrange(4) == 0 else text

    def misspelt(self, text):
        """With a byte dropped, doubled or changed, or cut."""
        at = self.rng.randrange(len(text))
        middle = self.rng.choice([b"", text[at:at + 1] * 2, self.rng.choice([b"0", b",", b"\n", b"=", b"x"])])
        return text[:at] if self.rng.randrange(4) == 0 else text[:at] + middle + text[at + 1:]
