"""What the program pair_example writes, held to the papers' packets, frames and trees by a reader of its own."""
import re
import unittest

from helpers.programs import printed

DOORS = {1, 10}


def occupied(doors):
    """'Door d, 1 to 64, is occupied when bit (d-1) mod 8, lowest bit 0, of byte (d-1)/8 rounded down is 1'."""
    return {d for d in range(1, 65) if doors[(d - 1) // 8] >> (d - 1) % 8 & 1}


def packet(data):
    """Kind, from, to, number and doors of the packet at the start, and the bytes after it."""
    kind, sender, receiver = data[0], data[1], data[2]
    size, doors = {1: (13, 5), 2: (5, 5), 3: (15, 7), 4: (7, 7)}[kind]
    assert size <= len(data), data
    assert sender < 16 and receiver < 16 and sender != receiver, data
    return (kind, sender, receiver, int.from_bytes(data[3:doors], "big"), occupied(data[doors:size]) if kind % 2 else None), data[size:]


def packets(frame):
    """'takes packets until the frame ends'."""
    found = []
    while frame:
        first, frame = packet(frame)
        found.append(first)
    return found


def listed(columns):
    return ",".join(map(str, sorted(columns)))


class Tree:
    def __init__(self, root, up):
        self.root, self.up = root, up

    def children(self, c):
        """'`up` names each column's parent in order; the root names itself, but is nobody's child'."""
        return {k for k, parent in enumerate(self.up) if parent == c and k != self.root}

    def subtree(self, c):
        """'The subtree of a column is the column with the subtrees of its children'."""
        return {c} | self.subtrees(self.children(c))

    def subtrees(self, columns):
        """'the subtrees of a list are its first member's with those of the rest'."""
        return set().union(*map(self.subtree, columns))

    def line(self, c):
        below = self.children(c)
        return f"column={c} up={self.up[c]} children={listed(below)} subtrees={listed(self.subtrees(below))} subtree={listed(self.subtree(c))}"


class Pair(unittest.TestCase):
    @classmethod
    def setUpClass(cls):
        written = printed("pair_example").decode().splitlines()
        tree = written.index("columns=5")
        cls.exchange, cls.tree = [line.split("=") for line in written[:tree]], written[tree:]

    def test_two_messages_down_in_one_frame_and_two_acknowledgements_up_in_one(self):
        frames = [packets(bytes.fromhex(value)) for key, value in self.exchange if key == "frame"]
        self.assertEqual(frames, [[(3, 0, 1, 1, DOORS), (3, 0, 2, 1, DOORS)], [(4, 1, 0, 1, None), (4, 2, 0, 1, None)]])

    def test_every_column_holds_the_order_and_awaits_nobody(self):
        values = {key: [value for k, value in self.exchange if k == key] for key in ("column", "number", "doors", "awaited")}
        self.assertEqual(values["column"], ["0", "1", "2"])
        self.assertEqual(values["number"], ["1", "1", "1"])
        self.assertEqual([occupied(bytes.fromhex(doors)) for doors in values["doors"]], [DOORS] * 3)
        self.assertEqual(values["awaited"], ["", "", ""])

    def test_the_old_kinds_go_over_the_line_of_an_old_end(self):
        """Order 65,535 and its acknowledgement, each as it is written, as it goes over the line and as it is on the other side; then 65,536, which is 18."""
        said = [(key, value) for key, value in self.exchange if key in ("new", "old", "held", "refused")]
        packet_of = lambda value: packets(bytes.fromhex(value))
        self.assertEqual([(key, packet_of(value)) for key, value in said[:6]],
                         [(key, [(kind, *fields)])
                          for fields, kinds in (((0, 1, 65535, {1}), (3, 1)), ((1, 0, 65535, None), (4, 2)))
                          for key, kind in (("new", kinds[0]), ("old", kinds[1]), ("new", kinds[0]))])
        self.assertEqual(said[0], said[2])
        self.assertEqual(said[3], said[5])
        self.assertEqual(said[6:8], [("held", "65535"), ("held", "65535")])
        self.assertEqual((said[8][0], packet_of(said[8][1])), ("new", [(3, 0, 1, 65536, {1})]))
        self.assertEqual(said[9], ("refused", "18"))
        self.assertEqual(said[-2:], [("held", "65536"), ("held", "0")])

    def test_children_and_subtrees_follow_from_the_parents(self):
        tree = Tree(2, [int(parent) for parent in re.findall(r" up=(\d+)", "\n".join(self.tree))])
        self.assertEqual(len(tree.up), 5)
        self.assertEqual(self.tree, [
            "columns=5",
            "root=2",
            "The subtree of a column is the column with the subtrees of its children:",
            *map(tree.line, range(5)),
            "column=5 children refused=4 subtree refused=4",
            "The subtrees of a list are its first member's with those of the rest:",
            f"set=1,3 subtrees={listed(tree.subtrees({1, 3}))}",
            "set=1,5 subtrees refused=4",
        ])
