"""The core in a maker's firmware: every export of the archive called beside the model, with guards around all that is lent; outside the gate with as many
calls as are asked for (tests/outside_the_gate/firmware_calls.py)."""
import collections
import random
import tempfile
import unittest

from generators.firmware_walk import Walk, far
from helpers import firmware, refusals
from helpers.counting import seldom
from model import HIGHEST
from models import model_firmware as model
from wrong_models import edited, firmware_mutants

SEEDS = (25,)
CALLS = 60000
LEAST = 5
STEPS = {name: {24, 2, 3, 4, 5, 6} for name in ("send", "ack", "all", "note", "next")}
# By which numbers each export refuses, as the header says.
REFUSALS = {**STEPS, "tree_check": {24, 2, 3}, "tree_read": {24, 1, 2, 3}, "column_fresh": {24, 2, 3, 4}, "list": {24, 2, 3, 4, 5, 11},
            "order": {24, 2, 3, 4, 5, 7, 8}, "take": {24, 12, 2, 3, 4, 5}, "halt": {24, 2, 3, 4, 5}, "idle": {24, 2, 3, 4},
            "rejoin": {24, 2, 3, 4, 6, 15, 16}, "strike": {24, 2, 3, 4, 14}, "packet_read": {24, 12}, "message": {24, 12}, "acknowledgement": {24, 12},
            "packet_convert": {24, 12, 18}, "frame_count": {12}, "frame_join": {12, 11}, "page_read": {24, 2, 3, 4, 22}, "page_write": {24, 2, 3, 4, 22},
            "line_up": {24}, "journal_owner": {24, 11}, "journal_sent": {24, 12, 4, 11}, "journal_got": {24, 12, 4, 11}}
TOLD = [f"refused {words}" for words in (
    "24: a block of another size", "24: a tree of another layout", "24: a column of another layout", "1: another form", "1: another form of the sequence",
    "1: another form of the watch", "2: no column", "2: more than 16 columns", "2: no such count", "3: root not below columns",
    "3: parent not below columns", "3: another length", "3: root not its own parent", "3: a climb that misses the root", "3: a sequence of another length",
    "3: a sequence that exceeds a column", "3: a sequence that repeats a column", "3: no such root", "3: no such parent", "3: no such sequence",
    "3: the root is not its own parent", "3: a climb misses the root", "4: no such column", "4: no such member", "4: owing itself",
    "4: a root with its own goal", "4: no such sender", "4: no such end", "4: a message to the root", "4: another addressee", "4: an order elsewhere",
    "4: no such second column", "4: no such halted column", "4: itself to remain halted", "4: not the lowest", "4: no such column back", "4: itself back",
    "4: not sent by this column", "4: not got by this column", "5: halted", "6: nobody to send to", "6: nobody is owed", "6: own goal, sends",
    "6: own goal, awaits", "6: the root sends", "6: the root awaits", "6: the root", "6: the root is not noted", "6: the sender is not noted",
    "6: goal whole", "6: sends", "6: awaits", "6: itself", "6: noted before", "6: it runs", "7: the root sends", "7: the root awaits", "7: the root owes",
    "8: the highest number", "11: no room", "11: a full frame", "12: bad ends", "12: no such kind", "12: too few bytes for kind 3",
    "12: too few bytes for kind 4", "12: an end above 15", "12: equal ends", "12: a byte after the packet", "12: more than 512 packets", "14: not idle",
    "15: the root", "16: no column runs", "18: a number above 65,535", "22: an offset above 7", "22: an offset above 255", "22: a write above 7",
    "22: a write above 255", "22: a write elsewhere")]
# Steps of a walk, by how often each is picked; a halt seldom.
PICKED = ("order", *["send"] * 2, *["take"] * 4, *["ack"] * 2, *["all"] * 2, *["next"] * 3, "note", "page_write", "strike", "rejoin")
PUTTING = ("send", "ack", "next", "take")


class Calls(unittest.TestCase):
    # What is called, and for which program the refusals that are met count, if for any.
    made, program = staticmethod(firmware.shared_object), "firmware"

    @classmethod
    def setUpClass(cls):
        cls.folder = tempfile.TemporaryDirectory()
        cls.addClassCleanup(cls.folder.cleanup)
        cls.library = firmware.Library(cls.folder.name, cls.made)

    def setUp(self):
        self.met, self.told, self.calls = collections.Counter(), collections.Counter(), []

    def compare(self, name, *arguments):
        """The call through the archive and the model's; both answer and leave the same."""
        ours = self.library.call(name, *arguments)
        buffers = [bytes(argument) for argument in arguments if isinstance(argument, bytearray)]
        plain = [bytes(argument) if isinstance(argument, bytearray) else argument for argument in arguments]
        self.assertEqual(ours, model.called(name, buffers, plain, lambda words: self.told.update([words])), (name, arguments))
        self.calls.append((name, buffers, plain, ours))
        if self.program and ours[0] >= model.REFUSED:
            refusals.MET[self.program, ours[0] - model.REFUSED] += 1
        self.met[name, ours[0] - model.REFUSED if ours[0] >= model.REFUSED else "left" if ours[0] >= model.LEFT and name == "take" else "done"] += 1
        return ours

    def given(self, walk, name, i, block):
        """What a step is given after its tree, and the place of the packet that it takes, if it takes one of the walk's."""
        rng, at = walk.rng, None
        if name == "rejoin":
            return [bytearray(walk.halted(block)), *walk.returning(i)], at
        if name == "strike":
            return [bytearray((walk.done if rng.randrange(4) else walk.halted)(block)), far(rng, rng.randrange(len(walk.columns) + 1))], at
        words = [bytearray(block)]
        if name == "order":
            words += [walk.offered(walk.bytes(8), 20)]
        elif name == "take":
            at, packet = walk.packet(i)
            words += [walk.offered(packet)]
        elif name == "note":
            words += [rng.choice([rng.randrange(len(walk.columns)), rng.randrange(len(walk.columns)), 16, 2 ** 64 - 1])]
        elif name == "page_write":
            words += [far(rng, rng.choice([5, 5, 7, 7, rng.randrange(10)])), rng.randrange(256)]
        return words + ([bytearray(walk.offered(walk.bytes(15), 30))] if name in PUTTING else []), at

    def step(self, walk):
        rng = walk.rng
        name = "halt" if rng.randrange(50) == 0 else rng.choice(PICKED)
        i = walk.root if name == "order" and rng.randrange(4) else rng.randrange(len(walk.columns))
        block = walk.offered(walk.stirred(i, walk.columns[i]))
        if rng.randrange(40) == 0:
            block = block[:model.OWN] + bytes([rng.choice([len(walk.columns), 16, 255, rng.randrange(16)])]) + block[model.OWN + 1:]
        words, at = self.given(walk, name, i, block)
        tree = walk.offered_tree(8)
        answer, *left = self.compare(name, tree, *words)
        if answer < model.REFUSED and tree == walk.tree and bytes(words[0]) == walk.columns[i]:
            walk.columns[i] = left[0]
            if at is not None and answer < model.LEFT:
                del walk.packets[at]
            if answer % model.LEFT:
                walk.packets.append(left[1][:answer % model.LEFT])

    def state(self, walk):
        rng = walk.rng
        i = rng.randrange(len(walk.columns))
        tree, block = walk.offered_tree(3), walk.offered(walk.stirred(i, walk.columns[i]), 3)
        self.compare("tree_check", tree)
        self.compare("tree_read", walk.table(), bytearray(walk.offered(tree)))
        self.compare("column_fresh", tree, far(rng, rng.choice([i, rng.randrange(20)])), bytearray(walk.offered(block)))
        self.compare("page_read", tree, block, far(rng, rng.randrange(9)))
        self.compare("line_up", block)
        self.compare("idle", tree, block)
        length = model.called("list", (), (tree, block, bytes(300)))[0] % model.REFUSED
        self.compare("list", tree, block, bytearray(walk.bytes(rng.choice([0, 30, 60, 100, 228, 229, 300, length, max(length - 1, 0)]))))

    def packets(self, walk):
        rng = walk.rng
        _, packet = walk.packet(rng.randrange(len(walk.columns)))
        packet = walk.offered(packet, 3)
        block = bytearray(walk.offered(walk.bytes(15), 10))
        ends, number = [rng.randrange(18) for _ in range(2)], rng.choice([0, 65535, 65536, HIGHEST, rng.randrange(2 ** 32)])
        self.compare("packet_read", packet, block)
        self.compare("message", *ends, number, walk.offered(walk.bytes(8), 10), block)
        self.compare("acknowledgement", *ends, number, block)
        size, *left = self.compare("packet_convert", packet, block)
        if size < model.REFUSED:
            self.assertEqual(self.compare("packet_convert", left[0][:size], block)[1][:len(packet)], packet)
        frame = walk.offered(walk.frame(), 4)
        self.compare("frame_count", frame)
        room = bytearray(frame + walk.bytes(rng.choice([0, 6, 7, 14, 15, 40, 40])))
        at = len(frame) if rng.randrange(2) else rng.choice([0, max(len(frame) - 15, 0), len(room) + 1, rng.randrange(400), 2 ** 64 - 1])
        self.compare("frame_join", packet, room, at)

    def journal(self, walk):
        rng = walk.rng
        _, packet = walk.packet(rng.randrange(len(walk.columns)))
        packet, columns = walk.offered(packet, 8), len(walk.columns)
        self.compare("journal_owner", walk.offered(walk.columns[rng.randrange(columns)], 4), bytearray(walk.bytes(rng.choice([0, 8, 9, 10, 11, 30]))))
        for way, end in (("sent", 1), ("got", 2)):
            own = packet[end] if len(packet) > end and packet[end] < columns and rng.randrange(5) else rng.randrange(columns)
            room = rng.choice([0, *range(8, 23), 40])
            self.compare(f"journal_{way}", walk.offered(walk.columns[own], 8), packet, bytearray(walk.bytes(room)))

    def random_calls(self, seed):
        rng = random.Random(seed)
        walk = Walk(rng)
        while len(self.calls) < CALLS:
            if rng.randrange(150) == 0:
                walk = Walk(rng)
            rng.choice([self.step] * 15 + [self.state, self.packets, self.journal])(walk)

    def told_apart(self, functions, module):
        """Whether a wrong model answers another thing, or leaves other bytes, in a call of one of the functions."""
        return any(name in functions and module.called(name, buffers, plain) != ours for name, buffers, plain, ours in self.calls)

    def test_random_calls_answer_and_leave_what_the_model_does_and_every_refusal_is_met(self):
        expected = {(name, number) for name, numbers in REFUSALS.items() for number in numbers | {"done"}} | {("take", "left")}
        for seed in SEEDS:
            self.setUp()
            self.random_calls(seed)
            self.assertEqual(set(self.met), expected, f"seed {seed}")
            self.assertEqual(seldom(self.told, TOLD, LEAST), {}, f"seed {seed}")
            left = [name for name, functions, *edits in firmware_mutants.WRONG if not self.told_apart(functions, edited.edited(model, name, edits))]
            self.assertEqual(left, [], f"seed {seed}: not told from the archive")

    def test_the_order_past_the_highest_number(self):
        tree = bytes([model.LAYOUT_TREE, 1, 0]) + bytes(16) + bytes(range(16))
        for number, refused in ((HIGHEST - 1, 0), (HIGHEST, 1008)):
            block = bytearray(bytes([model.LAYOUT_COLUMN, 0]) + bytes(8) + number.to_bytes(4, "big") + bytes(8) + bytes([3, 0, 0]))
            self.assertEqual(self.compare("order", tree, block, bytes(8))[0], refused)

    def test_512_packets_make_a_frame_and_513_do_not(self):
        packet = bytes([4, 0, 1, 0, 0, 0, 7])
        for count, answer, joined in ((0, 0, 7), (511, 511, 7), (512, 512, 1011), (513, 1012, 1012)):
            self.assertEqual(self.compare("frame_count", packet * count)[0], answer)
            self.assertEqual(self.compare("frame_join", packet, bytearray(packet * count + bytes(20)), len(packet) * count)[0], joined)

    def test_the_longest_lines_fit_where_the_header_says(self):
        column = bytes([model.LAYOUT_COLUMN, 15]) + bytes(model.COLUMN - 2)
        sent, got = (bytes([3, *ends]) + b"\xff" * 12 for ends in ((15, 14), (14, 15)))
        for name, packet, length in (("sent", sent, 21), ("got", got, 20)):
            for room, answer in ((length, length), (length - 1, 1011)):
                self.assertEqual(self.compare(f"journal_{name}", column, packet, bytearray(room))[0], answer)

    def test_a_block_that_is_read_and_written_is_as_it_was(self):
        """A write of the mask that is there already, to column 1 of 16: whatever passes row 4."""
        rng = random.Random(26)
        tree = bytes([model.LAYOUT_TREE, 16, 0]) + bytes(16) + bytes(range(16))
        for _ in range(2000):
            block = bytearray([model.LAYOUT_COLUMN, 1, *(rng.randrange(256) for _ in range(model.COLUMN - 2))])
            block[19] &= ~2
            block[model.STATUS] %= 64
            self.assertEqual(self.compare("page_write", tree, block, 5, block[model.MASK]), (0, block))

    def test_memory_that_was_never_written_and_other_layouts_are_refused(self):
        """24 of all bytes 0, of all 255, of a tree in a column's place and the other way round, and of the layouts before this one."""
        tree = bytes([model.LAYOUT_TREE, 3, 0]) + bytes(16) + bytes(range(16))
        column = model.column_fresh(tree, 1, bytes(model.COLUMN))[1]
        for wrong in (bytes(model.COLUMN), b"\xff" * model.COLUMN, tree[:model.COLUMN], tree, column[2:], column[1:], column + b"\0"):
            self.assertEqual(self.compare("next", tree, bytearray(wrong), bytearray(15))[0], 1024)
            self.assertEqual(self.compare("line_up", wrong)[0], 1024)
        for wrong in (bytes(model.TREE), b"\xff" * model.TREE, column.ljust(model.TREE, b"\0"), tree[1:], tree[1:] + b"\0"):
            self.assertEqual(self.compare("next", wrong, bytearray(column), bytearray(15))[0], 1024)
            self.assertEqual(self.compare("tree_check", wrong)[0], 1024)
