"""The steps of a lone column: a bank's column whose packets go nowhere; the steps themselves are those of tools/model."""
from model import Refused, refuse
from models.model_firmware.blocks import DOORS, LEFT, PACKET, are_blocks, column_block, lone, members
from models.model_firmware.packets import packet_bytes
from models.model_frames import Reader


def check_packet(bank, i, fields):
    """'any packet with an end not below columns, equal ends, .. another addressee than the lone core it is given to, or a message to the root'."""
    kind, sender, receiver = fields[:3]
    refuse(4, max(sender, receiver) >= len(bank.columns) and "no such end")
    refuse(4, kind == 3 and receiver == bank.root and bank.watch == "root" and "a message to the root")
    refuse(4, receiver != i and "another addressee")


def stepped(bank, i):
    """The size of the packet to put, the column's block, and the packet's."""
    put = packet_bytes(*bank.network[-1]) if bank.network else b""
    return len(put), column_block(bank, i), put.ljust(PACKET, b"\0")


def order(tree, column, doors):
    are_blocks(tree, column, (doors, DOORS))
    bank, i = lone(tree, column)
    refuse(4, i != bank.root and "an order elsewhere")
    bank.order(doors)
    return 0, column_block(bank, i)


def step(name, tree, column, put):
    """A step that may put a packet."""
    are_blocks(tree, column, (put, PACKET))
    bank, i = lone(tree, column)
    getattr(bank, name)(i)
    return stepped(bank, i)


def silent(name, tree, column):
    """A step that puts nothing."""
    are_blocks(tree, column)
    bank, i = lone(tree, column)
    getattr(bank, name)(i)
    return 0, column_block(bank, i)


def note(tree, column, j):
    are_blocks(tree, column)
    bank, i = lone(tree, column)
    refuse(4, j >= len(bank.columns) and "no such second column")
    bank.columns[j].running = bank.columns[j].running and j == i
    bank.note(i, j)
    return 0, column_block(bank, i)


def take(tree, column, packet, put):
    are_blocks(tree, column, (put, PACKET))
    fields, _ = Reader().packet(packet)
    bank, i = lone(tree, column)
    check_packet(bank, i, fields)
    refuse(5, not bank.columns[i].running and "halted")
    kind, sender, receiver, number, *doors = fields
    taken = ("message", sender, receiver, number, doors[0].to_bytes(8, "little")) if doors else ("acknowledgement", sender, receiver, number, None)
    bank.network = [taken]
    bank.take(0)
    left = bank.network[:1] == [taken]
    bank.network = bank.network[left:]
    size, after, put = stepped(bank, i)
    return size + LEFT * left, after, put


def following(tree, column, put):
    """'the first accepted of send, ack, all, with its packet', else what refuses the last."""
    are_blocks(tree, column, (put, PACKET))
    bank, i = lone(tree, column)
    for name in ("send", "ack", "all"):
        try:
            getattr(bank, name)(i)
            return stepped(bank, i)
        except Refused as refusal:
            last = refusal
    raise last


def rests(bank, i):
    """'does not run or each of send, ack, all is refused'."""
    return not bank.columns[i].running or bool(bank.refused_send(i) and bank.refused_ack(i) and bank.refused_all(i))


def idle(tree, column):
    are_blocks(tree, column)
    return (int(rests(*lone(tree, column))),)


def rejoin(tree, column, lowest, number, doors, halted):
    """Point 7 in a bank at rest: those of `halted` do not run, the others have the record, have noted all that do not run, and are done."""
    are_blocks(tree, column, (doors, DOORS))
    bank, i = lone(tree, column)
    count = len(bank.columns)
    refuse(4, halted >> count and "no such halted column")
    refuse(4, halted >> i & 1 and "itself to remain halted")
    others = [k for k in range(count) if k != i and not halted >> k & 1]
    refuse(4, others and lowest != others[0] and "not the lowest")
    for k in {*range(count)} - {i}:
        other = bank.columns[k]
        other.running, other.number, other.doors = k in others, number, doors
        other.whole, other.noted = True, members(halted) | {i}
    bank.back(i)
    return 0, column_block(bank, i)


def strike(tree, column, back):
    """'all others strike it from those noted', at rest."""
    are_blocks(tree, column)
    bank, i = lone(tree, column)
    refuse(4, back >= len(bank.columns) and "no such column back")
    refuse(4, back == i and "itself back")
    refuse(14, not rests(bank, i) and "not idle")
    bank.columns[i].noted.discard(back)
    return 0, column_block(bank, i)


def page_write(tree, column, offset, value):
    are_blocks(tree, column)
    bank, i = lone(tree, column)
    bank.write(i, offset, value)
    return 0, column_block(bank, i)
