"""Trees checked and read, a column as it begins, its page, and its texts: the closing list, and the lines of its journal."""
import model
from model import refuse
from models.model_firmware.blocks import COLUMN, LAYOUT_COLUMN, LAYOUT_TREE, MASK, OWN, PENDING, TREE, are_blocks
from models.model_firmware.blocks import check_tree, column_block, fresh_bank, lone, sized, tree_block, tree_of
from models.model_frames import Reader


def tree_check(tree):
    sized((tree, TREE))
    refuse(24, tree[0] != LAYOUT_TREE and "a tree of another layout")
    check_tree(*tree_of(tree))
    return (0,)


def tree_read(text, tree):
    """Past as many as there are columns parents are 0, and so is the sequence of a table that has one; without one it is ascending up to 15."""
    sized((tree, TREE))
    bank, rest = model.table(text.decode("latin-1"), lambda words: None)
    used = len(text) - len(rest)
    first = [*bank.first, *[0] * 16][:16] if b"\nfirst=" in text[:used] else range(16)
    return used, tree_block(bank, first)


def column_fresh(tree, i, column):
    sized((tree, TREE), (column, COLUMN))
    refuse(24, tree[0] != LAYOUT_TREE and "a tree of another layout")
    bank = fresh_bank(tree)
    refuse(4, i >= len(bank.columns) and "no such column")
    return 0, column_block(bank, i)


def text_of(line, buffer):
    """A text in a buffer, with what follows it, and its length."""
    refuse(11, len(line) > len(buffer) and "no room")
    return len(line), line + buffer[len(line):]


def listing(tree, column, buffer):
    are_blocks(tree, column)
    bank, i = lone(tree, column)
    return text_of(bank.list(i).encode(), buffer)


def page_read(tree, column, offset):
    are_blocks(tree, column)
    bank, i = lone(tree, column)
    return (bank.read(i, offset),)


def is_column(column):
    sized((column, COLUMN))
    refuse(24, column[0] != LAYOUT_COLUMN and "a column of another layout")


def line_up(column):
    is_column(column)
    return (int(column[MASK] & column[PENDING] != 0),)


def journal_owner(column, text):
    """'Its first line is `column=` with its owner.'"""
    is_column(column)
    return text_of(f"column={column[OWN]}\n".encode(), text)


def journal_line(way, column, packet, text):
    """'Each further line is `sent=` or `got=` with kind, other column and number'; 'Kind is 1 for messages and 2 for acknowledgements'."""
    is_column(column)
    kind, sender, receiver, number = Reader().packet(packet)[0][:4]
    own, other = (sender, receiver) if way == "sent" else (receiver, sender)
    refuse(4, own != column[OWN] and f"not {way} by this column")
    return text_of(f"{way}={1 if kind == 3 else 2},{other},{number}\n".encode(), text)
