"""Blocks as bytes: a tree, a column, and the bank in which a column is as its block says."""
from model import refuse
from models.model_pages import Bank

TREE, COLUMN, PACKET, DOORS = 35, 25, 15, 8
LAYOUT_TREE, LAYOUT_COLUMN = 0x12, 0x22
OWN, RECORD, NUMBER, MEMBERS, STATUS, MASK, PENDING = 1, 2, 10, 14, 22, 23, 24
WATCH = 128
LEFT, REFUSED = 100, 1000
SETS = ("send", "awaited", "owed", "noted")


def sized(*blocks):
    """24, 'a block of another size', before all else."""
    for block, size in blocks:
        refuse(24, len(block) != size and "a block of another size")


def are_blocks(tree, column, *others):
    """24 also of 'another layout', of the tree and of the column."""
    sized((tree, TREE), (column, COLUMN), *others)
    refuse(24, tree[0] != LAYOUT_TREE and "a tree of another layout")
    refuse(24, column[0] != LAYOUT_COLUMN and "a column of another layout")


# ---- trees

def tree_of(block):
    """The count of columns, the root, sixteen parents, the sequence of sixteen, and the watch."""
    return block[1] % WATCH, block[2], list(block[3:19]), list(block[19:35]), "sender" if block[1] >= WATCH else "root"


def tree_block(bank, first):
    count = len(bank.columns)
    return bytes([LAYOUT_TREE, count + WATCH * (bank.watch == "sender"), bank.root, *bank.up, *[0] * (16 - count), *first])


def check_tree(columns, root, up, first, watch):
    """Rows 2 and 3: '0 or above 16', 'root or parent not below columns', 'a list that misses, repeats or exceeds a column', 'a climb that misses the root'."""
    refuse(2, not 1 <= columns <= 16 and "no such count")
    refuse(3, root >= columns and "no such root")
    refuse(3, any(parent >= columns for parent in up[:columns]) and "no such parent")
    refuse(3, sorted(first[:columns]) != list(range(columns)) and "no such sequence")
    refuse(3, up[root] != root and "the root is not its own parent")
    for at in range(columns):
        for _ in range(columns):
            at = up[at]
        refuse(3, at != root and "a climb misses the root")


# ---- columns

def members(mask):
    return {i for i in range(16) if mask >> i & 1}


def mask(columns):
    return sum(1 << i for i in columns)


def fill_column(bank, i, block):
    column = bank.columns[i]
    column.doors, column.number = bytes(block[RECORD:NUMBER]), int.from_bytes(block[NUMBER:MEMBERS], "big")
    for k, name in enumerate(SETS):
        setattr(column, name, members(int.from_bytes(block[MEMBERS + 2 * k:MEMBERS + 2 * k + 2], "big")))
    column.running, column.whole, column.sender = bool(block[STATUS] & 1), bool(block[STATUS] & 2), block[STATUS] >> 2
    bank.masks[i], bank.pending[i] = block[MASK:COLUMN]


def column_block(bank, i):
    column = bank.columns[i]
    status = column.running + 2 * column.whole + 4 * column.sender
    return (bytes([LAYOUT_COLUMN, i]) + column.doors + column.number.to_bytes(4, "big")
            + b"".join(mask(getattr(column, name)).to_bytes(2, "big") for name in SETS) + bytes([status, bank.masks[i], bank.pending[i]]))


def check_column(columns, root, i, column):
    """'4 meets a column number or set member not below columns, a column owing itself, a root with a goal other than the whole bank'."""
    refuse(4, any(member >= columns for name in SETS for member in getattr(column, name)) and "no such member")
    refuse(4, i in column.owed and "owing itself")
    refuse(4, i == root and not column.whole and "a root with its own goal")
    refuse(4, column.sender >= columns and "no such sender")


def fresh_bank(tree):
    """The fresh bank of a tree, after rows 2 and 3; all columns run, so that packets are put."""
    columns, root, up, first, watch = tree_of(tree)
    check_tree(columns, root, up, first, watch)
    bank = Bank(columns, root, up[:columns], watch, lambda words: None)
    bank.first = first[:columns]
    return bank


def lone(tree, block):
    """A bank in which the block's own column is as the block says, and which column that is, after rows 2 to 4."""
    bank, i = fresh_bank(tree), block[OWN]
    refuse(4, i >= len(bank.columns) and "no such column")
    fill_column(bank, i, block)
    check_column(len(bank.columns), bank.root, i, bank.columns[i])
    return bank, i
