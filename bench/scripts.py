"""The scripts that the program lockers is timed on: the longest that it reads, each filled with lines of one sort."""
from model import LIMIT

TABLE = "columns=3\nroot=0\nup=0,0,1\n"
ALL_DOORS = "order=ffffffffffffffff\n"
# One order goes to every column and is acknowledged back to the root; between, a step refused with 6, 7, 10 and 4.
STEPS = ("order=0102000000000000\nsend=0\nsend=2\ntake=0\nsend=1\norder=0102000000000000\ntake=0\nack=2\ntake=9\ntake=0\n"
         "ack=1\nnote=0,9\ntake=0\n")


def filled(lines, before="", size=LIMIT):
    """A script of exactly so many bytes; the last line may be cut."""
    return (TABLE + before + lines * (size // len(lines) + 1))[:size]


SCRIPTS = [("the table alone", TABLE), ("`list=0`, no door", filled("list=0\n")), ("`list=0`, 64 doors", filled("list=0\n", ALL_DOORS)),
           ("steps, 4 of 13 refused", filled(STEPS)), ("`jump=1`", filled("jump=1\n")), ("empty lines", filled("\n"))]
