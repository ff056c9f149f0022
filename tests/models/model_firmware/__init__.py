"""The exports that `include/mudasgup.h` declares, written from the papers and the header: blocks as bytes, a lone column as a bank's column whose packets
go nowhere. A call answers a number and the bytes that it leaves. `tell` is given in words why a call is refused."""
from models.model_firmware import blocks, calls, packets, states, steps
from models.model_firmware.blocks import COLUMN, LAYOUT_COLUMN, LAYOUT_TREE, LEFT, MASK, MEMBERS, NUMBER, OWN, RECORD, REFUSED, SETS, STATUS, TREE, WATCH, tree_of
from models.model_firmware.calls import called
from models.model_firmware.states import column_fresh

# Its modules, each after those that it rests on.
PARTS = (blocks, packets, states, steps, calls)
