"""Rows of laps: one step of a lone column and of a bank, a frame read, and a bank dispatched to rest."""
from measure import Side, Work, plain
from repository import built
from row import Row

STEPS = [("o", "order"), ("s", "send, a message put"), ("m", "take, a message received"), ("e", "take, an acknowledgement"),
         ("a", "ack"), ("l", "all"), ("n", "note, children joined"), ("h", "halt"), ("r", "send, refused with 6")]
CORE_MOST = 1.5
# Letter and name of a bank's laps, the steps of one, and the banks that they are of.
BANK_LAPS = [("N", "note", 1, (16, 3)), ("T", "send and take", 2, (16, 3)), ("H", "halt of one column", 1, (16,)), ("S", "halt of a strip of 13", 1, (16,))]
COLUMNS = (16, 3)
# The packets under way, and the most of the ratio of the largest bank with these.
PACKETS = {2: 1.9, 100: 1.5, 400: 1.5}
# Letter, name and steps of a bank dispatched to rest, those that `./lockers` prints for the same bank, and the most of its ratio.
DISPATCHES = [("D", "an order dispatched to rest", 60, 1.5), ("F", "the fullest, dispatched to rest", 1050, 1.5),
              ("G", "the same, beside C that takes each step by its public call", 1050, None)]
# Of the laps of a run, the part that is run alone and taken off: the start of a process, and its first laps, which are slower.
COLD = 4
# As many steps, or frames, are enough to count instructions, which are the same in every run.
COUNTED = 4000
COUNTED_FRAMES = 40


def lap_work(name, words, laps, steps):
    """Laps of the program of a name, less the cold ones, a step as the unit."""
    cold = laps // COLD
    whole, start = ([Side(program, f"{words} {count}\n") for program in (built(f"{name}_timing"), plain(f"{name}_laps"))] for count in (laps, cold))
    return Work(whole, start, (laps - cold) * steps)


def lap(part, label, name, words, laps, steps=1, most=None, counted=COUNTED):
    """A row whose laps are of so many steps."""
    return Row(part, label, "ns", most, lambda: lap_work(name, words, laps, steps), lambda: lap_work(name, words, max(COLD, counted // steps), steps))


def core(laps):
    for letter, name in STEPS:
        yield lap("core", f"core of 16 columns: {name}", "column", letter, laps, most=CORE_MOST)


def bank(laps):
    for columns in COLUMNS:
        for letter, name, steps, _ in [kind for kind in BANK_LAPS if columns in kind[3]]:
            for packets, most in PACKETS.items():
                yield lap("bank", f"bank of {columns} columns, {packets} packets: {name}", "bank", f"{letter} {columns:02} {packets:03}", laps, steps,
                          most if columns == COLUMNS[0] else None)


def rows(laps):
    yield from core(laps)
    yield lap("frame", "frame of 512 messages read", "column", "f", laps // 4, counted=COUNTED_FRAMES)
    yield from bank(laps // 4)
    for letter, name, steps, most in DISPATCHES:
        yield lap("dispatch", f"bank of 16 columns, {name}: a step", "dispatch", f"{letter} 16", laps // steps, steps, most)
