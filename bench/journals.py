"""Pairs of journals to measure, each as long as a journal may be or as is asked."""
LIMIT = 32768
# Numbers that differ by so many have their words in one chain.
BUCKETS = 4093


def full(owner, lines, size=LIMIT):
    """A journal with as many of the lines as fit into so many bytes."""
    text = [f"column={owner}\n"]
    length = len(text[0])
    for line in lines:
        length += len(line) + 1
        if length > size:
            break
        text.append(line + "\n")
    return "".join(text)


def pair(numbers, got, size=LIMIT):
    """Column 0 sends column 1 messages with these numbers, of which it gets some."""
    one = full(0, (f"sent=1,1,{number}" for number in numbers), size)
    sent = [int(line.rpartition(",")[2]) for line in one.splitlines()[1:]]
    return one, full(1, [f"got=1,0,{number}" for number in sent if got(number)] + [f"sent=2,0,{number}" for number in sent], size)


def unheard(size=LIMIT):
    return pair(range(1, 4000), lambda number: False, size)


def chained(size=LIMIT):
    return pair(range(BUCKETS, BUCKETS * 4000, BUCKETS), lambda number: True, size)


JOURNALS = [("every message got", *pair(range(1, 4000), lambda number: True)),
            ("every second message got", *pair(range(1, 4000), lambda number: number % 2)),
            ("no message got", *unheard()), ("all lines of one chain", *chained())]
