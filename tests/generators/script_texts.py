"""Texts at random: lines and tables, those near to them that are neither, tables that are no tree, and damaged bytes. FORMS and TABLE_FORMS name
what is near; a template makes each, and as a pattern it knows it again."""
import re

# A field of a template: the pattern that knows it, and how it is made.
FIELDS = {
    "step": ("(?:send|ack|all|halt|back|list)", lambda rng: rng.choice(["send", "ack", "all", "halt", "back", "list"])),
    "single": ("(?:send|ack|all|back|list)", lambda rng: rng.choice(["send", "ack", "all", "back", "list"])),
    "shout": ("(?:SEND|Send|ACK|List)", lambda rng: rng.choice(["SEND", "Send", "ACK", "List"])),
    "digit": ("[0-9]", lambda rng: str(rng.randrange(10))),
    "column": ("(?:1[0-5]|[0-9])", lambda rng: str(rng.choice([0, 1, 2, rng.randrange(16)]))),
    "three": ("[1-9][0-9]{2}", lambda rng: str(rng.randint(100, 999))),
    "fifteen": ("[0-9a-f]{15}", lambda rng: rng.randbytes(8).hex()[1:]),
    "upper": ("(?=.*[A-F])[0-9A-F]{16}", lambda rng: "A" + rng.randbytes(8).hex().upper()[1:]),
    "line": ("[a-z]+=[0-9a-f,]+", lambda rng: line(rng, 16)),
    "parents": ("[0-9](?:,[0-9])*", lambda rng: ",".join(str(rng.randrange(3)) for _ in range(rng.randint(1, 4)))),
}
FORMS = [
    ("empty line", ""),
    ("uppercase hexadecimal", "order={upper}"),
    ("letter past f", "order={fifteen}g"),
    ("order of 15 digits", "order={fifteen}"),
    ("order of 17 digits", "order={fifteen}00"),
    ("leading zero", "{step}=0{digit}"),
    ("leading zero in a note", "note=0{digit},{column}", "note={column},0{digit}"),
    ("leading zero of a place", "take=0{digit}", "take=00{digit}"),
    ("column of three digits", "{step}={three}"),
    ("column of three digits in a note", "note={three},{column}", "note={column},{three}"),
    ("place of four digits", "take={three}{digit}"),
    ("leading zero of a limit", "run=0{digit}", "run=00", "run=0{three}"),
    ("limit of five digits", "run={three}{digit}{digit}", "run=10000"),
    ("no numeral", "{step}=", "take=", "note=,", "order=", "run="),
    ("note of one column", "note={column}", "note={column},", "note=,{column}"),
    ("note of three columns", "note={column},{column},{column}"),
    ("two columns where one is asked for", "{single}={column},{column}"),
    ("trailing comma", "{step}={column},", "note={column},{column},"),
    ("empty numeral in a halt", "halt=,{column}", "halt={column},,{column}", "halt={column},{column},"),
    ("bad numeral in a halt", "halt={column},0{digit}", "halt={column},{three}", "halt={three},{column}", "halt={column}, {column}"),
    ("space before", " {line}"),
    ("space after", "{line} "),
    ("space within", "{step}= {column}", "{step} ={column}", "note={column}, {column}"),
    ("carriage return", "{line}\r"),
    ("uppercase key", "{shout}={column}"),
    ("sign", "{step}=+{column}", "{step}=-{column}"),
    ("no equals sign", "{step}{column}", "{step}:{column}"),
    ("unknown key", "jump={column}", "{step}s={column}"),
    ("sequence past the table", "first={column}", "first={column},{column}", "first={parents}"),
    ("watch past the table", "watch=root", "watch=sender", "watch={column}"),
    ("byte above 127", "{step}=\xb2", "{line}\xa0"),
    ("byte 0", "{step}=\0", "{line}\0"),
]
WRONG = 10
# A template of one line takes the place of the line with its key.
TABLE_FORMS = [
    ("table with a leading zero", "columns=0{digit}", "root=0{digit}", "up=0{digit},{parents}", "up={parents},0{digit}",
     "first=0{digit},{parents}", "first={parents},0{digit}"),
    ("table with three digits", "columns={three}", "root={three}", "up={parents},{three}", "first={parents},{three}"),
    ("table with no numeral", "columns=", "root=", "up=", "up={parents},,0", "first=", "first={parents},,0"),
    ("table with a trailing comma", "columns={digit},", "root={digit},", "up={parents},", "first={parents},"),
    ("table with a space", "columns= {digit}", "columns={digit} ", "root={digit} ", "up={parents}, 0", "up={parents} ", " up={parents}", "first={parents}, 0", "first={parents} "),
    ("table with a carriage return", "columns={digit}\r", "root={digit}\r", "up={parents}\r", "first={parents}\r"),
    ("table with an uppercase key", "Columns={digit}", "ROOT={digit}", "Up={parents}"),
    ("table with an empty line", "\ncolumns={digit}", "\nroot={digit}", "\nup={parents}"),
    ("table in another order", "root={digit}\ncolumns={digit}\nup={parents}", "columns={digit}\nup={parents}\nroot={digit}"),
    ("table of two lines", "columns={digit}\nroot={digit}\nsend=0", "columns={digit}\nup={parents}\nsend=0", "root={digit}\nup={parents}\nsend=0"),
    ("table with another watch", "watch=", "watch={digit}", "watch=roots", "watch=Sender", "watch=root,sender", "watch= root", "watch=sender ", "watch=root\r"),
    ("17 columns in a malformed table", "columns=17\nroot=0\nup={parents},", "columns=17\nroot=99\nup="),
    ("no column in a malformed table", "columns=0\nroot=0\nup={parents},", "columns=0\nroot=\nup={parents}"),
]


def patterns(forms):
    """Each form's name with the pattern that knows its lines in a text."""
    known = lambda template: re.sub(r"\\{(\w+)\\}", lambda field: FIELDS[field[1]][0], re.escape(template))
    return [(name, re.compile(f"^(?:{'|'.join(map(known, templates))})\n", re.M)) for name, *templates in forms]


def near(rng, template):
    return re.sub(r"{(\w+)}", lambda field: FIELDS[field[1]][1](rng), template)


def line(rng, columns):
    """A line of its form, with numbers of the bank and others."""
    number = lambda: rng.choice([rng.randrange(columns), rng.randrange(columns), columns, rng.randrange(100)])
    return rng.choice([f"order={rng.randbytes(8).hex()}", f"send={number()}", f"take={rng.choice([0, 1, rng.randrange(1000)])}", f"ack={number()}",
                       f"all={number()}", f"note={number()},{number()}", f"halt={number()}", f"halt={number()},{number()}",
                       f"back={number()}", f"list={number()}", f"run={rng.choice([0, 1, number(), 10 * number(), 1000 + 90 * number()])}"])


# ---- tables

def parents(rng, columns):
    """The root and the parents of a tree of any shape, deep or flat."""
    order = rng.sample(range(columns), columns)
    up = [order[0]] * columns
    reach = rng.choice([1, 2, columns])
    for place in range(1, columns):
        up[order[place]] = order[0 if rng.random() < 0.3 else rng.randint(max(0, place - reach), place - 1)]
    return order[0], up


def sequence(rng, columns):
    """A sequence of any kind, or none."""
    ascending = list(range(columns))
    return rng.choice([None, None, rng.sample(ascending, columns), rng.sample(ascending, columns), ascending[::-1], ascending])


def table(columns, root, up, first=None, watch=None):
    """A table, with the lines of a sequence and of a watch where there are such."""
    listed = "" if first is None else f"first={','.join(map(str, first))}\n"
    watched = "" if watch is None else f"watch={watch}\n"
    return f"columns={columns}\nroot={root}\nup={','.join(map(str, up))}\n{listed}{watched}"


def tree(rng, columns, watch=""):
    """A table of any kind, or with this watch."""
    return table(columns, *parents(rng, columns), sequence(rng, columns), watch or rng.choice([None, None, "root", "sender", "sender"]))


def malformed_table(rng, template):
    """A table with a line that is near to its form."""
    text = near(rng, template)
    if text.count("=") > 1:
        return text + "\n"
    keys = ["columns", "root", "up", "first", "watch"]
    place = lambda line: keys.index(re.search("[A-Za-z]+", line)[0].lower())
    lines = [line for line in tree(rng, rng.randint(1, 16)).splitlines() if place(line) != place(text)]
    return "".join(f"{line}\n" for line in sorted(lines + [text], key=place))


def no_tree(rng, wrong):
    """A table of the form with one of WRONG wrong numbers: the count, the root, a parent, the length, a climb that goes round, or in the sequence
    its length, a column listed twice or a number that is no column's."""
    columns = rng.randint(2, 16)
    root, up = parents(rng, columns)
    other = rng.choice([i for i in range(columns) if i != root])
    first = sequence(rng, columns) if wrong < 7 else rng.sample(range(columns), columns)
    if wrong == 0:
        columns = 0
    elif wrong == 1:
        columns, root = rng.choice([17, rng.randint(17, 99)]), rng.choice([root, 99])
    elif wrong == 2:
        root = rng.choice([columns, rng.randint(columns, 99)])
    elif wrong == 3:
        up[other] = rng.choice([columns, rng.randint(columns, 99)])
    elif wrong == 4:
        up = up[:-1] if rng.random() < 0.5 else up + [rng.randrange(columns)] * rng.choice([1, 20])
    elif wrong == 5:
        up[root] = other
    elif wrong == 6:
        up[up[other] if up[other] != root else other] = other
    elif wrong == 7:
        first = first[:-1] if rng.random() < 0.5 else first + [rng.randrange(columns)] * rng.choice([1, 20])
    elif wrong == 8:
        first[root] = first[other]
    else:
        first[other] = rng.choice([columns, rng.randint(columns, 99)])
    return table(columns, root, up, first, rng.choice([None, "root", "sender"]))


# ---- bytes

def damaged(rng, data):
    """Bytes flipped, cut out, doubled, or an end cut off."""
    data = bytearray(data)
    for _ in range(rng.randint(1, 4)):
        place = rng.randrange(len(data)) if rng.random() < 0.5 else rng.randrange(min(len(data), 40))
        kind = rng.randrange(4)
        if kind == 0:
            data[place] = rng.choice([rng.randrange(256), 10, 44, 48, 49, 61])
        elif kind == 1:
            del data[place:place + rng.randint(1, 3)]
        elif kind == 2:
            data[place:place] = data[place:place + rng.randint(1, 5)]
        else:
            del data[len(data) - rng.randint(1, 3):]
        data = data or bytearray(b"x")
    return bytes(data)
