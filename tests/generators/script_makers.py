"""Scripts made at random: orders brought to rest or left half way, columns that halt where it matters and come back, a root that halts late and
columns that race to take over, lines and tables near to the accepted ones, inputs at the limit. Each maker is given a random.Random and answers the bytes of a script."""
import model
from generators import script_texts
from generators.script_walks import Script, between, root_idle


# ---- banks

def calm(rng):
    """Orders one after the other, each brought to rest, or only until the root may give the next; columns halt, but not the root."""
    script = Script(rng, script_texts.tree(rng, rng.randint(2, 7)))
    for _ in range(rng.randint(2, 4)):
        script.order()
        script.walk(rng.choice([0, 5, 20]), halts=rng.choice([0, 0.1, 0.2]))
        script.until(rng.choice([root_idle, model.Bank.at_rest]))
        if rng.random() < 0.3:
            script.halt()
        if rng.random() < 0.2:
            script.rest_and_back(1)
    if rng.random() < 0.2:
        script.do(f"halt={script.bank.root}")
    return script.finish()


def unserved(rng):
    """A column halts that is awaited by one and owed by another, who leaves it unserved until the next order comes."""
    script = Script(rng, script_texts.tree(rng, rng.randint(3, 7)))
    columns = script.bank.columns
    serving = lambda line: line.startswith("ack") and not columns[min(columns[int(line.split("=")[1])].owed)].running
    for _ in range(3):
        script.order()
        script.until(between, serving)
        script.halt()
        script.until(root_idle, serving)
    script.walk(10)
    return script.finish()


def race(rng):
    """An order is half way when the root halts; the others take over, some before they receive the order and once more after it."""
    script = Script(rng, script_texts.tree(rng, rng.randint(3, 6)))
    for _ in range(rng.randint(0, 2)):
        script.order()
        script.until(model.Bank.at_rest)
    script.order()
    script.walk(rng.choice([1, 3, 6]))
    script.take_over()
    if rng.random() < 0.5:
        script.take_equal(script.running())
    if rng.random() < 0.5:
        script.halt()
    script.walk(rng.choice([20, 60]), halts=rng.choice([0, 0.05, 0.1]))
    return script.finish()


def sleeping(rng):
    """Columns take over before they receive an order and once more after it, while others sleep. Then come the packets that were held back."""
    script = Script(rng, script_texts.tree(rng, rng.randint(4, 7), rng.choice(["root", "root", "sender"])))
    script.order()
    script.until(model.Bank.at_rest)
    script.order()
    script.send_all(script.bank.root)
    script.take_over()
    sleepers = sorted(script.running(), key=lambda i: not script.bank.children(i))[:rng.randint(0, 2)]
    script.take_equal(sleepers)

    def held(line):
        step, given = line.split("=")
        if step != "take":
            return step == "ack" and int(given) in sleepers
        kind, _, to, number, _ = script.bank.network[int(given)]
        return number == 1 or to in sleepers or kind == "acknowledgement" and script.bank.columns[to].whole

    script.until(model.Bank.at_rest, held)
    script.walk(40, halts=rng.choice([0, 0.05]))
    return script.finish()


def returning(rng):
    """Columns halt and come back, some twice, with orders between; then the root halts, half way through an order or before it, and the others take
    over, those that came back among them."""
    script = Script(rng, script_texts.tree(rng, rng.randint(2, 6)))
    for _ in range(rng.randint(1, 2)):
        script.order()
        script.walk(rng.choice([0, 4, 8]), halts=rng.choice([0, 0.2]))
        script.halt()
        script.rest_and_back(3)
    if rng.random() < 0.6:
        script.order()
        script.walk(rng.choice([1, 4, 8]))
    script.take_over()
    script.walk(rng.choice([5, 20]))
    if rng.random() < 0.5:
        script.halt()
    script.rest_and_back(3)
    return script.finish()


def watched(rng):
    """Senders are watched: one halts that others have their record from. They note it, take over, and send to the running root, which is asked to
    acknowledge while it is busy, and to order while it owes."""
    script = Script(rng, script_texts.tree(rng, rng.randint(3, 7), "sender"))
    bank, root = script.bank, script.bank.root
    senders = lambda: {column.sender for column in bank.columns if column.running and bank.columns[column.sender].running} - {root}
    owes = lambda bank: bank.columns[root].owed
    for _ in range(rng.randint(1, 2)):
        script.order()
        script.until(lambda bank: senders() or bank.at_rest())
        script.walk(rng.choice([0, 5, 12]))
        if senders():
            gone = rng.choice(sorted(senders()))
            script.do(f"halt={gone}")
            script.do(f"note={root},{gone}")
        slow = rng.random() < 0.5
        script.until(owes, lambda line: slow and line == f"send={root}")
        script.do(f"ack={root}")
        script.until(lambda bank: owes(bank) or bank.at_rest())
        script.do(f"ack={root}")
        script.until(lambda bank: root_idle(bank) and owes(bank) or bank.at_rest(), lambda line: line == f"ack={root}")
        script.order()
        script.walk(rng.choice([0, 10]), halts=rng.choice([0, 0.1]))
        if rng.random() < 0.4:
            script.rest_and_back(2)
    return script.finish()


def lost(rng):
    """The one column that has heard of an order halts with the root, and comes back to a bank that never hears of it."""
    script = Script(rng, script_texts.tree(rng, rng.randint(3, 6)))
    root = script.bank.root
    for _ in range(rng.randint(0, 1)):
        script.order()
        script.until(model.Bank.at_rest)
    script.order()
    script.do(f"send={root}")
    script.do("take=0")
    heard = [i for i, column in enumerate(script.bank.columns) if column.number == len(script.bank.orders)]
    script.do(f"halt={','.join(map(str, heard))}")
    script.rest_and_back(2)
    script.walk(rng.choice([0, 10]), halts=0.1)
    script.rest_and_back(2)
    return script.finish()


def crowd(rng, watch):
    """The fullest network that is known: the root halts with its order under way, and every other column takes over before it receives the order and
    once more after it. Where the root is watched, one receives the order from the root, the others from that one, so that the root's packets to them
    stay under way. Where senders are watched, all receive it from the root, the one sender that they have noted."""
    root = rng.randrange(16)
    script = Script(rng, script_texts.table(16, root, [root] * 16) + ("watch=sender\n" if watch == "sender" else ""))
    script.order()
    script.send_all(root)
    script.do(f"halt={root}")
    first, *others = (i for i in range(16) if i != root)
    for i in (first, *others):
        script.do(f"note={i},{root}")
        script.do(f"all={i}")
        script.send_all(i)
    for sender, i in ((root, first), *((first if watch == "root" else root, other) for other in others)):
        script.do(f"take={[packet[1:4] for packet in script.bank.network].index((sender, i, 1))}")
        script.do(f"ack={i}")
        script.do(f"all={i}")
        script.send_all(i)
    return script


def crowded(rng):
    return crowd(rng, "root").finish("rest")


def crowded_by_senders(rng):
    """The last place is taken, and none after it; then a column halts to which packets are under way from the oldest place to the newest."""
    script = crowd(rng, "sender")
    packets = len(script.bank.network)
    script.do(f"take={packets}")
    script.do(f"take={packets - 1}")
    script.do(f"halt={script.running()[0]}")
    script.do(f"take={len(script.bank.network)}")
    return script.finish("rest")


def wandering(rng):
    """Steps of any kind in any bank."""
    script = Script(rng, script_texts.tree(rng, rng.choice([1, 2, 3, 4, 8, 16, rng.randint(1, 16)])))
    script.walk(rng.choice([5, 40, 80]), halts=rng.choice([0, 0.02, 0.1]), orders=rng.choice([0.05, 0.2]))
    if rng.random() < 0.3:
        script.do(f"halt={script.bank.root}")
        script.walk(40, halts=rng.choice([0, 0.1]))
    return script.finish()


# ---- texts

def blind(rng):
    """Lines of any numbers, and lines near to the forms, among accepted steps."""
    columns = rng.randint(1, 8)
    script = Script(rng, script_texts.tree(rng, columns))
    for _ in range(30):
        script.do(script_texts.line(rng, columns))
        script.do(script_texts.near(rng, rng.choice(rng.choice(script_texts.FORMS)[1:])))
        script.walk(2)
    return script.finish()


def unended(rng):
    """A script, or a table alone, with its last bytes cut off."""
    data = rng.choice([calm(rng), script_texts.tree(rng, rng.randint(1, 16)).encode()])
    return data[:-rng.choice([1, 1, 2, 3, 10])]


def unended_table(rng):
    """A table alone of three, four or five lines, without its last byte."""
    lines = script_texts.tree(rng, rng.randint(1, 16)).splitlines()
    return "\n".join(lines[:rng.randint(3, len(lines))]).encode()


def damaged(rng):
    return script_texts.damaged(rng, calm(rng))


def filled(rng, size):
    """A script that one line fills up to a size, ended or not."""
    data = calm(rng) + rng.choice([b"send=0", b"x", b""])
    return data.ljust(size - 1, b"0") + rng.choice([b"\n", b"0"])


def at_limit(rng):
    return filled(rng, model.LIMIT)


def past_limit(rng):
    return filled(rng, model.LIMIT + 1)


def refused_tables(rng):
    """Tables of every near form and with every wrong number, and lines that must not be read."""
    for k in range(30):
        tables = [script_texts.malformed_table(rng, templates[k % len(templates)]) for _, *templates in script_texts.TABLE_FORMS]
        tables += [script_texts.no_tree(rng, wrong) for wrong in range(script_texts.WRONG)]
        yield from (f"{table}send=0\nlist=0\n".encode() for table in tables)


MAKERS = [(calm, 200), (unserved, 110), (race, 200), (sleeping, 120), (returning, 100), (watched, 120), (lost, 40), (crowded, 1), (wandering, 60), (blind, 70), (unended, 60), (damaged, 60),
          (at_limit, 25), (past_limit, 25), (unended_table, 20), (crowded_by_senders, 1)]


def scripts(rng):
    """Every kind of script, in its number."""
    yield from refused_tables(rng)
    for maker, count in MAKERS:
        yield from (maker(rng) for _ in range(count))
