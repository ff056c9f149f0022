"""Texts of lines with a byte dropped or changed, or with bytes put in that no reader may pass over, and what a wrong reader strikes from a text that takes them."""
RETURNS = rb"(?m)\r$"
SPACES_AROUND = rb"(?m)^ +| +$"
SPACES_WITHIN = rb" +(?=[=,])|(?<=[=,]) +"


def dropped(rng, text):
    at = rng.randrange(len(text))
    return text[:at] + text[at + 1:]


def changed(rng, text, others):
    """The text with a byte of the others in the place of one."""
    at = rng.randrange(len(text))
    return text[:at] + bytes([rng.choice(others)]) + text[at + 1:]


def put(rng, text, mark, places):
    """The text with the mark at one of the places, or at each of them."""
    for at in sorted(places if rng.random() < 0.3 else [rng.choice(places)], reverse=True):
        text = text[:at] + mark + text[at:]
    return text


def ends(text):
    """The places where a line ends."""
    return [at for at, byte in enumerate(text) if byte == ord("\n")]


def returned(rng, text):
    """CR where a line ends."""
    return put(rng, text, b"\r", ends(text))


def spaced_around(rng, text):
    """A space where a line begins or ends."""
    return put(rng, text, b" ", [0, *(place for end in ends(text) for place in (end, end + 1))][:-1])


def spaced_within(rng, text):
    """A space beside what divides a line's parts."""
    return put(rng, text, b" ", [place for at, byte in enumerate(text) if byte in b"=," for place in (at, at + 1)])
