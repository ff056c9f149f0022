"""How often random inputs met what they must meet, and which seeds are asked for."""


def seldom(met, asked, least):
    """What was met fewer times than the least, and how often."""
    return {words: met[words] for words in asked if met[words] < least}


def seeds_of(word):
    """The seeds that a word names: one, or the first and the last with a dash between; none is a wrong word."""
    first, _, last = word.partition("-")
    seeds = range(int(first), int(last or first) + 1)
    if not seeds:
        raise ValueError(word)
    return seeds
