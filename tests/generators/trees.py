"""Random trees."""


def random_tree(rng, columns):
    """The parents of a tree of so many columns, and its root."""
    order = rng.sample(range(columns), columns)
    up = [order[0]] * columns
    for place, column in enumerate(order[1:], 1):
        up[column] = order[rng.randrange(place)]
    return up, order[0]
