"""The names that come nearest to one, by Levenshtein's distance over bytes."""
from plain_coverage.counting import LONGEST

MOST_NEAR = 3
FARTHEST = 3


def distance(one, other):
    """How many bytes have to be put in, taken out or replaced to make the one the other."""
    row = list(range(len(other) + 1))
    for i, byte in enumerate(one, 1):
        before, row[0] = row[0], i
        for j, its in enumerate(other, 1):
            before, row[j] = row[j], min(row[j] + 1, row[j - 1] + 1, before + (byte != its))
    return row[-1]


def own_name(name):
    """What stands behind the last colon, as in SYSTEM:EVENT."""
    return name.rpartition(b":")[2]


def nearest(name, names):
    """The nearest of names by first appearance, with their distances: at most three, and only near ones."""
    if len(name) > LONGEST:
        return []
    farthest = min(len(own_name(name)) // 3, FARTHEST)
    found = [(min(distance(a, b) for a in (name, own_name(name)) for b in (other, own_name(other))), other) for other in names]
    return sorted((it for it in found if it[0] <= farthest), key=lambda it: it[0])[:MOST_NEAR]
