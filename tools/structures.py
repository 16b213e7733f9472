"""Structures of multistate frames: tables, feeds and pairs, their checks, and their vectors in number order."""

from itertools import product


class Refused(Exception):
    """A call that refuses, with its number."""

    def __init__(self, number):
        super().__init__(number)
        self.number = number


def first(conditions):
    """Refuses with the number of the first condition that holds; each is asked only if none before it holds."""
    for number, holds in conditions:
        if holds():
            raise Refused(number)


def vector_count(tops):
    count = 1
    for top in tops:
        count *= top + 1
    return count


def vectors(tops):
    """All vectors in number order: from all ranks zero, the last component changing fastest."""
    return product(*(range(top + 1) for top in tops))


def lower(vector):
    """The vectors one rank lower in one component."""
    for i, rank in enumerate(vector):
        if rank > 0:
            yield vector[:i] + (rank - 1,) + vector[i + 1:]


def upper(tops, vector):
    """The vectors one rank higher in one component."""
    for i, rank in enumerate(vector):
        if rank < tops[i]:
            yield vector[:i] + (rank + 1,) + vector[i + 1:]


class Structure:
    """Tops, tags, a best level, and the level of each vector."""

    def __init__(self, tops, best, tags, level):
        self.tops, self.best, self.tags, self.rule = tuple(tops), best, tuple(tags), level

    def level(self, vector):
        """None exactly where the vector has another length or a rank over its top."""
        vector = tuple(vector)
        if len(vector) != len(self.tops) or any(r > a for r, a in zip(vector, self.tops)):
            return None
        return self.rule(vector)


BINARY = Structure((1,), 1, (0,), lambda v: v[0])


def check_levels(tops, best, levels):
    """The conditions on a table's levels."""
    tops = tuple(tops)

    def falls():
        number = {v: k for k, v in enumerate(vectors(tops))}
        return any(levels[number[w]] < levels[k] for v, k in number.items() for w in upper(tops, v))

    first([
        (14, lambda: vector_count(tops) > 65536),
        (15, lambda: len(levels) != vector_count(tops)),
        (16, lambda: any(level > best for level in levels)),
        (17, lambda: levels[0] != 0 or levels[-1] != best),
        (18, falls),
    ])


def table(tops, best, tags, levels):
    """The table of one level for each vector."""
    first([
        (10, lambda: not 1 <= len(tops) <= 12),
        (11, lambda: len(tags) != len(tops)),
        (12, lambda: any(not 1 <= top <= 7 for top in tops)),
        (13, lambda: not 1 <= best <= 7),
    ])
    check_levels(tops, best, levels)
    by_vector = dict(zip(vectors(tops), levels))
    return Structure(tops, best, tags, by_vector.__getitem__)


def feed(tops, tags, weights, thresholds):
    """The level is the number of thresholds that the sum of weight times rank reaches."""
    def total(vector):
        return sum(w * r for w, r in zip(weights, vector))

    first([
        (10, lambda: not 1 <= len(tops) <= 12),
        (11, lambda: len(tags) != len(tops) or len(weights) != len(tops)),
        (12, lambda: any(not 1 <= top <= 7 for top in tops)),
        (13, lambda: not 1 <= len(thresholds) <= 7),
        (14, lambda: vector_count(tops) > 65536),
        (16, lambda: any(weight > 1000 for weight in weights)),
        (17, lambda: thresholds[0] == 0 or thresholds[-1] > total(tops)),
        (18, lambda: any(b < a for a, b in zip(thresholds, thresholds[1:]))),
    ])
    return Structure(tops, len(thresholds), tags, lambda v: sum(t <= total(v) for t in thresholds))


def pair(series, one, other):
    """Two structures in series (the smaller level) or in parallel (the larger)."""
    n = len(one.tops)
    join = min if series else max
    first([
        (10, lambda: not 1 <= n + len(other.tops) <= 12),
        (13, lambda: one.best != other.best),
        (14, lambda: vector_count(one.tops) * vector_count(other.tops) > 65536),
    ])
    return Structure(one.tops + other.tops, one.best, one.tags + other.tags,
                     lambda v: join(one.level(v[:n]), other.level(v[n:])))
