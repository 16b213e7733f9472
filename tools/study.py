"""A study of a structure: rows, the search for minimal vectors, rounded and exact figures."""

from fractions import Fraction

from structures import Refused, first, lower, upper, vector_count, vectors

D = 1_000_000_000
FULL = 256


class Rounded:
    """Shares in whole billionths."""

    whole = D

    def share(self, billionths):
        return billionths

    def times_down(self, a, b):
        return a * b // D

    def times_up(self, a, b):
        return -(-a * b // D)


class Exact:
    """The same shares as fractions of the whole, unrounded."""

    whole = Fraction(1)

    def share(self, billionths):
        return Fraction(billionths, D)

    def times_down(self, a, b):
        return a * b

    times_up = times_down


class Study:
    """Opened over a structure: all shares 0, no records, no vector examined."""

    def __init__(self, structure):
        self.structure = structure
        self.rows = [([0] * top, [0] * top) for top in structure.tops]
        self.left = vectors(structure.tops)
        self.waiting = next(self.left)
        self.examined, self.finished = 0, False
        self.paths, self.cuts = [], []

    # ## Shares

    def up(self, i, s):
        return D if s == 0 else (self.rows[i][0] + [0])[s - 1]

    def down(self, i, s):
        return 0 if s == 0 else (self.rows[i][1] + [D])[s - 1]

    def there(self, component):
        return (20, lambda: not 1 <= component <= len(self.structure.tops))

    def enter(self, component, up, down):
        """Replaces a component's two rows whole."""
        first([self.there(component)])
        check_rows(self.structure.tops[component - 1], up, down)
        self.rows[component - 1] = (list(up), list(down))

    def carry(self, component, module):
        """Sets a component's rows to a module's figures."""
        first([self.there(component), (21, lambda: module.structure.best != self.structure.tops[component - 1])])
        figures = [module.figures(level) for level in range(1, module.structure.best + 1)]
        up, down = [low for low, *_ in figures], [D - high for _, high, *_ in figures]
        first([(23, lambda: disordered(up, down))])
        self.rows[component - 1] = (up, down)

    # ## The search

    def step(self, budget):
        """Examines further vectors in number order; answers how many, and finished, full or open."""
        number = 0
        while number < budget and self.waiting is not None:
            path, cut = self.records(self.waiting)
            if path and len(self.paths) >= FULL or cut and len(self.cuts) >= FULL:
                return number, "full"
            self.paths += path
            self.cuts += cut
            self.waiting = next(self.left, None)
            self.examined += 1
            number += 1
        if self.waiting is not None:
            return number, "open"
        self.finished = True
        return number, "finished"

    def records(self, vector):
        """The path and the cut record of a vector, each with its first and last level, or none."""
        s = self.structure
        level = s.level(vector)
        below = max((s.level(w) for w in lower(vector)), default=0)
        above = min((s.level(w) for w in upper(s.tops, vector)), default=s.best)
        return ([(vector, below + 1, level)] if below < level else [],
                [(vector, level + 1, above)] if level < above else [])

    def show(self, records, number, row):
        """Writes a record's vector into the row; answers its first and last level."""
        first([(31, lambda: not 1 <= number <= len(records)), (32, lambda: len(row) != len(self.structure.tops))])
        vector, low, high = records[number - 1]
        row[:] = vector
        return low, high

    # ## Figures

    def figures(self, level):
        """Low, high, and how many path and cut records the level has."""
        low, high = self.figures_in(Rounded(), level)
        return low, high, len(of_level(self.paths, level)), len(of_level(self.cuts, level))

    def exact(self, level):
        """The exact figures of low and high, as fractions of the whole."""
        return self.figures_in(Exact(), level)

    def figures_in(self, a, level):
        """Low and high of a level in an arithmetic."""
        first([(30, lambda: not 1 <= level <= self.structure.best)])
        paths, cuts = of_level(self.paths, level), of_level(self.cuts, level)
        low = self.better(a, self.best(a, paths, self.up, 0), cuts, self.up, 1)
        high = a.whole - self.better(a, self.best(a, cuts, self.down, 1), paths, self.down, 0)
        return low, high

    def best(self, a, records, share, over):
        """The best vector alone."""
        return max((self.together(a, v, share, over) for v, *_ in records), default=a.share(0))

    def together(self, a, vector, share, over):
        value = a.whole
        for i, rank in enumerate(vector):
            value = a.times_down(value, a.share(share(i, rank + over)))
        return value

    def better(self, a, alone, records, share, over):
        """Once finished, the product over the other list counts too."""
        if not self.finished:
            return alone
        value = a.whole
        for vector, *_ in records:
            none = a.whole
            for i, rank in enumerate(vector):
                none = a.times_up(none, a.whole - a.share(share(i, rank + over)))
            value = a.times_down(value, a.whole - none)
        return max(alone, value)


def of_level(records, level):
    return [r for r in records if r[1] <= level <= r[2]]


def disordered(up, down):
    """The up row rises, or the down row falls, with rank."""
    return any(a < b for a, b in zip(up, up[1:])) or any(a > b for a, b in zip(down, down[1:]))


def check_rows(top, up, down):
    """The conditions on a component's two rows."""
    first([
        (21, lambda: len(up) != top or len(down) != top),
        (22, lambda: any(x > D for x in [*up, *down])),
        (23, lambda: disordered(up, down)),
        (24, lambda: any(u + d > D for u, d in zip(up, down))),
    ])
