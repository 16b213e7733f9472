"""Small random diaries, modules carried: low and D less high enclose the true shares, and the distances hold.

    python3 tools/diaries.py [COUNT]
"""

import random
import sys
from fractions import Fraction
from itertools import product

from cases import random_levels
from structures import Refused, table
from study import D, Study, of_level


class World:
    """A diary for each tag: histories, each a weight and a rank for every moment."""

    def __init__(self, rng, moments):
        self.rng, self.moments, self.diaries = rng, moments, {}

    def component(self, tag, top):
        histories = []
        for _ in range(self.rng.randint(1, 3)):
            base = self.rng.randint(0, top)
            ranks = tuple(min(top, max(0, base + self.rng.choice([0, 0, -1, 1]))) for _ in range(self.moments))
            histories.append((self.rng.randint(0, 4), ranks))
        if not any(weight for weight, _ in histories):
            histories.append((1, (top,) * self.moments))
        self.diaries[tag] = histories

    def honest(self, tag, top):
        """The largest honest rows of a tag's diary, or somewhat smaller ones, in order and within the whole."""
        diary = self.diaries[tag]
        whole = sum(weight for weight, _ in diary)
        slack = self.rng.choice([0, 0, 1, 10_000_000])

        def share(test):
            return max(0, D * sum(w for w, ranks in diary if all(map(test, ranks))) // whole - slack)

        return ([share(lambda r, s=s: r >= s) for s in range(1, top + 1)],
                [share(lambda r, s=s: r < s) for s in range(1, top + 1)])


class Frame:
    """A study with what lies below it: for each component a tag, or the frame of a module."""

    def __init__(self, world, tags, depth):
        rng = world.rng
        n = rng.randint(1, 3 if depth else 2)
        tops = [rng.choice([1, 1, 2]) for _ in range(n)]
        best = rng.choice([1, 2])
        own = [next(tags) for _ in tops]
        self.study = Study(table(tops, best, own, random_levels(rng, tops, best)))
        self.below = list(own)
        for i, top in enumerate(tops):
            world.component(own[i], top)
            self.study.enter(i + 1, *world.honest(own[i], top))
            if depth and rng.random() < 0.6:
                self.try_carry(world, tags, depth, i, top)
        self.study.step(rng.choice([0, rng.randint(0, 20), 1000]))

    def try_carry(self, world, tags, depth, i, top):
        module = Frame(world, tags, depth - 1)
        try:
            self.study.carry(i + 1, module.study)
            self.below[i] = module
        except Refused as refused:
            assert refused.number in (21, 23), refused.number

    def tags(self):
        for part in self.below:
            yield from part.tags() if isinstance(part, Frame) else [part]

    def level(self, run, moment):
        ranks = [part.level(run, moment) if isinstance(part, Frame) else run[part][moment] for part in self.below]
        return self.study.structure.level(ranks)


def true_shares(world, frame, level):
    """The shares of joint runs that keep the level at every moment, and that never reach it."""
    tags = list(frame.tags())
    whole = keep = never = 0
    for histories in product(*(world.diaries[tag] for tag in tags)):
        weight = 1
        for w, _ in histories:
            weight *= w
        run = {tag: ranks for tag, (_, ranks) in zip(tags, histories)}
        levels = [frame.level(run, t) for t in range(world.moments)]
        whole += weight
        keep += weight * all(x >= level for x in levels)
        never += weight * all(x < level for x in levels)
    return Fraction(keep, whole), Fraction(never, whole)


def check(world, frame):
    """Every level of a frame: enclosed, and near its exact figures."""
    study = frame.study
    n = len(study.structure.tops)
    for level in range(1, study.structure.best + 1):
        low, high, paths, cuts = study.figures(level)
        keep, never = true_shares(world, frame, level)
        assert Fraction(low, D) <= keep and Fraction(D - high, D) <= never, (low, keep, high, never)
        exact_low, exact_high = (x * D for x in study.exact(level))
        assert 0 <= exact_low - low < n * (cuts if study.finished else 1), (low, exact_low)
        assert 0 <= high - exact_high < n * (paths if study.finished else 1), (high, exact_high)
        assert paths == len(of_level(study.paths, level)) and cuts == len(of_level(study.cuts, level))


def main(count):
    rng = random.Random(7)
    levels = carried = finished = 0
    for _ in range(count):
        world = World(rng, rng.randint(1, 3))
        frame = Frame(world, iter(range(1000)), rng.choice([0, 1, 2]))
        if len(list(frame.tags())) > 8:
            continue
        check(world, frame)
        levels += frame.study.structure.best
        carried += sum(isinstance(part, Frame) for part in frame.below)
        finished += frame.study.finished
    print(f"{levels} levels enclosed and near, {carried} modules carried, {finished} searches finished")


if __name__ == "__main__":
    main(int(sys.argv[1]) if len(sys.argv) > 1 else 2000)
