"""Case texts made at random, good and damaged, and texts at the edge of every fault."""

import random

from structures import lower, vector_count, vectors
from study import D


def random_levels(rng, tops, best):
    """Levels that rise from 0 to best."""
    levels = {}
    for v in vectors(tops):
        least = max((levels[w] for w in lower(v)), default=0)
        levels[v] = max(least, rng.choice([least, least, rng.randint(0, best)]))
    levels[tuple(0 for _ in tops)] = 0
    levels[tuple(tops)] = best
    return list(levels.values())


def random_rows(rng, top):
    """Rows that enter accepts."""
    whole = rng.choice([D, D, 10, 1000, 333_333_333])
    up = sorted((rng.randint(0, whole) for _ in range(top)), reverse=True)
    down = []
    for u in up:
        down.append(max([rng.randint(0, D - u) if rng.random() < 0.7 else D - u] + down[-1:]))
    return up, [min(d, D - u) for u, d in zip(up, down)]


def shape(rng):
    """Tops with few enough vectors to search them quickly."""
    while True:
        tops = [rng.choice([1, 1, 1, 2, 2, 3, 7]) for _ in range(rng.choice([1, 2, 2, 3, 3, 4, 5]))]
        if vector_count(tops) <= 128:
            return tops


def lines_of(rng):
    """The lines of a good case."""
    tops = shape(rng)
    best = rng.randint(1, 7)
    lines = [
        f"components={len(tops)}",
        f"levels={best}",
        "tops=" + ",".join(map(str, tops)),
        "tags=" + ",".join(str(rng.choice([rng.randint(0, 9), rng.randint(0, 4_294_967_295)])) for _ in tops),
        "table=" + "".join(map(str, random_levels(rng, tops, best))),
    ]
    for top in tops:
        up, down = random_rows(rng, top)
        lines += ["up=" + ",".join(map(str, up)), "down=" + ",".join(map(str, down))]
    return lines


VALUES = ["", "0", "00", "01", "1", "2", "7", "8", "9", "12", "13", "255", "256", "-1", "+1", " 1", "1 ", "1,", ",1", "1,,1", "1,1", "2,1",
          "1,2,3", "1,8", "0,1", "7,7,7,7,7,1", "7,7,7,7,7,2", "999999999", "1000000000", "1000000001", "4294967295", "4294967296",
          "9999999999", "99999999999", "x", "\r", "0x1", "1.0", "01234567", "1000000000,0", "0,1000000000", "600000000", "400000001"]


def damaged(rng, lines):
    """The bytes of the lines with one thing changed."""
    lines = list(lines)
    kind = rng.randrange(8)
    place = rng.randrange(len(lines))
    key, _, value = lines[place].partition("=")
    if kind == 0:
        lines[place] = key + "=" + rng.choice(VALUES)
    elif kind == 1:
        lines[place] = rng.choice([key, key + " =" + value, " " + key + "=" + value, key.upper() + "=" + value, "", "=" + value])
    elif kind == 2:
        del lines[place]
    elif kind == 3:
        lines.insert(place, rng.choice(lines + ["", "up=1", "more"]))
    elif kind == 4:
        parts = value.split(",")
        parts[rng.randrange(len(parts))] = rng.choice(VALUES)
        lines[place] = key + "=" + ",".join(parts)
    elif kind == 5:
        digits = list(lines[4])
        at = rng.randrange(len(digits))
        digits[at] = rng.choice("0123456789,x")
        lines[4] = "".join(digits)
    text = bytearray(("\n".join(lines) + "\n").encode())
    if kind == 6:
        at = rng.randrange(len(text))
        change = rng.randrange(3)
        if change == 0:
            text[at] = rng.choice(b"0123456789,=\n\r \x00\xff")
        elif change == 1:
            del text[at]
        else:
            text.insert(at, rng.choice(b"0123456789,=\n\r \x00\xff"))
    elif kind == 7:
        text = rng.choice([text[:-1], text + b"\n", text + b"x", text[:rng.randrange(len(text))], text.replace(b"\n", b"\r\n")])
    return bytes(text)


def rising(n, least):
    """A table of n components of two ranks, level 1 where at least so many are up."""
    return "".join("1" if sum(v) >= least else "0" for v in vectors([1] * n))


def frame(tops, best, levels, rows):
    """A text with the same rows for every component."""
    head = [f"components={len(tops)}", f"levels={best}", "tops=" + ",".join(map(str, tops)),
            "tags=" + ",".join(map(str, range(len(tops)))), "table=" + levels]
    return ("\n".join(head + rows * len(tops)) + "\n").encode()


USUAL = ["up=900000000", "down=100000000"]

# Texts at the edges that random ones hardly meet: their size, many vectors, a full list, every order of two faults.
EDGES = [
    b"", b"\n", b"\x00", b"," * 65536, b"," * 65537, b"components=1\n" * 5042,
    frame([1] * 10, 1, rising(10, 5), USUAL),
    frame([1] * 11, 1, rising(11, 6), USUAL),
    frame([7, 7, 7, 7, 7, 1], 1, "", USUAL),
    frame([7, 7, 7, 7, 7, 2], 1, "", USUAL),
    frame([7, 7, 7, 7, 7, 2], 9, "", USUAL),
    frame([1] * 12, 1, rising(12, 12), USUAL),
    frame([1] * 13, 1, "", USUAL),
    frame([1, 2], 1, "010111", USUAL),
    frame([2], 2, "012", ["up=5,6", "down=0,0"]),
    frame([2], 2, "012", ["up=6,5", "down=3,2"]),
    frame([2], 2, "012", ["up=1000000001,5", "down=3,2"]),
    frame([2], 2, "012", ["up=600000000,0", "down=400000000,1000000000"]),
    frame([2], 2, "012", ["up=600000000,0", "down=400000001,1000000000"]),
    frame([1] * 12, 1, rising(12, 6), USUAL) + b"x" * 70000,
]


def texts(seed, count):
    """The edges, and so many random texts, half of them damaged."""
    rng = random.Random(seed)
    yield from EDGES
    for _ in range(count):
        lines = lines_of(rng)
        yield ("\n".join(lines) + "\n").encode() if rng.random() < 0.4 else damaged(rng, lines)
