"""Reading a case text, and its report: the same as the report program, from the rules alone.

    python3 tools/casetext.py < examples/two-components.case
"""

import re
import sys

from structures import Refused, check_levels, first, table, vector_count
from study import Study, check_rows

NUMBER = re.compile(rb"(0|[1-9][0-9]{0,9})\Z")


class Fault(Exception):
    """What is wrong with a text, and the line where reading stopped."""

    def __init__(self, number, line):
        super().__init__(number, line)
        self.number, self.line = number, line


class Lines:
    """The lines of a text, taken one by one."""

    def __init__(self, text):
        self.rest, self.line = text, 0

    def value(self, key):
        """The value of the next line, which begins with the key and '='."""
        self.line += 1
        line, end, rest = self.rest.partition(b"\n")
        if not end or not line.startswith(key + b"="):
            raise Fault(40, self.line)
        self.rest = rest
        return line[len(key) + 1:]

    def number(self, key):
        return self.whole(self.value(key))

    def numbers(self, key):
        return [self.whole(x) for x in self.value(key).split(b",")]

    def whole(self, digits):
        if not NUMBER.match(digits) or int(digits) > 4_294_967_295:
            raise Fault(41, self.line)
        return int(digits)

    def judge(self, check, *args):
        """A refusal becomes a fault of the line last read."""
        try:
            check(*args)
        except Refused as refused:
            raise Fault(refused.number, self.line) from None


def read(text):
    """The study that a case text asks for, its shares entered."""
    if len(text) > 65536:
        raise Fault(39, 0)
    lines = Lines(text)
    n = lines.number(b"components")
    lines.judge(first, [(10, lambda: not 1 <= n <= 12)])
    best = lines.number(b"levels")
    lines.judge(first, [(13, lambda: not 1 <= best <= 7)])
    tops = lines.numbers(b"tops")
    lines.judge(first, [
        (11, lambda: len(tops) != n),
        (12, lambda: any(not 1 <= top <= 7 for top in tops)),
        (14, lambda: vector_count(tops) > 65536),
    ])
    tags = lines.numbers(b"tags")
    lines.judge(first, [(11, lambda: len(tags) != n)])
    digits = lines.value(b"table")
    if not re.match(rb"[0-7]*\Z", digits):
        raise Fault(41, lines.line)
    levels = [digit - 48 for digit in digits]
    lines.judge(check_levels, tops, best, levels)
    study = Study(table(tops, best, tags, levels))
    for i, top in enumerate(tops):
        up, down = lines.numbers(b"up"), lines.numbers(b"down")
        lines.judge(check_rows, top, up, down)
        study.enter(i + 1, up, down)
    if lines.rest:
        raise Fault(42, lines.line + 1)
    return study


def report(text):
    """What the report program prints."""
    try:
        study = read(text)
    except Fault as fault:
        return f"fault={fault.number}\nline={fault.line}\n"
    _, word = study.step(65536)
    out = f"search={word}\n"
    for level in range(1, study.structure.best + 1):
        low, high, paths, cuts = study.figures(level)
        out += f"level={level}\nlow={low}\nhigh={high}\npaths={paths}\ncuts={cuts}\n"
    return out


if __name__ == "__main__":
    sys.stdout.write(report(sys.stdin.buffer.read()))
