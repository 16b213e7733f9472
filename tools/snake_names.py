#!/usr/bin/env python3
"""Respells the repository's own definitions, lemmas, fields and constructors of crates/*/specs and crates/*/proofs from
kebab case to snake case (facts to camel case), wherever they are named: in specs/, proofs/, the clauses of src/ and the
edits that must fail. Names of goals, which the check makes, and names of the library stay. Run once, at the top."""
import glob
import re
import sys

ANTT = sorted(glob.glob("crates/*/specs/**/*.antt", recursive=True) + glob.glob("crates/*/proofs/**/*.antt", recursive=True))
CLAUSED = sorted(glob.glob("crates/*/src/**/*.rt", recursive=True) + glob.glob("crates/*/must-fail/*.edit"))
NAME = r"[A-Za-z][\w']*(?:-[\w'ℕ]+)+"
HEAD = re.compile(r"^\s*(?:(?:abbrev|unfoldable|ruleset|pub|data|record)\s+)*(" + NAME + r")(?:\s+[^\s:=]+|\s*\{[^}]*\})*\s*:\s*(?!=)(.*)")
# names of the check's own that a proof file answers
MADE = re.compile(r"^(goal\.|.*\bTheImpl\b)")
# a word of the library that has another name today
APART = {"getD-each-then": "get_or_each_then", "getD-share": "get_or_share"}


def without_comments(text, mark):
    return re.sub(mark + r"[^\n]*", "", text)


def own_names():
    """Names with a dash that a signature of this repository introduces."""
    names = set()
    made = set()
    for file in ANTT:
        for line in without_comments(open(file).read(), "--").split("\n"):
            head = HEAD.match(line)
            if head:
                (made if MADE.match(head.group(2)) else names).add(head.group(1))
    return names - made


def respelled(name):
    if name in APART:
        return APART[name]
    if name[0].isupper():
        return "".join(part[0].upper() + part[1:] for part in name.split("-"))
    return name.replace("-", "_")


def main():
    names = {name: respelled(name) for name in own_names()}
    token = re.compile(r"(?<![\w'-])(" + NAME + r")(?![\w'-])")

    def turn(text):
        return token.sub(lambda m: names.get(m.group(1), m.group(1)), text)

    for file in ANTT + CLAUSED:
        text = open(file).read()
        mark = "//" if file.endswith(".rt") else "--" if file.endswith(".antt") else None
        lines = text.split("\n")
        for i, line in enumerate(lines):
            at = line.find(mark) if mark else -1
            lines[i] = turn(line) if at < 0 else turn(line[:at]) + line[at:]
        if "\n".join(lines) != text:
            open(file, "w").write("\n".join(lines))
    print(len(names), "names", file=sys.stderr)


if __name__ == "__main__":
    main()
