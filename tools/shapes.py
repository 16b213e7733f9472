#!/usr/bin/env python3
"""Shapes in the code of crates/*/src: where one form may stand in several places.

    tools/shapes.py twins       functions whose bodies are the same but for names, numbers and types
    tools/shapes.py parameters  two or more parameters, by name and type, that three or more functions take together
    tools/shapes.py facts       facts of clauses that stand in three or more functions
    tools/shapes.py unused      lemmas of proofs/ and specs/ that no other line names

Tests (the crate acceptance) are left out of the first three.
"""
import collections
import glob
import itertools
import os
import re
import sys

TOP = os.path.dirname(os.path.dirname(os.path.abspath(__file__)))
KEYWORDS = set("as bool break continue else enum false fn for if impl in let loop match mut None Ok Err pub ref return self Self Some true use where while".split())


def close(text, at, left, right):
    """The place after the bracket that closes the one at `at`."""
    depth = 0
    for i in range(at, len(text)):
        if text[i] == left:
            depth += 1
        elif text[i] == right:
            depth -= 1
            if depth == 0:
                return i + 1
    return len(text)


def functions():
    """Name, file, parameters, clauses and body of each function."""
    for path in sorted(glob.glob(f"{TOP}/crates/*/src/**/*.rt", recursive=True)):
        if "/acceptance/" in path:
            continue
        text = re.sub(r"//[^\n]*", "", open(path).read())
        for found in re.finditer(r"\bfn (\w+)(<[^(]*>)?\(", text):
            end = close(text, found.end() - 1, "(", ")")
            parameters = [" ".join(p.split()) for p in re.split(r",(?![^<\[(]*[>\])])", text[found.end() : end - 1]) if p.strip()]
            clauses, at = [], end
            while True:
                head = re.compile(r"[^{};]*?\b(requires|ensures)\*?\s*(\w+\s*)?\{").match(text, at)
                if not head:
                    break
                stop = close(text, head.end() - 1, "{", "}")
                clauses.append((head.group(1), " ".join(text[head.end() : stop - 1].split())))
                at = stop
            body = re.compile(r"[^{;]*\{").match(text, at)
            yield found.group(1), os.path.relpath(path, TOP), parameters, clauses, text[body.end() : close(text, body.end() - 1, "{", "}") - 1] if body else ""


def shape(body):
    """The body with one sign for each name, number and type."""
    return " ".join("n" if re.match(r"\w", t) and t not in KEYWORDS else t for t in re.findall(r"b'.'|\w+|[^\w\s]", body))


def show(groups, least):
    count = 0
    for key, places in sorted(groups.items(), key=lambda it: (-len(it[1]), it[0])):
        if len(places) >= least:
            count += 1
            print(f"{len(places)}  {key}")
            for place in places:
                print(f"       {place}")
    print(f"{count} found")


def main():
    what = sys.argv[1] if len(sys.argv) > 1 else ""
    groups = collections.defaultdict(list)
    if what == "twins":
        for name, path, _, _, body in functions():
            tokens = shape(body)
            if len(tokens.split()) > 4:
                groups[tokens[:100]].append(f"{path} {name}")
        show(groups, 2)
    elif what == "parameters":
        for name, path, parameters, _, _ in functions():
            plain = sorted(p for p in parameters if "self" not in p.split(":")[0])
            for pair in itertools.combinations(plain, 2):
                groups[", ".join(pair)].append(f"{path} {name}")
        show(groups, 3)
    elif what == "facts":
        for name, path, _, clauses, _ in functions():
            for kind, fact in clauses:
                groups[f"{kind} {fact}"].append(f"{path} {name}")
        show(groups, 3)
    elif what == "unused":
        texts = {p: open(p).read() for p in glob.glob(f"{TOP}/crates/*/*/**/*.antt", recursive=True) + glob.glob(f"{TOP}/crates/*/src/**/*.rt", recursive=True) if "/out/" not in p}
        words = collections.Counter(w for t in texts.values() for w in re.findall(r"[\w'\-₀-₉]+", t))
        for path, text in sorted(texts.items()):
            if path.endswith(("Answers.antt", "Invariants.antt", ".rt", "Lib.antt")):
                continue
            for found in re.finditer(r"^ *(?:abbrev |unfoldable )?(?:pub )?(?:record |data )?([\w'\-₀-₉]+) :", text, re.M):
                name = re.escape(found.group(1))
                # its signature, and the clauses that define it, recursive calls left aside
                own = re.findall(rf"^ *(?:abbrev |unfoldable )?(?:pub )?(?:record |data )?{name}(?: :|[^\n=]* =(?: |$))", text, re.M)
                if words[found.group(1)] == len(own):
                    print(f"{os.path.relpath(path, TOP)}  {found.group(1)}")
    else:
        print(__doc__.strip())
        return 2
    return 0


if __name__ == "__main__":
    sys.exit(main())
