"""Runs generated case texts through the report program and through this tool, and finds no difference.

    python3 tools/compare.py crates/report/out/report [COUNT]
"""

import subprocess
import sys
from collections import Counter

from cases import texts
from casetext import report

FAULTS = [10, 11, 12, 13, 14, 15, 16, 17, 18, 21, 22, 23, 24, 39, 40, 41, 42]


def main(program, count):
    seen = Counter()
    for number, text in enumerate(texts(1, count)):
        expected = report(text)
        printed = subprocess.run([program], input=text, stdout=subprocess.PIPE, check=True).stdout.decode()
        if printed != expected:
            sys.exit(f"text {number} differs: {text[:300]!r}\nprogram:\n{printed}\ntool:\n{expected}")
        seen[expected.split("\n")[0]] += 1
    for outcome, times in sorted(seen.items()):
        print(f"{outcome}: {times}")
    missing = [n for n in FAULTS if not seen[f"fault={n}"]]
    if missing or not seen["search=finished"] or not seen["search=full"]:
        sys.exit(f"not met: {missing}")
    print(f"{sum(seen.values())} texts, no difference")


if __name__ == "__main__":
    main(sys.argv[1], int(sys.argv[2]) if len(sys.argv) > 2 else 2000)
