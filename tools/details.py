#!/usr/bin/env python3
"""Counts the refusals of all scripts of the tests and examples that say nothing beyond their number and text.

Usage: tools/details.py [PROGRAM]        (by default ./tql, or ./tql-quick where that is not there)

Each script is run by the program. Its standard error has a line for each refusal: one that has a detail goes on after the refusal's text with a colon.
Not counted are E01 (want of memory) and E10 to E15 (texts that are no statements, whose place says what is wrong). It prints the number
of each refusal with and without a detail, and up to five lines without one. The status is 1 where there is such a line.
"""
import collections
import re
import subprocess
import sys
from concurrent.futures import ThreadPoolExecutor
from pathlib import Path

TOP = Path(__file__).resolve().parent.parent
TEXTS = re.findall(r'"(E\d\d [^"]+)"', (TOP / "crates/tql_value/src/refusal.rt").read_text())
LINE = re.compile(rf"(?:tql: )?(?:\S+: )?statement \d+, line \d+(?:, column \d+)?: ({'|'.join(map(re.escape, TEXTS))})(: .+)?")
NOT_COUNTED = {"E01", "E10", "E11", "E12", "E13", "E14", "E15"}


def program() -> str:
    """The program that is run."""
    if len(sys.argv) > 1:
        return sys.argv[1]
    return str(next(it for it in (TOP / "tql", TOP / "tql-quick") if it.exists()))


def complaints(script: Path) -> list[str]:
    """The lines of the standard error of a run of the script."""
    ran = subprocess.run([program(), str(script)], stdout=subprocess.DEVNULL, stderr=subprocess.PIPE, check=False)
    return ran.stderr.decode(errors="replace").splitlines()


def main() -> int:
    """Runs all scripts and prints what was found."""
    scripts = sorted([*(TOP / "crates/test_cases/data").rglob("*.sql"), *(TOP / "examples").rglob("*.sql")])
    there, lacking, shown = collections.Counter(), collections.Counter(), []
    with ThreadPoolExecutor(2) as pool:
        for script, lines in zip(scripts, pool.map(complaints, scripts)):
            for line in lines:
                found = LINE.fullmatch(line)
                if not found or found[1][:3] in NOT_COUNTED:
                    continue
                (there if found[2] else lacking)[found[1][:3]] += 1
                if not found[2] and len(shown) < 400:
                    shown.append(f"{script.relative_to(TOP)}: {line}")
    for number in sorted({*there, *lacking}):
        print(f"{number}: {there[number]} with a detail, {lacking[number]} without")
    for line in shown[:5] if len(sys.argv) < 3 else shown:
        print(line)
    print(f"{sum(lacking.values())} of {sum(there.values()) + sum(lacking.values())} refusals have no detail")
    return 1 if lacking else 0


if __name__ == "__main__":
    sys.exit(main())
