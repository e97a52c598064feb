#!/usr/bin/env python3
"""Looks whether queries answer the same whichever way their rows are found. Outside the gate, and without a proof.

Usage: tools/plans.py [COUNT [FIRST]]        (make try-plans COUNT=1000)

COUNT scripts (by default 1,000), each by a counter that begins at FIRST (by default 0), of tools/planning. Each is run twice: as it is, and with
`0 + 0 = 0 AND` before each condition of ON and WHERE. That conjunct is true of every row, but calculates and is evaluated first, so no row is left out
or looked up, and none is sorted for a join: each row is compared with each. Both have to print the same bytes, since the answer has an order of its own
only where one is asked for. Of every fifth WHERE the plain one calculates too, after the others; of every fifth ON, anywhere among them.

Of twenty scripts
- nine have tables with keys, references and periods, rows with NULLs and repeats, some of them changed later, and queries and changes with joins of
  all kinds. Their conditions give keys, points, periods and equalities. One of the nine has tables of 66 to 150 rows, of which two are joined:
  enough that not each key is looked up row by row;
- three have few key values: 20 to 150 periods of them in a table with a key WITHOUT OVERLAPS, a table that references it with PERIOD, and a row with
  a deep history;
- seven have ranges of a key, of numbers, days and moments; IN and OR of values, with and without a key; calculations on either side of these, some
  of which are out of range; aggregates, groups, HAVING and DISTINCT over what they find; and products of three tables. Rows are also changed by
  ranges and values, and read afterwards;
- one has the same over a table of 2,000 to 6,000 rows: eight statements each.

With AGAINST=path the plain script also has to print what that other program prints, such as one of an earlier commit. This compares what is not
turned off by the conjunct: how groups are made, DISTINCT, and the order.

A script that differs is kept in a folder, which is named; the status is 1 then. At the end it says how many first references of the plain queries, and
tables of the plain changes, were found in which way, so that a way which is never tried is noticed. The program is TQL=path, or ./tql where it is
newer than every source, or else ./tql-quick, which is compiled first where it has to be (make quick).
"""
import os
import re
import subprocess
import sys
import tempfile
from collections import Counter
from concurrent.futures import ThreadPoolExecutor
from pathlib import Path

sys.dont_write_bytecode = True

from planning.crowds import Crowd
from planning.ranges import Large, Ranges
from planning.scripts import Script
from quick import program

PROGRAM, OTHER = program(), os.environ.get("AGAINST")
PATIENCE = 60
# How --plans says that the first reference of a query is found, and under what name that is counted.
WAYS = {"by a range of": "a range", " values of its ": "several values", "and its period": "a key and a period", "by its key": "a key",
        "by its reference": "a reference", "by its period": "a period", "read whole": "reading all"}
PLAN = re.compile(r"^tql: statement \d+: (?:\([^)]*\)|[^,(\n])*", re.M)


def made(counter: int) -> Script:
    """The script of a counter."""
    if counter % 5 == 4:
        return (Script if counter % 20 == 19 else Crowd)(counter)
    if counter % 5 in (1, 2):
        return (Large if counter % 20 == 7 else Ranges)(counter)
    return Script(counter)


def run(words: list[str], script: list[str]) -> tuple[bytes, str]:
    """What a program prints of a script, and its status; and what it says on the standard error."""
    ran = subprocess.run(words, input="\n".join(script).encode(), stdout=subprocess.PIPE, stderr=subprocess.PIPE, timeout=PATIENCE, check=False)
    return ran.stdout + f"status {ran.returncode}\n".encode(), ran.stderr.decode(errors="replace")


def ways(said: str) -> Counter:
    """How often the first reference of a query was found in which way."""
    lines = [it[0] for it in PLAN.finditer(said)]
    return Counter(next(way for words, way in WAYS.items() if words in it) for it in lines if any(words in it for words in WAYS))


def tried(counter: int) -> tuple[Script | None, Counter]:
    """The script of a counter where its runs print otherwise; and how its queries were answered."""
    script = made(counter)
    plain, said = run([PROGRAM, "--plans"], script.plain)
    differs = plain != run([PROGRAM], script.slow)[0] or OTHER and plain != run([OTHER], script.plain)[0]
    return script if differs else None, ways(said)


def main() -> int:
    count = int(sys.argv[1]) if len(sys.argv) > 1 and sys.argv[1] else 1000
    first = int(sys.argv[2]) if len(sys.argv) > 2 else 0
    room: Path | None = None
    found: Counter = Counter()
    with ThreadPoolExecutor(os.cpu_count()) as pool:
        for counter, (script, queries) in zip(range(first, first + count), pool.map(tried, range(first, first + count))):
            found += queries
            if script is not None:
                room = room or Path(tempfile.mkdtemp(prefix="plans."))
                (room / f"{counter}.plain.sql").write_text("\n".join(script.plain) + "\n", encoding="utf-8")
                (room / f"{counter}.slow.sql").write_text("\n".join(script.slow) + "\n", encoding="utf-8")
                print(f"script {counter} differs: {room}")
    print(f"{sum(found.values())} queries and changes by {', '.join(f'{way} {many}' for way, many in found.most_common())}")
    print(f"{count} scripts from {first}: {'some differ' if room else 'each answers the same'}")
    return 1 if room else 0


if __name__ == "__main__":
    sys.exit(main())
