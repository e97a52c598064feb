#!/usr/bin/env python3
"""Times the module tql of Python next to sqlite3: parameterised INSERTs, and all rows fetched.

Usage: benches/python.py [ROWS [TURNS]]        (100000 rows, 3 turns)

Each of the rows has three INTEGERs, one of them NULL in every tenth row, and a VARCHAR. They are inserted by `executemany` and by `execute`, in one transaction and
each in one of its own, and then fetched by `fetchall`. Printed are the middle ratio of the turns and its processor seconds. The library is that of
TQL_LIBRARY, else build/libtql.so.0.
"""
import os
import sqlite3
import sys
import time
from pathlib import Path

TOP = Path(__file__).resolve().parent.parent
os.environ.setdefault("TQL_LIBRARY", str(TOP / "build" / "libtql.so.0"))
sys.path.insert(0, str(TOP / "bindings" / "python"))
import tql  # noqa: E402

CREATE = "CREATE TABLE t (a INTEGER, b VARCHAR(20), c INTEGER, d INTEGER)"
INSERT = "INSERT INTO t VALUES (?, ?, ?, ?)"


def inserted(connection, begin: str, rows: list, is_many: bool, is_one: bool) -> float:
    """Returns the seconds of the INSERTs."""
    connection.execute(CREATE)
    began = time.process_time()
    if is_one:
        connection.execute(begin)
    cursor = connection.cursor()
    if is_many:
        cursor.executemany(INSERT, rows)
    else:
        for row in rows:
            cursor.execute(INSERT, row)
    if is_one:
        connection.execute("COMMIT")
    return time.process_time() - began


def fetched(connection) -> "tuple[float, list]":
    """Returns the seconds of fetching all rows, and these."""
    began = time.process_time()
    rows = connection.cursor().execute("SELECT a, b, c, d FROM t").fetchall()
    return time.process_time() - began, rows


def told(name: str, pairs: "list[tuple[float, float]]") -> None:
    """Prints the middle of the ratios."""
    one, other = sorted(pairs, key=lambda it: it[0] / it[1])[len(pairs) // 2]
    print(f"{name}: ratio {one / other:.2f} (tql {one:.3f} s, sqlite3 {other:.3f} s)", flush=True)


def main(count: int, turns: int) -> None:
    rows = [(it, f"name {it % 1000}", it * 7 % 1000003, None if it % 10 == 0 else it) for it in range(count)]
    print(f"{tql.version()}, sqlite3 {sqlite3.sqlite_version}, {count} rows")
    for is_many in (True, False):
        for is_one in (True, False):
            times, fetches = [], []
            for _ in range(turns):
                ours, theirs = tql.connect(), sqlite3.connect(":memory:", isolation_level=None)
                times.append((inserted(ours, "START TRANSACTION", rows, is_many, is_one), inserted(theirs, "BEGIN", rows, is_many, is_one)))
                (one, got), (other, wanted) = fetched(ours), fetched(theirs)
                assert got == sorted(wanted, key=lambda it: it[0]), "the rows differ"
                fetches.append((one, other))
                ours.close()
                theirs.close()
            told(f"{'executemany' if is_many else 'execute'}, {'one transaction' if is_one else 'each its own'}", times)
    told("fetchall", fetches)


if __name__ == "__main__":
    main(*map(int, [*sys.argv[1:], *("100000", "3")[len(sys.argv) - 1:]]))
