#!/usr/bin/env python3
"""How many bytes of memory a row takes, in tql and in sqlite3 over a database in memory.

Usage: benches/memory.py [N]        (first: make build; TQL=path of another program; sqlite3 on the path, and /usr/bin/time)

Each table has N rows (1,000,000) of three INTEGERs, made by INSERTs of 1,000 rows: without a key, with a PRIMARY KEY, and with a text of 20 bytes. The
last two keep a history: N / 2 rows, of which each is then changed once, 5,000 in a statement. So half of the N versions are closed. In sqlite3 the
history is kept by hand, in a table of closed rows with an index of the key and the start. The figure is the highest resident memory of the process,
less that of one whose table has no rows, divided by N.
"""
import os
import subprocess
import sys
import tempfile
from collections.abc import Iterator
from pathlib import Path

TOP = Path(__file__).resolve().parent.parent
TQL = os.environ.get("TQL", str(TOP / "tql"))
ALWAYS = "s TIMESTAMP GENERATED ALWAYS AS ROW START, e TIMESTAMP GENERATED ALWAYS AS ROW END, PERIOD FOR SYSTEM_TIME (s, e)"
ROWS, CHANGED = 1_000, 5_000
TABLES = ["three INTEGERs", "the same, PRIMARY KEY", "three INTEGERs and a text of 20 bytes", "three INTEGERs, a version", "the same, PRIMARY KEY, a version"]


def inserted(count: int, end: str) -> Iterator[str]:
    for at in range(0, count, ROWS):
        rows = (f"({it}, {it % 100}, {it * 7 % 100_003}{end.format(it % 100_000)})" for it in range(at, min(at + ROWS, count)))
        yield f"INSERT INTO t VALUES {', '.join(rows)};"


def plain(who: str, columns: str, end: str, count: int) -> Iterator[str]:
    yield f"CREATE TABLE t (k INTEGER, v INTEGER, w INTEGER{columns});"
    yield from inserted(count, end)


def kept(who: str, key: str, count: int) -> Iterator[str]:
    """A table with its history."""
    if who == "tql":
        yield f"CREATE TABLE t (k INTEGER, v INTEGER, w INTEGER, {ALWAYS}{key}) WITH SYSTEM VERSIONING;"
        yield "AT TIMESTAMP '2020-01-01 00:00:00';"
        yield from inserted(count // 2, "")
        yield "AT TIMESTAMP '2021-01-01 00:00:00';"
    else:
        yield f"CREATE TABLE t (k INTEGER, v INTEGER, w INTEGER, s INTEGER{key});"
        yield "CREATE TABLE h (k INTEGER, v INTEGER, w INTEGER, s INTEGER, e INTEGER);"
        if key:
            yield "CREATE INDEX i ON h (k, s);"
        yield from inserted(count // 2, ", 0")
    for at in range(0, count // 2, CHANGED):
        where = f"WHERE k BETWEEN {at} AND {min(at + CHANGED, count // 2) - 1}"
        if who != "tql":
            yield f"INSERT INTO h SELECT k, v, w, s, 1 FROM t {where};"
        yield f"UPDATE t SET v = v + 1{'' if who == 'tql' else ', s = 1'} {where};"


def script(table: str, who: str, count: int) -> Iterator[str]:
    key = ", PRIMARY KEY (k)" if "KEY" in table else ""
    if "version" in table:
        return kept(who, key, count)
    if "text" in table:
        return plain(who, ", x VARCHAR(20)", ", 'text of twenty {:05d}'", count)
    return plain(who, key, "", count)


def most(who: str, path: Path) -> int:
    """The highest resident memory of a run, in bytes. `time` starts it: the memory of a process begins as that of the one that starts it."""
    words = [TQL, str(path)] if who == "tql" else ["sqlite3", ":memory:", f".read {path}"]
    ran = subprocess.run(["/usr/bin/time", "-f", "%M", *words], stdout=subprocess.DEVNULL, stderr=subprocess.PIPE, text=True)
    if ran.returncode != 0:
        sys.exit(f"memory.py: {' '.join(words)} ended with status {ran.returncode}")
    return 1024 * int(ran.stderr.splitlines()[-1])


def main() -> None:
    count = int(sys.argv[1]) if len(sys.argv) > 1 else 1_000_000
    print("| Table | `tql` | `sqlite3` |\n|---|---|---|")
    for table in TABLES:
        found = []
        for who in ("tql", "sqlite3"):
            with tempfile.TemporaryDirectory() as room:
                none, full = Path(room) / "none.sql", Path(room) / "full.sql"
                for path, rows in ((none, 0), (full, count)):
                    with path.open("w") as file:
                        file.writelines(f"{line}\n" for line in script(table, who, rows))
                found.append((most(who, full) - most(who, none)) / count)
        print(f"| {table} | {found[0]:.0f} | {found[1]:.0f} |", flush=True)


if __name__ == "__main__":
    main()
