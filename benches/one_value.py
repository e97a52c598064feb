#!/usr/bin/env python3
"""What statements cost where one key value has many periods, or one row many versions, in tql and in sqlite3 over a database in memory.

Usage: benches/one_value.py PROGRAM                     all that follows
       benches/one_value.py PROGRAM periods [N..]       one key value with N daily periods (by default 500, 4,000 and 36,500), in instructions
       benches/one_value.py PROGRAM versions [N..]      one row with N versions (by default 1,250 and 40,000), in instructions
       benches/one_value.py PROGRAM seconds             scripts, in seconds of a processor and of the clock
       (first: make build or make quick, which leave a PROGRAM; needs valgrind and sqlite3)

Instructions are those of one statement: the difference of two runs under valgrind's callgrind, one without the statements and one with 50 of them,
divided by 50. They do not depend on what else the machine does.

The periods stand under a key WITHOUT OVERLAPS, and a child references them with PERIOD. Each INSERT fills a day between two others; each SELECT asks
by key and day; each UPDATE changes the portion of one day; each child spans three days. In sqlite3 a primary key of the number and the first day
finds the neighbour: a trigger compares a new row with the row that begins before it ends, and one for the child adds up the days that are covered.

The versions are made by UPDATEs, a commit each. Each SELECT asks for the row by its key: AS OF a moment, FROM one TO another, between which lie ten
versions, or as a reader that was opened at half of the versions. In sqlite3 the versions are rows with an index of the key and their first moment;
it has no counterpart of the reader. A day and a moment are numbers there.

The scripts: a DELETE that 400 children of 800 parents are tested for; 10,000 periods of one key value by two INSERTs; 500 SELECTs AS OF behind 20,000
UPDATEs of a row; 36,500 daily periods by INSERTs of 5,000; 20,000 INSERTs beside 900 tables with references; 20,000 daily periods of one key value
joined with 20,000 of it by the key and their periods, and by their periods alone.
"""
import os
import re
import resource
import subprocess
import sys
import tempfile
import time
from datetime import date
from pathlib import Path

COUNT, FIRST, MANY = 50, date(1000, 1, 1).toordinal(), 20_000
PERIODS, VERSIONS = (500, 4_000, 36_500), (1_250, 40_000)
COLLECTED = re.compile(r"Collected : (\d+)")
PARENT = "CREATE TABLE {} (k INTEGER, f DATE, u DATE, x INTEGER, PERIOD FOR v (f, u){});\n"
KEY, CHILD = ", PRIMARY KEY (k, v WITHOUT OVERLAPS)", "CREATE TABLE c (k INTEGER, f DATE, u DATE, PERIOD FOR v (f, u), FOREIGN KEY (k, PERIOD v) REFERENCES p (k, PERIOD v));\n"
HOT = ("CREATE TABLE h (k INTEGER, x INTEGER, s TIMESTAMP GENERATED ALWAYS AS ROW START, e TIMESTAMP GENERATED ALWAYS AS ROW END, "
       "PERIOD FOR SYSTEM_TIME (s, e), PRIMARY KEY (k)) WITH SYSTEM VERSIONING;\nINSERT INTO h VALUES (1, 0);\n")
LITE = """CREATE TABLE p (k BIGINT, f BIGINT, u BIGINT, x BIGINT, PRIMARY KEY (k, f));
CREATE TABLE c (k BIGINT, f BIGINT, u BIGINT);
"""
# (they come behind the rows, so that these are put in fast)
TRIGGERS = """CREATE TRIGGER apart BEFORE INSERT ON p WHEN (SELECT u FROM p WHERE k = NEW.k AND f < NEW.u ORDER BY f DESC LIMIT 1) > NEW.f
BEGIN SELECT RAISE(ABORT, 'overlap'); END;
CREATE TRIGGER covered BEFORE INSERT ON c WHEN (SELECT SUM(MIN(u, NEW.u) - MAX(f, NEW.f)) FROM p WHERE k = NEW.k AND f < NEW.u AND u > NEW.f
AND f >= (SELECT MAX(f) FROM p WHERE k = NEW.k AND f <= NEW.f)) IS NOT NEW.u - NEW.f BEGIN SELECT RAISE(ABORT, 'not covered'); END;
"""
LITE_HOT = "CREATE TABLE h (k BIGINT, x BIGINT, s BIGINT, e BIGINT, PRIMARY KEY (k, s));\n"


def day(at: int) -> str:
    return f"DATE '{date.fromordinal(FIRST + at)}'"


def moment(at: int) -> str:
    return f"TIMESTAMP '0001-01-01 00:00:{at // 1_000_000:02}.{at % 1_000_000:06}'"


def packed(table: str, rows: list[str], many: int = MANY) -> str:
    """INSERTs of so many rows each."""
    return "".join(f"INSERT INTO {table} VALUES {','.join(rows[at:at + many])};\n" for at in range(0, len(rows), many))


def words(who: str, path: Path) -> list[str]:
    """What runs a script."""
    return ["sqlite3", ":memory:", f".read {path}"] if who == "sqlite3" else [who, str(path)]


def instructions(who: str, room: Path, text: str) -> int:
    """The instructions of a run, in which no statement is refused."""
    path = room / "script.sql"
    path.write_text(text, encoding="utf-8")
    # (what a run leaves goes into the folder)
    ran = subprocess.run(["valgrind", "--tool=callgrind", f"--callgrind-out-file={room}/out", *words(who, path)], cwd=room,
                         stdin=subprocess.DEVNULL, stdout=subprocess.PIPE, stderr=subprocess.PIPE, text=True, check=False)
    if "REFUSED" in ran.stdout or "rror" in ran.stderr or not COLLECTED.search(ran.stderr):
        sys.exit(f"{who}: {ran.stdout[-300:]}{ran.stderr[-600:]}")
    return int(COLLECTED.search(ran.stderr)[1])


def compared(who: str, room: Path, before: str, parts: list[tuple[str, str]], size: str) -> None:
    """A line for each part: the instructions of one of its statements, behind what comes before."""
    base = instructions(who, room, before)
    for what, more in parts:
        print(f"{size}, {what}: {'sqlite3' if who == 'sqlite3' else 'tql'} {(instructions(who, room, before + more) - base) // COUNT:,}", flush=True)


def periods(program: str, room: Path, size: int) -> None:
    """One key value with so many daily periods, and a day between two of them left out now and then."""
    lacking = [(2 * it + 1) * (size + COUNT) // (2 * COUNT) for it in range(COUNT)]
    days = sorted({*range(size + COUNT)} - {*lacking})
    # (of three days that follow each other none is lacking)
    spans = [it - 5 for it in lacking]
    asked = [days[it * 7919 % len(days)] for it in range(COUNT)]
    tql = PARENT.format("q", "") + PARENT.format("p", KEY) + CHILD + packed("q", [f"(1,{day(it)},{day(it + 1)},0)" for it in days])
    compared(program, room, tql + "INSERT INTO p SELECT * FROM q;\n", [
        ("an INSERT", "".join(f"INSERT INTO p VALUES (1, {day(it)}, {day(it + 1)}, 0);\n" for it in lacking)),
        ("a SELECT by key and day", "".join(f"SELECT x FROM p WHERE k = 1 AND v CONTAINS {day(it)};\n" for it in asked)),
        ("an UPDATE of a day", "".join(f"UPDATE p FOR PORTION OF v FROM {day(it)} TO {day(it + 1)} SET x = 1 WHERE k = 1;\n" for it in asked)),
        ("an INSERT of a child", "".join(f"INSERT INTO c VALUES (1, {day(it)}, {day(it + 3)});\n" for it in spans)),
    ], f"{size:,} periods")
    lite = LITE + packed("p", [f"(1,{it},{it + 1},0)" for it in days]) + TRIGGERS
    compared("sqlite3", room, lite, [
        ("an INSERT", "".join(f"INSERT INTO p VALUES (1, {it}, {it + 1}, 0);\n" for it in lacking)),
        ("a SELECT by key and day", "".join(f"SELECT x FROM p WHERE k = 1 AND f <= {it} AND u > {it} ORDER BY f DESC LIMIT 1;\n" for it in asked)),
        ("an UPDATE of a day", "".join(f"UPDATE p SET x = 1 WHERE k = 1 AND f = {it};\n" for it in asked)),
        ("an INSERT of a child", "".join(f"INSERT INTO c VALUES (1, {it}, {it + 3});\n" for it in spans)),
    ], f"{size:,} periods")


def versions(program: str, room: Path, size: int) -> None:
    """One row with so many versions, each of which begins a microsecond behind the one before it."""
    asked = [it * 7919 % (size - 20) for it in range(COUNT)]
    ask = "SELECT x FROM h"
    half, behind = "UPDATE h SET x = x + 1 WHERE k = 1;\n" * (size // 2), "UPDATE h SET x = x + 1 WHERE k = 1;\n" * (size - size // 2 - 1)
    compared(program, room, HOT + half + "OPEN READER r;\n" + behind, [
        ("a SELECT AS OF", "".join(f"{ask} FOR SYSTEM_TIME AS OF {moment(it)} WHERE k = 1;\n" for it in asked)),
        ("a SELECT FROM .. TO", "".join(f"{ask} FOR SYSTEM_TIME FROM {moment(it)} TO {moment(it + 10)} WHERE k = 1;\n" for it in asked)),
        ("a READ", f"READ r {ask} WHERE k = 1;\n" * COUNT),
    ], f"{size:,} versions")
    high = 2**60
    rows = [f"(1,{it},{it},{it + 1 if it + 1 < size else high})" for it in range(size)]
    compared("sqlite3", room, LITE_HOT + packed("h", rows), [
        ("a SELECT AS OF", "".join(f"{ask} WHERE k = 1 AND s <= {it} AND e > {it} ORDER BY s DESC LIMIT 1;\n" for it in asked)),
        ("a SELECT FROM .. TO", "".join(f"{ask} WHERE k = 1 AND s < {it + 10} AND s >= (SELECT MAX(s) FROM h WHERE k = 1 AND s <= {it});\n" for it in asked)),
    ], f"{size:,} versions")


def scripts() -> list[tuple[str, str]]:
    """What each script does, and the script."""
    def rows(count: int, first: int = 0) -> list[str]:
        return [f"(1,{day(it)},{day(it + 1)},0)" for it in range(first, first + count)]

    made = PARENT.format("p", KEY) + CHILD
    ask = f"SELECT * FROM h FOR SYSTEM_TIME AS OF {moment(10_000)} WHERE k = 1;\n"
    both = "".join(PARENT.format(it, KEY) + packed(it, rows(20_000)) for it in "pq")
    beside = "".join(f"CREATE TABLE c{it} (x INTEGER, FOREIGN KEY (x) REFERENCES k (x));\n" for it in range(900))
    return [
        ("a DELETE of 400 of 800 parents, beside 400 children", made + packed("p", rows(800))
         + packed("c", [it.replace(",0)", ")") for it in rows(400)]) + f"DELETE FROM p WHERE f >= {day(400)};\n"),
        ("10,000 periods of one key value, two INSERTs", PARENT.format("p", KEY) + packed("p", rows(10_000), 5_000)),
        ("500 SELECTs AS OF by key, behind 20,000 UPDATEs of one row", HOT + "UPDATE h SET x = x + 1 WHERE k = 1;\n" * 20_000 + ask * 500),
        ("36,500 daily periods, INSERTs of 5,000", PARENT.format("p", KEY) + packed("p", rows(36_500), 5_000)),
        ("20,000 INSERTs beside 900 tables with references", "CREATE TABLE t (x INTEGER);\nCREATE TABLE k (x INTEGER, PRIMARY KEY (x));\n" + beside
         + "INSERT INTO t VALUES (1);\n" * 20_000),
        ("20,000 periods of one key value joined with 20,000, by key and period", both + "SELECT COUNT(*) FROM p JOIN q ON p.k = q.k AND p.v OVERLAPS q.v;\n"),
        ("the same by the period alone", both + "SELECT COUNT(*) FROM p JOIN q ON p.v OVERLAPS q.v;\n"),
    ]


def seconds(program: str, room: Path) -> None:
    for what, text in scripts():
        path = room / "script.sql"
        path.write_text(text, encoding="utf-8")
        began, used = time.monotonic(), resource.getrusage(resource.RUSAGE_CHILDREN)
        ran = subprocess.run(words(program, path), stdout=subprocess.PIPE, stderr=subprocess.DEVNULL, text=True, check=False)
        now = resource.getrusage(resource.RUSAGE_CHILDREN)
        if "REFUSED" in ran.stdout:
            sys.exit(f"{what}: {ran.stdout[-300:]}")
        taken = now.ru_utime + now.ru_stime - used.ru_utime - used.ru_stime
        print(f"{what}: tql {taken:.2f} s of a processor, {time.monotonic() - began:.2f} s", flush=True)


def main() -> None:
    program, what, *numbers = [*sys.argv[1:], "", ""][:max(2, len(sys.argv) - 1)]
    if not program or what not in ("", "periods", "versions", "seconds") or not all(it.isdigit() for it in numbers):
        sys.exit(__doc__)
    program = os.path.abspath(program)
    resource.setrlimit(resource.RLIMIT_CORE, (0, 0))
    with tempfile.TemporaryDirectory(prefix="tql-one-value-") as folder:
        room = Path(folder)
        for size in (map(int, numbers or PERIODS) if what in ("", "periods") else ()):
            periods(program, room, size)
        for size in (map(int, numbers or VERSIONS) if what in ("", "versions") else ()):
            versions(program, room, size)
        if what in ("", "seconds"):
            seconds(program, room)


if __name__ == "__main__":
    main()
