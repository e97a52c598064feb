#!/usr/bin/env python3
"""How long rows are made, found and changed by a key, in tql and in sqlite3 over a database in memory, at several sizes N.

Usage: benches/keys.py [N..]        (first: make build; TQL=path of another program; sqlite3 on the path, and /usr/bin/time)

Three tables: without a key; with one of an INTEGER; with one of an INTEGER and a VARCHAR(20). Of each N one-row INSERTs, then N SELECTs of one row
by its key, then N UPDATEs of one row by its key; and how much memory a row takes. Of N rows with the second key, 200 statements each that ask for a
range of 100 keys, for five keys, for two, or for one and a calculation, and that change or delete the rows of a range. Then, of a table that keeps its
history, N questions AS OF a moment for one of N rows, of which each was changed once. At last N / 10 rows of the third table whose numbers were chosen
so that all rows are mixed into one number, by which they are found: made under the key, and found by it. That is the worst that whoever chooses values
can do.

Each time is the lower of two runs, less that of what comes before. The text of `tql` has one statement a line, that of `sqlite3` too.
"""
import os
import re
import resource
import subprocess
import sys
import tempfile
import time
from pathlib import Path

TOP = Path(__file__).resolve().parent.parent
TQL = os.environ.get("TQL", str(TOP / "tql"))
FACTOR, WIDTH = 1_099_511_628_211, 2**64
ALWAYS = "s TIMESTAMP GENERATED ALWAYS AS ROW START, e TIMESTAMP GENERATED ALWAYS AS ROW END, PERIOD FOR SYSTEM_TIME (s, e)) WITH SYSTEM VERSIONING;"


def words(who: str, path: str) -> list[str]:
    """What runs a script."""
    return [TQL, path] if who == "tql" else ["sqlite3", ":memory:", f".read {path}"]


def took(who: str, path: str) -> tuple[float, int]:
    """The lower time of two runs in seconds, and the most memory of the last one in KiB, as /usr/bin/time tells it (what a child of this
    program took most would count the memory of this program too)."""
    times = []
    for _ in range(2):
        began = time.perf_counter()
        subprocess.run(["/usr/bin/time", "-f", "%M", "-o", path + ".most", *words(who, path)], stdout=subprocess.DEVNULL, stderr=subprocess.DEVNULL, check=False)
        times.append(time.perf_counter() - began)
    return min(times), int(Path(path + ".most").read_text(encoding="utf-8").split()[-1])


def steps(room: Path, name: str, count: int, parts: dict[str, list[tuple[str, list[str]]]]) -> None:
    """A line for each part of a script: the time of one statement in it, in both programs; of N statements also the memory of a row."""
    told: dict[str, list[str]] = {}
    for who, texts in parts.items():
        before, whole = 0.0, ""
        for at, (what, lines) in enumerate(texts):
            whole += "\n".join(lines) + "\n"
            path = room / f"{who}.sql"
            path.write_text(whole, encoding="utf-8")
            spent, memory = took(who, str(path))
            if at:
                size = f", {memory * 1024 // count} bytes a row in all" if at == 1 and len(lines) == count else ""
                told.setdefault(what, []).append(f"{who} {(spent - before) / len(lines) * 1e6:.1f} us{size}")
            before = spent
    for what, said in told.items():
        print(f"{name}, {count}, {what}: {'; '.join(said)}", flush=True)


def plain(room: Path, count: int) -> None:
    """Tables without a key, with a key of a number, and with one of a number and a text."""
    for name, tql_key, lite_key, seek in (
        ("no key", "", "", None),
        ("key (k)", ", PRIMARY KEY (k)", ", PRIMARY KEY (k)", "k = {0}"),
        ("key (k, t)", ", PRIMARY KEY (k, t)", ", PRIMARY KEY (k, t)", "k = {0} AND t = 'row {0}'"),
    ):
        rows = [f"INSERT INTO r VALUES ({i}, 'row {i}', 0);" for i in range(count)]
        order = [i * 7919 % count for i in range(count)]
        parts = {}
        for who, key in (("tql", tql_key), ("sqlite3", lite_key)):
            # (of sqlite an INTEGER PRIMARY KEY is the row's own place; BIGINT makes an index, as a key of tql is one)
            kind = "BIGINT" if who == "sqlite3" else "INTEGER"
            texts = [("", [f"CREATE TABLE r (k {kind}, t VARCHAR(20), x INTEGER{key});"]), ("one-row INSERT", rows)]
            if seek:
                texts.append(("SELECT by the key", [f"SELECT x FROM r WHERE {seek.format(i)};" for i in order]))
                texts.append(("UPDATE by the key", [f"UPDATE r SET x = 1 WHERE {seek.format(i)};" for i in order]))
            parts[who] = texts
        steps(room, name, count, parts)


def ranges(room: Path, count: int) -> None:
    """Rows of a range of 100 keys, of several keys, and of one with a calculation, found and changed."""
    rows = [f"({it}, 'row {it}', {it % 100})" for it in (at * 7919 % count for at in range(count))]
    keys = [at * 7919 % max(1, count - 100) for at in range(200)]
    asked = {
        "SELECT of 100 rows by BETWEEN": "SELECT k, x FROM r WHERE k BETWEEN {0} AND {99};",
        "SELECT of 100 rows by BETWEEN, ORDER BY the key": "SELECT k, x FROM r WHERE k BETWEEN {0} AND {99} ORDER BY k DESC;",
        "COUNT and SUM of 100 rows by > and <=": "SELECT COUNT(*), SUM(x) FROM r WHERE k > {0} AND k <= {100};",
        "SELECT by IN of five keys": "SELECT x FROM r WHERE k IN ({0}, {50}, {3}, {99}, {17});",
        "SELECT by an OR of two keys": "SELECT x FROM r WHERE k = {0} OR k = {50};",
        "SELECT by the key and a calculation": "SELECT x FROM r WHERE k = {0} AND x + 1 > 0;",
        "UPDATE of 100 rows by BETWEEN": "UPDATE r SET x = x + 1 WHERE k BETWEEN {0} AND {99};",
        "DELETE of 100 rows by BETWEEN, rolled back": "{begin}; DELETE FROM r WHERE k BETWEEN {0} AND {99}; ROLLBACK;",
    }
    parts = {}
    for who, kind, begin in (("tql", "INTEGER", "START TRANSACTION"), ("sqlite3", "BIGINT", "BEGIN")):
        texts = [("", [f"CREATE TABLE r (k {kind}, t VARCHAR(20), x INTEGER, PRIMARY KEY (k));"]
                  + [f"INSERT INTO r VALUES {', '.join(rows[at:at + 1000])};" for at in range(0, count, 1000)])]
        for what, text in asked.items():
            text = text.replace("{begin}", begin)
            texts.append((what, [re.sub(r"\{(\d+)\}", lambda it, key=key: str(key + int(it[1])), text) for key in keys]))
        parts[who] = texts
    steps(room, "ranges of key (k)", count, parts)


def past(room: Path, count: int) -> None:
    """One of N rows at a moment, each changed once."""
    order = [i * 7919 % count for i in range(count)]
    packs = [range(at, min(at + 1000, count)) for at in range(0, count, 1000)]
    tql = ["CREATE TABLE r (k INTEGER, x INTEGER, PRIMARY KEY (k), " + ALWAYS, "AT TIMESTAMP '2024-01-01 00:00:00';"]
    tql += ["INSERT INTO r VALUES " + ", ".join(f"({i}, 0)" for i in pack) + ";" for pack in packs]
    tql += ["AT TIMESTAMP '2024-02-01 00:00:00';", "UPDATE r SET x = 1;"]
    lite = ["CREATE TABLE r (k BIGINT, x INTEGER, s TEXT, e TEXT); CREATE INDEX of_k ON r (k, s);"]
    lite += ["INSERT INTO r VALUES " + ", ".join(f"({i}, 0, '2024-01-01', '2024-02-01'), ({i}, 1, '2024-02-01', '9999-12-31')" for i in pack) + ";" for pack in packs]
    ask = "FOR SYSTEM_TIME AS OF TIMESTAMP '2024-01-15 00:00:00'"
    steps(room, "history", count, {
        "tql": [("", tql), ("SELECT AS OF by the key", [f"SELECT x FROM r {ask} WHERE k = {i};" for i in order])],
        "sqlite3": [("", lite), ("SELECT AS OF by the key", [f"SELECT x FROM r WHERE k = {i} AND s <= '2024-01-15' AND e > '2024-01-15';" for i in order])],
    })


def chosen_number(text: str) -> int:
    """The number that, mixed before the text, gives one and the same number for all texts."""
    mixed = 0
    for byte in text.encode():
        mixed = (mixed * FACTOR + byte) % WIDTH
    back = pow(FACTOR, -1, WIDTH)
    number = ((4711 - mixed) * pow(back, len(text), WIDTH) - 1) * back % WIDTH
    return number - WIDTH if number >= WIDTH // 2 else number


def chosen(room: Path, count: int) -> None:
    """Rows whose key was chosen against the number by which they are found."""
    rows = [(chosen_number(f"row {i}"), f"row {i}") for i in range(count)]
    fill = [f"INSERT INTO r VALUES ({k}, '{t}', 0);" for k, t in rows]
    few = [rows[i * 7919 % count] for i in range(100)]
    steps(room, "chosen (k, t)", count, {
        "tql": [("", ["CREATE TABLE r (k INTEGER, t VARCHAR(20), x INTEGER, PRIMARY KEY (k, t));"]), ("one-row INSERT under the key", fill)],
        "sqlite3": [("", ["CREATE TABLE r (k BIGINT, t VARCHAR(20), x INTEGER, PRIMARY KEY (k, t));"]), ("one-row INSERT under the key", fill)],
    })
    seeks = [f"SELECT x FROM r WHERE k = {k} AND t = '{t}';" for k, t in few] * (count // 100)
    steps(room, "chosen (k, t)", count, {
        "tql": [("", ["CREATE TABLE r (k INTEGER, t VARCHAR(20), x INTEGER, PRIMARY KEY (k, t));", *fill]), ("SELECT by the key", seeks)],
        "sqlite3": [("", ["CREATE TABLE r (k BIGINT, t VARCHAR(20), x INTEGER, PRIMARY KEY (k, t));", *fill]), ("SELECT by the key", seeks)],
    })


def main() -> None:
    resource.setrlimit(resource.RLIMIT_CORE, (0, 0))
    with tempfile.TemporaryDirectory() as folder:
        room = Path(folder)
        for count in [int(it) for it in sys.argv[1:]] or [1_000, 10_000, 100_000]:
            plain(room, count)
            ranges(room, count)
            past(room, count)
            chosen(room, max(count // 10, 100))


if __name__ == "__main__":
    main()
