#!/usr/bin/env python3
"""Tries scripts that fill a limited memory and give it back: a memory that is full locks nobody out.

Usage: tools/full.py PROGRAM        (a part of make lines)

Each of the SHAPES is a kind of table and a way to fill the memory. Once it is full, nothing else is refused for memory: queries, a DELETE of few
rows, CLOSE READER, PRUNE HISTORY, in a table without history a DELETE of all rows, and DROP TABLE. Then a table can be made and filled again. Two
longer scripts open readers of long names, and delete and insert in turns, in memories of three sizes. The status is 1 where one differs.
"""
import re
import subprocess
import sys
from collections.abc import Iterator

HISTORY = ", s TIMESTAMP GENERATED ALWAYS AS ROW START, e TIMESTAMP GENERATED ALWAYS AS ROW END, PERIOD FOR SYSTEM_TIME (s, e)"
DAYS = ", a DATE, b DATE, PERIOD FOR p (a, b)"
KEY, DAYS_KEY = ", PRIMARY KEY (x)", ", PRIMARY KEY (x, p WITHOUT OVERLAPS)"
# kind: what its definition has behind the columns x and z, and whether it has days and a history
KINDS = {
    "plain": ("", False, False),
    "key": (KEY, False, False),
    "history": (HISTORY, False, True),
    "key and history": (HISTORY + KEY, False, True),
    "days": (DAYS + DAYS_KEY, True, False),
    "days and history": (HISTORY + DAYS + DAYS_KEY, True, True),
}
LENGTHS = (60000, 20000, 5000, 1000, 200, 50, 10, 1)
# By so many rows a memory of SIZE is full. A table `seed` has SEED rows, of which others are filled by queries.
ROWS, SIZE, SEED = 17000, "2M", 2000


def created(kind: str) -> str:
    """The CREATE TABLE of a kind."""
    behind, _, keeps = KINDS[kind]
    return f"CREATE TABLE t (x INTEGER, z VARCHAR(60000){behind})" + " WITH SYSTEM VERSIONING" * keeps


def inserted(kind: str, at: int, count: int, text: str = "") -> str:
    """An INSERT of some rows, the first of them of the number `at`."""
    days = ", DATE '2001-01-01', DATE '2002-01-01'" if KINDS[kind][1] else ""
    columns = "x, z, a, b" if days else "x, z"
    rows = ", ".join(f"({it}, '{text}'{days})" for it in range(at, at + count))
    return f"INSERT INTO t ({columns}) VALUES {rows}"


def by_rows(kind: str) -> Iterator[str]:
    yield from (inserted(kind, it, 1) for it in range(ROWS))


def by_lists(kind: str) -> Iterator[str]:
    yield from (inserted(kind, it, 40) for it in range(0, ROWS, 40))


def by_texts(kind: str) -> Iterator[str]:
    for at, length in enumerate(LENGTHS):
        yield from (inserted(kind, 1000 * at + it, 1, length * "a") for it in range(60))


def seeded() -> Iterator[str]:
    """The table `seed` and its rows."""
    yield "CREATE TABLE seed (x INTEGER)"
    yield from (f"INSERT INTO seed VALUES {', '.join(f'({at})' for at in range(it, it + 40))}" for it in range(0, SEED, 40))


def copied(kind: str, at: int) -> str:
    """An INSERT of the rows of `seed`, the first of them of the number `at`."""
    columns, values = ("x, z, a, b", "'', DATE '2001-01-01', DATE '2002-01-01'") if KINDS[kind][1] else ("x, z", "''")
    return f"INSERT INTO t ({columns}) SELECT x + {at}, {values} FROM seed"


def by_queries(kind: str) -> Iterator[str]:
    yield from (copied(kind, it) for it in range(0, ROWS, SEED))
    yield from (inserted(kind, 10 * ROWS + it, 1) for it in range(SEED))


def by_updates(kind: str) -> Iterator[str]:
    yield from (inserted(kind, it, 40) for it in range(0, 2000, 40))
    for it in range(40):
        yield "UPDATE t SET z = 'b'"
        yield from (f"UPDATE t SET z = 'c' WHERE x = {at}" for at in range(100))


def by_portions(kind: str) -> Iterator[str]:
    yield from (inserted(kind, it, 40) for it in range(0, 2000, 40))
    for day in range(1, 29):
        yield f"DELETE FROM t FOR PORTION OF p FROM DATE '2001-02-{day:02}' TO DATE '2001-02-{day + 1:02}' WHERE x < {40 * day}"
        yield from (f"DELETE FROM t FOR PORTION OF p FROM DATE '2001-03-{day:02}' TO DATE '2001-03-{day + 1:02}' WHERE x = {it}" for it in range(400))


def by_turns(kind: str) -> Iterator[str]:
    yield from by_rows(kind)
    for turn in range(4):
        yield f"DELETE FROM t WHERE x BETWEEN {300 * turn + 10} AND {300 * turn + 309}"
        for at, length in enumerate(LENGTHS):
            yield from (inserted(kind, 100000 * (turn + 1) + 1000 * at + it, 1, length * "a") for it in range(40))


def by_readers(kind: str) -> Iterator[str]:
    yield from (f"OPEN READER r{it}{'r' * length}" for it, length in enumerate(it for it in (400000, 90000, 7000, 3000, 300) for _ in range(12)))
    yield from by_rows(kind)


def by_tables(kind: str) -> Iterator[str]:
    columns = ", ".join(f"column_of_a_long_name_{it} VARCHAR(1000)" for it in range(60))
    yield from (f"CREATE TABLE u{it} ({columns})" for it in range(900))
    yield from by_rows(kind)


def by_transaction(kind: str) -> Iterator[str]:
    yield "START TRANSACTION"
    yield from by_rows(kind)
    yield "SELECT COUNT(*) FROM t"
    yield "DELETE FROM t WHERE x < 100"
    yield from by_rows(kind)
    yield "ROLLBACK"
    yield from by_rows(kind)


SHAPES = [
    *((it, by_rows) for it in KINDS),
    *((it, by_lists) for it in ("plain", "key and history", "days and history")),
    *((it, by_texts) for it in ("plain", "key", "key and history")),
    *((it, by_queries) for it in ("plain", "key", "days and history")),
    *((it, by_updates) for it in ("history", "key and history", "days and history")),
    *((it, by_portions) for it in ("days", "days and history")),
    *((it, by_turns) for it in ("plain", "key", "history", "key and history", "days and history")),
    *((it, by_readers) for it in ("plain", "key and history")),
    ("key", by_tables),
    *((it, by_transaction) for it in ("key", "key and history")),
]


def told(program: str, size: str, statements: "list[str]") -> "list[str]":
    """The replies of a run in the format for programs: each its verb, or its number where it is refused, or 'rows'."""
    ran = subprocess.run([program, "--quiet", "--format", "json", "--memory", size], input="".join(f"{it};\n" for it in statements),
                         capture_output=True, text=True, check=False)
    found = []
    for line in ran.stdout.splitlines():
        refused, verb = re.search(r'"refused": (\d+)', line), re.search(r'"reply": "([A-Z ]+)"', line)
        found.append(f"E{refused[1]:0>2}" if refused else verb[1] if verb else "rows")
    return found


def closed(opened: str) -> str:
    """The replies that CLOSE READER may have for a reader: if it was refused E01, the text that closes it may find no memory either."""
    return "CLOSE READER" if opened == "OPEN READER" else "E46 E01"


def is_wrong(program: str, kind: str, filling) -> bool:
    """Whether a shape differs, and prints how."""
    keeps = KINDS[kind][2]
    # While a reader is open, no table can be made.
    opens = filling is not by_tables
    first = ["AT TIMESTAMP '2001-01-01 00:00:00'", created(kind), *seeded(), *["OPEN READER first"] * opens]
    fill = list(filling(kind))
    closing = [f"CLOSE READER {it.split()[2]}" for it in fill if it.startswith("OPEN")]
    done = [("SELECT COUNT(*) FROM t", "rows"), ("SELECT z FROM t WHERE x = 5", "rows"), ("DELETE FROM t WHERE x = 1", "DELETE"),
            *([("READ first SELECT COUNT(*) FROM t", "rows")] if keeps and opens else []), *([("CLOSE READER first", "CLOSE READER")] if opens else [])]
    after = [("AT TIMESTAMP '2020-01-01 00:00:00'", "AT"), ("PRUNE HISTORY BEFORE TIMESTAMP '2019-01-01 00:00:00'", "PRUNE HISTORY"),
             ("SELECT COUNT(*) FROM t", "rows"), ("DELETE FROM t WHERE x < 9", "DELETE"), *([] if keeps else [("DELETE FROM t", "DELETE")]),
             ("DROP TABLE t", "DROP TABLE"), ("CREATE TABLE t (x INTEGER, z VARCHAR(9))", "CREATE TABLE"), (inserted("plain", 0, 30), "INSERT")]
    got = told(program, SIZE, [*first, *fill, *(it for it, _ in done), *closing, *(it for it, _ in after)])
    at = len(first) + len(fill)
    opened = [len(first) + it for it, text in enumerate(fill) if text.startswith("OPEN")]
    wanted = [*(it for _, it in done), *(closed(it) for it in opened and got[opened[0]:opened[-1] + 1]), *(it for _, it in after)]
    asked = [*(it for it, _ in done), *closing, *(it for it, _ in after)]
    differs = [(text[:60], is_got) for text, is_got, is_wanted in zip(asked, got[at:], wanted) if is_got not in is_wanted]
    if "E01" in got[:at] and len(got[at:]) == len(wanted) and not differs:
        return False
    print(f"tql --memory {SIZE}, {kind}, {filling.__name__}: {got[:at].count('E01')} refused for memory, then {differs[:5]!r}")
    return True


def readers_lock(program: str, size: str) -> bool:
    """Whether readers of long names keep others out in a memory of this size."""
    names = [f"r{number}{'r' * length}" for number, length in
             enumerate(length for length in (900000, 300000, 100000, 30000, 10000, 3000, 1000, 300, 100, 30, 10, 3, 1) for _ in range(4))]
    first = ["CREATE TABLE t (x INTEGER)", "INSERT INTO t VALUES (1)", *(f"OPEN READER {it}" for it in names)]
    then = [("SELECT x FROM t", "rows"), ("DELETE FROM t", "DELETE"), ("START TRANSACTION", "START TRANSACTION"), ("COMMIT", "COMMIT")]
    got = told(program, size, [*first, *(it for it, _ in then), *(f"CLOSE READER {it}" for it in names), "DROP TABLE t"])
    opened = got[2:len(first)]
    wanted = [*(it for _, it in then), *(closed(it) for it in opened), "DROP TABLE"]
    if len(got) == len(first) + len(wanted) and all(is_got in it for is_got, it in zip(got[len(first):], wanted)):
        return False
    print(f"tql --memory {size}, readers of long names: {opened!r}, then {got[len(first):]!r}")
    return True


def turns_fill(program: str, size: str, kind: str) -> bool:
    """Whether DELETEs and INSERTs in turns use up what is kept back in a memory of this size."""
    fill = [*seeded(), *(copied(kind, it) for it in range(0, ROWS * int(size[:-1]) // 2, SEED)), *by_rows(kind)]
    for turn in range(2):
        fill.append(f"DELETE FROM t WHERE x BETWEEN {1000 * turn} AND {1000 * turn + 499}")
        for at, length in enumerate(LENGTHS):
            fill += [inserted(kind, 10000000 * (turn + 1) + 1000 * at + it, 1, length * "a") for it in range(100)]
    done = [("SELECT z FROM t WHERE x = 5000", "rows"), ("SELECT COUNT(*) FROM t", "rows"), ("DELETE FROM t WHERE x = 5000", "DELETE"),
            *([] if KINDS[kind][2] else [("DELETE FROM t", "DELETE")]), ("DROP TABLE t", "DROP TABLE")]
    got = told(program, size, [created(kind), *fill, *(it for it, _ in done)])
    if "E01" in got[:len(fill)] and got[len(fill) + 1:] == [it for _, it in done]:
        return False
    print(f"tql --memory {size}, {kind}, DELETEs and INSERTs in turns: {got.count('E01')} refused for memory, then {got[len(fill) + 1:]!r}")
    return True


def wrong(program: str, sizes: "tuple[str, ...]" = ("2M", "8M", "64M")) -> int:
    """How many runs differ."""
    found = sum(is_wrong(program, *it) for it in SHAPES)
    found += sum(readers_lock(program, it) for it in sizes)
    return found + sum(turns_fill(program, size, kind) for size in sizes for kind in ("plain", "key and history"))


def main() -> int:
    if len(sys.argv) != 2:
        sys.exit(__doc__.split("\n\n")[1])
    found = wrong(sys.argv[1])
    print(f"{len(SHAPES)} shapes that fill the memory, 9 longer runs, {found} wrong")
    return 1 if found else 0


if __name__ == "__main__":
    sys.exit(main())
