#!/usr/bin/env python3
"""How many instructions a statement takes, or a row of one, in tql and in sqlite3 over a database in memory.

Usage: benches/instructions.py PROGRAM [WORD..]        all statements, or those whose line has one of the words
       (first: make build or make quick, which leave a PROGRAM; needs valgrind and sqlite3; --sqlite3 as a WORD leaves PROGRAM out)

Instructions are the difference of two runs under valgrind's callgrind, one without the statement and one with it some times, divided by these times,
and in the lines `a row` also by the rows of the table. They do not depend on what else the machine does, so the runs go on side by side. It prints
lines of a table for docs/TIMES.md.

Tables, in which n is a row's own number from 0 on in a mixed order, g is n modulo 100 and x a text of n:
- keyed: 20,000 rows (n, g, x) with a key of n, which in sqlite3 is an index too (a BIGINT);
- plain: 5,000 rows (n, g, x), and as many in a second table in another order, without a key;
- paired: 2,000 rows with a key of n in each of two tables, and a third table with a key of n and g;
- past: 5,000 rows that are system-versioned, each changed once, and a reader that was opened between. In sqlite3 the history is kept by hand.
"""
import os
import re
import subprocess
import sys
import tempfile
from concurrent.futures import ThreadPoolExecutor
from pathlib import Path

COLLECTED = re.compile(r"Collected : (\d+)")
SIZES = {"keyed": 20_000, "plain": 5_000, "paired": 2_000, "past": 5_000, "none": 1}
ALWAYS = "s TIMESTAMP GENERATED ALWAYS AS ROW START, e TIMESTAMP GENERATED ALWAYS AS ROW END, PERIOD FOR SYSTEM_TIME (s, e)"
LISTED = ", ".join(str(it * 37 % 6_000) for it in range(200))
KEY = ", PRIMARY KEY ({})"


class Row:
    """A line: what is asked, of which table, how often, whether it is counted by the rows of the table, and the statements. A number in braces
    ({0}, {99}) is another key each time, plus that number; `lite` is what sqlite3 is asked where it differs, and None where it has no counterpart."""

    def __init__(self, what: str, table: str, text: str, lite: "str | None" = "", times: int = 20, by_rows: bool = False) -> None:
        self.what, self.table, self.text, self.times, self.by_rows = what, table, text, times, by_rows
        self.lite = text if lite == "" else lite

    def asked(self, who: str) -> str:
        """The statements, each a line."""
        text, size = self.text if who == "tql" else self.lite, SIZES[self.table]
        keys = [at * 9_787 % (size - 200) if size > 200 else at for at in range(self.times)]
        return "".join(re.sub(r"\{(\d+)\}", lambda it, key=key: str(key + int(it[1])), text) + "\n" for key in keys)


def undone(text: str) -> tuple[str, str]:
    """A change that is rolled back, so that each time the same rows are there."""
    return f"START TRANSACTION;\n{text}\nROLLBACK;", f"BEGIN;\n{text}\nROLLBACK;"


def by_row(what: str, table: str, text: str, lite: "str | None" = "", times: int = 4) -> Row:
    return Row(f"{what}, a row", table, text, lite, times, True)


READ_ROWS = "SELECT n, v FROM h WHERE s <= 1 AND e > 1;"
ROWS = [
    Row("a one-row INSERT without a key", "none", "INSERT INTO w VALUES ({0}, 0, 'row {0}');", times=500),
    Row("a one-row INSERT under a key of a number", "none", "INSERT INTO r VALUES ({0}, 0, 'row {0}');", times=500),
    Row("a one-row INSERT under a key of a number and a text", "none", "INSERT INTO b VALUES ({0}, 0, 'row {0}');", times=500),
    Row("a SELECT by the key", "keyed", "SELECT x FROM r WHERE n = {0};"),
    Row("a SELECT by the key and a calculation", "keyed", "SELECT x FROM r WHERE n = {0} AND g + 1 > 0;"),
    Row("a SELECT by IN of five keys", "keyed", "SELECT n, g FROM r WHERE n IN ({0}, {17}, {40}, {3}, {99});"),
    Row("a SELECT by an OR of two keys", "keyed", "SELECT n, g FROM r WHERE n = {0} OR n = {50};"),
    Row("a SELECT of 100 rows by BETWEEN", "keyed", "SELECT n, g FROM r WHERE n BETWEEN {0} AND {99};"),
    Row("a SELECT of 100 rows by > and <=", "keyed", "SELECT n, g FROM r WHERE n > {0} AND n <= {100};"),
    Row("a SELECT of 100 rows by BETWEEN, ORDER BY the key", "keyed", "SELECT n, g FROM r WHERE n BETWEEN {0} AND {99} ORDER BY n DESC;"),
    Row("COUNT(*) and SUM of 100 rows by BETWEEN", "keyed", "SELECT COUNT(*), SUM(g) FROM r WHERE n BETWEEN {0} AND {99};"),
    Row("a SELECT of one row by BETWEEN and a condition", "keyed", "SELECT n, g FROM r WHERE n BETWEEN {0} AND {99} AND g = 7;"),
    Row("a SELECT of 100 rows by an open range", "keyed", "SELECT n, g FROM r WHERE n >= 19900;", times=4),
    Row("MIN and MAX of the key", "keyed", "SELECT MIN(n), MAX(n) FROM r;", times=4),
    Row("an UPDATE by the key", "keyed", "UPDATE r SET g = g + 1 WHERE n = {0};"),
    Row("an UPDATE of 100 rows by BETWEEN", "keyed", "UPDATE r SET g = g + 1 WHERE n BETWEEN {0} AND {99};"),
    Row("a DELETE of 100 rows by BETWEEN, rolled back", "keyed", *undone("DELETE FROM r WHERE n BETWEEN {0} AND {99};")),
    Row("an UPDATE by IN of five keys", "keyed", "UPDATE r SET g = g + 1 WHERE n IN ({0}, {17}, {40}, {3}, {99});"),
    by_row("COUNT(*)", "plain", "SELECT COUNT(*) FROM t;"),
    by_row("a WHERE of one comparison that one row meets", "plain", "SELECT n, g FROM t WHERE n = 77;"),
    by_row("a WHERE of a comparison of a text", "plain", "SELECT n, g FROM t WHERE x = 'row 77';"),
    by_row("COUNT(*) with a WHERE that half of the rows meet", "plain", "SELECT COUNT(*) FROM t WHERE n < 2500;"),
    by_row("a WHERE of three comparisons", "plain", "SELECT n, g FROM t WHERE g > 50 AND g <= 51 AND n > 100;"),
    by_row("a WHERE of IN of 200 numbers without a key", "plain", f"SELECT COUNT(*) FROM t WHERE n IN ({LISTED});"),
    by_row("a WHERE that calculates", "plain", "SELECT n, g FROM t WHERE n + 1 = 78;"),
    by_row("SUM with a WHERE that five of seven rows meet", "plain", "SELECT SUM(n) FROM t WHERE g < 71;"),
    by_row("five aggregates", "plain", "SELECT COUNT(*), SUM(n), MIN(n), MAX(g), COUNT(x) FROM t;"),
    by_row("GROUP BY in 100 groups, with COUNT and SUM", "plain", "SELECT g, COUNT(*), SUM(n) FROM t GROUP BY g;"),
    by_row("GROUP BY in as many groups as rows", "plain", "SELECT n, COUNT(*) FROM t GROUP BY n;"),
    by_row("GROUP BY a text in as many groups as rows", "plain", "SELECT x, COUNT(*) FROM t GROUP BY x;"),
    by_row("GROUP BY with HAVING", "plain", "SELECT g, SUM(n) FROM t GROUP BY g HAVING COUNT(*) > 1;"),
    by_row("DISTINCT of 100 values", "plain", "SELECT DISTINCT g FROM t;"),
    by_row("DISTINCT of texts, each of one row", "plain", "SELECT DISTINCT x FROM t;"),
    by_row("a SELECT of two numbers", "plain", "SELECT n, g FROM t;"),
    by_row("the same, ordered by the first", "plain", "SELECT n, g FROM t ORDER BY n DESC;"),
    by_row("a SELECT of two columns ordered by a text", "plain", "SELECT x, g FROM t ORDER BY x DESC;"),
    by_row("an INSERT of three columns from a SELECT, rolled back", "plain", *undone("INSERT INTO w SELECT n, g, x FROM t;")),
    by_row("an UPDATE of all", "plain", "UPDATE t SET g = g + 1;"),
    by_row("a DELETE of half, rolled back", "plain", *undone("DELETE FROM t WHERE n < 2500;")),
    by_row("the rows of a join on an equality, counted", "plain", "SELECT COUNT(*) FROM t JOIN u ON t.n = u.n;"),
    by_row("the same, printed", "plain", "SELECT t.n, u.g FROM t JOIN u ON t.n = u.n;"),
    by_row("LEFT JOIN, printed", "plain", "SELECT t.n, u.g FROM t LEFT JOIN u ON t.n = u.n;"),
    by_row("a join on an equality, with a WHERE that calculates", "plain", "SELECT COUNT(*) FROM t JOIN u ON t.n = u.n WHERE t.g + 1 > 3;"),
    by_row("a join on two columns, the first of 100 values", "plain", "SELECT COUNT(*) FROM t JOIN u ON t.g = u.g AND t.n = u.n;"),
    by_row("three tables by commas", "plain", "SELECT COUNT(*) FROM t, u, t v WHERE t.n = u.n AND u.n = v.n;"),
    by_row("a join by a key", "paired", "SELECT COUNT(*) FROM p JOIN q ON p.n = q.n;"),
    by_row("a join by a key of two columns", "paired", "SELECT COUNT(*) FROM p JOIN o ON p.n = o.n AND p.g = o.g;"),
    by_row("a join on a calculation", "paired", "SELECT COUNT(*) FROM p JOIN q ON p.n = q.n + 1;", times=1),
    Row("a SELECT of a row by its key, joined by commas to two others", "paired",
        "SELECT p.n, q.g, o.g FROM p, q, o WHERE p.n = {0} AND q.n = p.n AND o.n = p.n AND o.g = p.g;"),
    by_row("a READ of all rows", "past", "READ r SELECT n, v FROM h;", READ_ROWS),
    by_row("all rows AS OF a moment", "past", "SELECT n, v FROM h FOR SYSTEM_TIME AS OF TIMESTAMP '2011-01-01 00:00:30';", READ_ROWS),
    by_row("the current rows of a table with a history", "past", "SELECT n, v FROM h;", "SELECT n, v FROM h WHERE e = 99999999;"),
    Row("a READ of 100 rows by BETWEEN", "past", "READ r SELECT n, v FROM h WHERE n BETWEEN {0} AND {99};",
        "SELECT n, v FROM h WHERE n BETWEEN {0} AND {99} AND s <= 1 AND e > 1;"),
    Row("100 rows by BETWEEN, AS OF a moment", "past", "SELECT n, v FROM h FOR SYSTEM_TIME AS OF TIMESTAMP '2011-01-01 00:00:30' WHERE n BETWEEN {0} AND {99};",
        "SELECT n, v FROM h WHERE n BETWEEN {0} AND {99} AND s <= 1 AND e > 1;"),
]


def created(who: str, name: str, key: str = "") -> str:
    kind = "INTEGER" if who == "tql" else "BIGINT"
    return f"CREATE TABLE {name} (n {kind}, g {kind}, x VARCHAR(20){KEY.format(key) if key else ''});\n"


def filled(name: str, size: int, factor: int, row: str = "({0}, {1}, 'row {0}')") -> str:
    """INSERTs of 1,000 rows each; the factor has no divisor in common with the size."""
    numbers = [at * factor % size for at in range(size)]
    rows = [row.format(it, it % 100) for it in numbers]
    return "".join(f"INSERT INTO {name} VALUES {', '.join(rows[at:at + 1000])};\n" for at in range(0, size, 1000))


def past(who: str) -> str:
    """A table whose rows were changed once."""
    size = SIZES["past"]
    if who == "tql":
        return (f"CREATE TABLE h (n INTEGER, v INTEGER, {ALWAYS}, PRIMARY KEY (n)) WITH SYSTEM VERSIONING;\nAT TIMESTAMP '2011-01-01 00:00:00';\n"
                + filled("h", size, 7919, "({0}, {1})") + "OPEN READER r;\nAT TIMESTAMP '2011-01-01 00:01:00';\nUPDATE h SET v = v + 1;\n")
    lines = "CREATE TABLE h (n BIGINT, v BIGINT, s BIGINT, e BIGINT, PRIMARY KEY (n, s));\n" + filled("h", size, 7919, "({0}, {1}, 0, 60)")
    return lines + filled("h", size, 7919, "({0}, {1} + 1, 60, 99999999)")


def tables(who: str) -> dict[str, str]:
    """The scripts that make the tables."""
    plain, paired = SIZES["plain"], SIZES["paired"]
    return {
        "none": created(who, "w") + created(who, "r", "n") + created(who, "b", "n, x"),
        "keyed": created(who, "r", "n") + filled("r", SIZES["keyed"], 7919),
        "plain": created(who, "t") + created(who, "u") + created(who, "w") + filled("t", plain, 7919) + filled("u", plain, 104_729),
        "paired": created(who, "p", "n") + created(who, "q", "n") + created(who, "o", "n, g")
                  + filled("p", paired, 7919) + filled("q", paired, 104_729) + filled("o", paired, 7907),
        "past": past(who),
    }


def instructions(words: list[str], text: str) -> int:
    """The instructions of a run, in which no statement is refused."""
    with tempfile.TemporaryDirectory(prefix="tql-instructions-") as room:
        path = Path(room) / "script.sql"
        path.write_text(text, encoding="utf-8")
        words = [it.format(path) for it in words]
        ran = subprocess.run(["valgrind", "--tool=callgrind", f"--callgrind-out-file={room}/out", *words], cwd=room,
                             stdin=subprocess.DEVNULL, stdout=subprocess.PIPE, stderr=subprocess.PIPE, text=True, check=False)
    if "REFUSED" in ran.stdout or "rror" in ran.stderr or not COLLECTED.search(ran.stderr):
        sys.exit(f"{words}: {ran.stdout[-300:]}{ran.stderr[-600:]}")
    return int(COLLECTED.search(ran.stderr)[1])


def main() -> None:
    program, *words = sys.argv[1:] or [""]
    if not program:
        sys.exit(__doc__)
    runs = {"tql": [os.path.abspath(program), "{}"], "sqlite3": ["sqlite3", ":memory:", ".read {}"]}
    if "--sqlite3" in words:
        words.remove("--sqlite3")
        del runs["tql"]
    rows = [it for it in ROWS if not words or any(word in it.what for word in words)]
    with ThreadPoolExecutor(max(1, (os.cpu_count() or 2) - 1)) as pool:
        scripts = {who: tables(who) for who in runs}
        base = {(who, it): pool.submit(instructions, runs[who], scripts[who][it]) for who in runs for it in {row.table for row in rows}}
        taken = {(who, row): pool.submit(instructions, runs[who], scripts[who][row.table] + row.asked(who))
                 for row in rows for who in runs if who == "tql" or row.lite is not None}
        print(f"| What | {' | '.join(f'`{who}`' for who in runs)} |\n|---|{'---|' * len(runs)}", flush=True)
        for row in rows:
            told = []
            for who in runs:
                spent = taken[who, row].result() - base[who, row.table].result() if (who, row) in taken else None
                told.append("" if spent is None else f"{spent / row.times / (SIZES[row.table] if row.by_rows else 1):,.0f}")
            print(f"| {row.what} | {' | '.join(told)} |", flush=True)


if __name__ == "__main__":
    main()
