#!/usr/bin/env python3
"""How long queries take that look at all rows, join, group and order, in tql and in sqlite3 over a database in memory, at several sizes N.

Usage: benches/queries.py [N..] [WORD..]        (all questions, or those whose line has one of the words; first: make build; TQL=path of another
       program; sqlite3 on the path)

Two tables of N rows of three INTEGERs each: n is one of 0 to N - 1 and its own in each row, k is n modulo 100, c is 1. None has a key, and sqlite3 no
index but those that it makes for a question. A third of the same columns is empty, and takes rows of the first by a query, which are rolled back. A
fourth table has a period of 10 days of 1,000; the two columns are texts in sqlite3, with an index of the first. A fifth has its N rows written anew in
three later minutes, and a reader was opened after the second; in sqlite3 its history is kept by hand, with an index of the starts.

What is printed is read from a pipe, and goes nowhere. The two programs take turns, TURNS times a question, which is asked as often in a turn as takes
LEAST milliseconds. The times are those of a processor for a question and a row of the table, the lowest of the turns; the ratio is the middle of those
of single turns.
"""
import statistics
import sys
import time

from turns import Program, begun

TURNS, LEAST = 7, 20.0
# How often a question is asked at most in a turn.
MOST = 5_000
ALWAYS = "s TIMESTAMP GENERATED ALWAYS AS ROW START, e TIMESTAMP GENERATED ALWAYS AS ROW END, PERIOD FOR SYSTEM_TIME (s, e)"
LISTED = ", ".join(str(it * 37) for it in range(200))
TAKEN = "INSERT INTO w SELECT n, k, c FROM t; ROLLBACK;"
# What is asked: its name; the table that it is asked of; the question in tql, and in sqlite3 where it is another.
QUESTIONS = [
    ("COUNT(*)", "plain", "SELECT COUNT(*) FROM t;", None),
    ("one row by a condition", "plain", "SELECT k FROM t WHERE n = 77;", None),
    ("IN of 200 numbers", "plain", f"SELECT COUNT(*) FROM t WHERE n IN ({LISTED});", None),
    ("SUM with a WHERE that 71 of 100 rows meet", "plain", "SELECT SUM(n) FROM t WHERE k < 71;", None),
    ("five aggregates", "plain", "SELECT COUNT(*), SUM(n), MIN(n), MAX(k), COUNT(c) FROM t;", None),
    ("GROUP BY in 100 groups, with COUNT and SUM", "plain", "SELECT k, COUNT(*), SUM(n) FROM t GROUP BY k;", None),
    ("GROUP BY in N groups", "plain", "SELECT n, COUNT(*) FROM t GROUP BY n;", None),
    ("DISTINCT, of 100 values", "plain", "SELECT DISTINCT k FROM t;", None),
    ("SELECT of all rows", "plain", "SELECT n, k FROM t;", None),
    ("ORDER BY of all rows", "plain", "SELECT n, k FROM t ORDER BY n DESC;", None),
    ("INSERT of all rows from a SELECT", "plain", f"START TRANSACTION; {TAKEN}", f"BEGIN; {TAKEN}"),
    ("a join on an equality", "plain", "SELECT t.n, u.k FROM t JOIN u ON t.n = u.n;", None),
    ("LEFT JOIN", "plain", "SELECT t.n, u.k FROM t LEFT JOIN u ON t.n = u.n;", None),
    ("by a comma and WHERE", "plain", "SELECT t.n, u.k FROM t, u WHERE t.n = u.n;", None),
    ("three tables by commas", "plain", "SELECT COUNT(*) FROM t, u, t v WHERE t.n = u.n AND u.n = v.n;", None),
    ("on two columns, the first of one value", "plain", "SELECT COUNT(*) FROM t JOIN u ON t.c = u.c AND t.n = u.n;", None),
    ("the rows of a day", "days", "SELECT n FROM d WHERE p CONTAINS DATE '2001-06-01';", "SELECT n FROM d WHERE a <= '2001-06-01' AND b > '2001-06-01';"),
    ("the rows of a week", "days", "SELECT n FROM d WHERE p OVERLAPS PERIOD (DATE '2001-06-01', DATE '2001-06-08');",
     "SELECT n FROM d WHERE a < '2001-06-08' AND b > '2001-06-01';"),
    ("all rows AS OF a moment, in 100 groups", "past",
     "SELECT k, COUNT(*), SUM(n) FROM h FOR SYSTEM_TIME AS OF TIMESTAMP '2011-01-01 00:01:30' GROUP BY k;",
     "SELECT k, COUNT(*), SUM(n) FROM h WHERE s <= 90 AND e > 90 GROUP BY k;"),
    ("READ of all rows", "past", "READ r SELECT n, k FROM h;", "SELECT n, k FROM h WHERE s <= 120 AND e > 120;"),
]


def inserted(table: str, rows: list[str]) -> list[str]:
    """INSERTs of these rows, 1,000 in a statement."""
    return [f"INSERT INTO {table} VALUES {', '.join(rows[at:at + 1000])};" for at in range(0, len(rows), 1000)]


def plain(who: str, count: int) -> list[str]:
    """The two tables, with their rows in two orders, and the empty one; the factors have no divisor in common with the sizes that are asked for."""
    lines = [f"CREATE TABLE {name} (n INTEGER, k INTEGER, c INTEGER);" for name in "tuw"] + [begun(who)]
    for name, factor in (("t", 7919), ("u", 104_729)):
        numbers = [at * factor % count for at in range(count)]
        lines += inserted(name, [f"({number}, {number % 100}, 1)" for number in numbers])
    return [*lines, "COMMIT;"]


def days(who: str, count: int) -> list[str]:
    """The table with a period."""
    word = "DATE " if who == "tql" else ""
    kind = "(n INTEGER, a DATE, b DATE, PERIOD FOR p (a, b))" if who == "tql" else "(n INTEGER, a TEXT, b TEXT)"
    day = [time.strftime("%Y-%m-%d", time.gmtime(978_307_200 + 86_400 * at)) for at in range(1010)]
    rows = [f"({at}, {word}'{day[at % 1000]}', {word}'{day[at % 1000 + 10]}')" for at in range(count)]
    index = [] if who == "tql" else ["CREATE INDEX starts ON d (a);"]
    return [f"CREATE TABLE d {kind};", *index, begun(who), *inserted("d", rows), "COMMIT;"]


def past(who: str, count: int) -> list[str]:
    """The table that is written anew in three minutes."""
    if who == "tql":
        lines = [f"CREATE TABLE h (n INTEGER, k INTEGER, {ALWAYS}) WITH SYSTEM VERSIONING;", "AT TIMESTAMP '2011-01-01 00:00:00';", begun(who)]
        lines += [*inserted("h", [f"({at}, {at % 100})" for at in range(count)]), "COMMIT;"]
        for minute in (1, 2, 3):
            lines += [f"AT TIMESTAMP '2011-01-01 00:0{minute}:00';", "UPDATE h SET n = n + 1;"] + ["OPEN READER r;"] * (minute == 2)
        return lines
    lines = ["CREATE TABLE h (n INTEGER, k INTEGER, s INTEGER, e INTEGER);", "CREATE INDEX begun ON h (s);", begun(who)]
    lines += inserted("h", [f"({at}, {at % 100}, 0, 99999999)" for at in range(count)])
    for moment in (60, 120, 180):
        lines += [f"INSERT INTO h SELECT n + 1, k, {moment}, 99999999 FROM h WHERE e = 99999999;"]
        lines += [f"UPDATE h SET e = {moment} WHERE e = 99999999 AND s < {moment};"]
    return [*lines, "COMMIT;"]


def filled(who: str, lines: "list[str]") -> Program:
    """A program that has run a script."""
    it = Program(who)
    it.run(lines)
    return it


def measured(count: int, question: "tuple[str, str, str, str | None]", programs: "dict[str, Program]") -> str:
    """The nanoseconds of a question and a row in both programs, and the ratio."""
    asked, times, spent = {"tql": question[2], "sqlite3": question[3] or question[2]}, {}, []
    for who, it in programs.items():
        one = it.run([asked[who]])
        times[who] = max(1, min(MOST, int(LEAST / max(one, 0.001))))
    for _ in range(TURNS):
        spent.append({who: it.run([asked[who]] * times[who]) / times[who] / count * 1e6 for who, it in programs.items()})
    ratio = statistics.median(it["tql"] / it["sqlite3"] for it in spent)
    return " | ".join([*(f"{min(it[who] for it in spent):.0f} ns" for who in programs), f"{ratio:.2f}"])


def main() -> int:
    sizes = [int(it) for it in sys.argv[1:] if it.isdigit()] or [1000, 10_000, 100_000]
    words = [it for it in sys.argv[1:] if not it.isdigit()]
    questions = [it for it in QUESTIONS if not words or any(word in it[0] for word in words)]
    found: "dict[str, list[str]]" = {it[0]: [] for it in questions}
    for count in sizes:
        for table, make in (("plain", plain), ("days", days), ("past", past)):
            of = [it for it in questions if it[1] == table]
            programs = {who: filled(who, make(who, count)) for who in ("tql", "sqlite3")} if of else {}
            for question in of:
                found[question[0]].append(measured(count, question, programs))
            for it in programs.values():
                it.end()
    print("| What | " + " | ".join(f"`tql`, {count:,} | `sqlite3`, {count:,} | ratio" for count in sizes) + " |")
    print("|---|" + "---|" * 3 * len(sizes))
    for name, told in found.items():
        print(f"| {name} | {' | '.join(told)} |")
    return 0


if __name__ == "__main__":
    sys.exit(main())
