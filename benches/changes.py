#!/usr/bin/env python3
"""How long changes of many rows take, their ROLLBACK, and PRUNE HISTORY, in tql and in sqlite3 over a database in memory.

Usage: benches/changes.py [N] [RUNS]        (100,000 and 5; first: make build; TQL=path of another program; sqlite3 on the path)

The table has N rows of three INTEGERs k, v and w, where asked for with PRIMARY KEY (k), made by INSERTs of 100 rows in the order of k. The N statements
by key have k in another order. A versioned table keeps its history; in sqlite3 it is kept by hand, in a table of closed rows with an index of the key
and the start. PRUNE drops a hundredth of 2 N closed versions.

Each program is fed through a pipe, and its time as a processor sees it is read from /proc before the statements that are timed, and when they are
answered. The speed of a shared machine changes from second to second, so the two programs take turns: each table is made and changed in one and then
in the other, RUNS times. The milliseconds are the lowest ones of the runs, and the ratio is the middle of those of single turns.
"""
import statistics
import sys

from turns import Program, begun

ALWAYS = "s TIMESTAMP GENERATED ALWAYS AS ROW START, e TIMESTAMP GENERATED ALWAYS AS ROW END, PERIOD FOR SYSTEM_TIME (s, e)"
KEY = ", PRIMARY KEY (k)"
# Without a WHERE, sqlite3 drops the pages of a table that no trigger and no reference needs.
GONE = "DELETE FROM t WHERE 1"


def made(who: str, count: int, key: str, is_kept: bool) -> "list[str]":
    """The table without rows."""
    if who == "tql":
        if is_kept:
            return [f"CREATE TABLE t (k INTEGER, v INTEGER, w INTEGER, {ALWAYS}{key}) WITH SYSTEM VERSIONING;"]
        return [f"CREATE TABLE t (k INTEGER, v INTEGER, w INTEGER{key});"]
    lines = [f"CREATE TABLE t (k INTEGER, v INTEGER, w INTEGER{', s INTEGER' if is_kept else ''}{key});"]
    if is_kept:
        lines += ["CREATE TABLE h (k INTEGER, v INTEGER, w INTEGER, s INTEGER, e INTEGER);", "CREATE INDEX i ON h (k, s);"]
    return lines


def loaded(who: str, count: int, is_kept: bool) -> "list[str]":
    """INSERTs of 100 rows each."""
    start = ", 0" if who != "tql" and is_kept else ""
    return [f"INSERT INTO t VALUES {', '.join(f'({it}, {it % 100}, {it * 7919 % count}{start})' for it in range(at, min(at + 100, count)))};"
            for at in range(0, count, 100)]


def shuffled(count: int) -> "list[int]":
    return [it * 7919 % count for it in range(count)]


def kept_by_hand(who: str, work: str, moment: int, where: str = "") -> "list[str]":
    """A change of a versioned table."""
    if who == "tql":
        return [f"{work}{where};"]
    more = f", s = {moment}" if work.startswith("UPDATE") else ""
    return ["BEGIN;", f"INSERT INTO h SELECT k, v, w, s, {moment} FROM t{where};", f"{work}{more}{where};", "COMMIT;"]


def fresh(who: str, count: int, key: str, is_kept: bool, rows: "list[str]") -> Program:
    """A program that has made the table and these rows of it in one transaction."""
    it = Program(who)
    it.run(made(who, count, key, is_kept) + [begun(who), *rows, "COMMIT;"])
    return it


def at(who: str, moment: str) -> "list[str]":
    """Sets the clock of tql."""
    return [f"AT TIMESTAMP '{moment}';"] if who == "tql" else []


def all_rows(who: str, count: int, name: str, key: str) -> "dict[str, float]":
    it = fresh(who, count, key, False, loaded(who, count, False))
    found = {f"UPDATE of all rows, {name}": it.run(["UPDATE t SET v = v + 1;"])}
    found[f"DELETE of all rows, {name}"] = it.run(["DELETE FROM t;" if who == "tql" else f"{GONE};"])
    it.end()
    return found


def all_versions(who: str, count: int, name: str, key: str) -> "dict[str, float]":
    it = fresh(who, count, key, True, loaded(who, count, True))
    it.run(at(who, "2021-01-01 00:00:00"))
    found = {f"UPDATE of all rows, versioned, {name}": it.run(kept_by_hand(who, "UPDATE t SET v = v + 1", 1))}
    it.run(at(who, "2022-01-01 00:00:00"))
    found[f"DELETE of all rows, versioned, {name}"] = it.run(kept_by_hand(who, "DELETE FROM t" if who == "tql" else GONE, 2))
    it.end()
    return found


def updates_by_key(who: str, count: int) -> "dict[str, float]":
    it = fresh(who, count, KEY, False, loaded(who, count, False))
    updates = [f"UPDATE t SET v = v + 1 WHERE k = {it};" for it in shuffled(count)]
    found = {"N UPDATEs by key in one transaction": it.run([begun(who), *updates])}
    found["ROLLBACK of them"] = it.run(["ROLLBACK;"])
    it.end()
    return found


def undone_inserts(who: str, count: int, name: str, key: str) -> "dict[str, float]":
    it = fresh(who, count, key, False, [])
    it.run([begun(who), *(f"INSERT INTO t VALUES ({it}, {it % 100}, {it});" for it in shuffled(count))])
    found = {f"ROLLBACK of N INSERTs, {name}": it.run(["ROLLBACK;"])}
    it.end()
    return found


def inserts(who: str, count: int, name: str, key: str) -> "dict[str, float]":
    it = fresh(who, count, key, False, [])
    found = {f"N rows by INSERTs of 100, {name}": it.run(loaded(who, count, False))}
    it.end()
    return found


def pruned(who: str, count: int) -> "dict[str, float]":
    it = fresh(who, count, KEY, True, loaded(who, count, True))
    part = max(count // 50, 1)
    for year in (2021, 2022):
        for first in range(0, count, part):
            minute = first // part
            it.run(at(who, f"{year}-01-01 00:{minute:02d}:00"))
            it.run(kept_by_hand(who, "UPDATE t SET v = v + 1", year * 100 + minute, f" WHERE k BETWEEN {first} AND {first + part - 1}"))
    prune = "PRUNE HISTORY BEFORE TIMESTAMP '2021-01-01 00:00:30';" if who == "tql" else "DELETE FROM h WHERE e <= 202100;"
    found = {"PRUNE of a hundredth of 2 N versions": it.run([prune])}
    it.end()
    return found


# What is timed, each with a table of its own.
TURNS = [
    (all_rows, "plain", ""), (all_rows, "under a key", KEY), (all_versions, "without a key", ""), (all_versions, "under a key", KEY), (updates_by_key,),
    (undone_inserts, "under a key", KEY), (undone_inserts, "without a key", ""), (inserts, "without a key", ""), (inserts, "under a key", KEY), (pruned,),
]


def main() -> None:
    count, runs = (int(sys.argv[it]) if it < len(sys.argv) else other for it, other in ((1, 100_000), (2, 5)))
    spent: "dict[str, list[tuple[float, float]]]" = {}
    for _ in range(runs):
        for turn, *words in TURNS:
            ours, theirs = turn("tql", count, *words), turn("sqlite3", count, *words)
            for name in ours:
                spent.setdefault(name, []).append((ours[name], theirs[name]))
    print(f"| {count:,} rows | `tql` | `sqlite3` | ratio |\n|---|---|---|---|")
    for name, turns in spent.items():
        low = [min(it[who] for it in turns) for who in (0, 1)]
        print(f"| {name} | {low[0]:.1f} ms | {low[1]:.1f} ms | {statistics.median(it[0] / it[1] for it in turns):.2f} |")


if __name__ == "__main__":
    main()
