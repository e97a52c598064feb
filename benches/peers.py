#!/usr/bin/env python3
"""How long changes of a portion and questions of the past take by a key, in tql, in sqlite3 over a database in memory, and in MariaDB.

Usage: benches/peers.py [N]        (100,000; first: make build; TQL=path of another program; sqlite3 on the path, and mariadbd if it is to be measured)

The table has N rows: N / 4 numbers k, and for each four adjoining years, under PRIMARY KEY (k, p WITHOUT OVERLAPS), in a table that keeps its history.
They are made by INSERTs of 100 rows. N UPDATEs of a portion of 1 to 119 days of one number follow, each a transaction of its own, and then N questions for the value of one number on one
day, AS OF a moment before, between or after two halves of the changes. In sqlite3 the history is kept by hand: closed rows in a table with an index of k and the
start, and each change is the statements that SQL:2011 asks for, in one transaction. MariaDB has such tables itself: they are in its engine MEMORY.

Each program is fed through a pipe; of MariaDB both the client and the server are counted. The figure is the processor's microseconds for a statement,
the lower one of RUNS runs. Every program's answers are compared.
"""
import shutil
import subprocess
import sys
import tempfile
import time
from datetime import date, datetime, timedelta
from pathlib import Path

sys.dont_write_bytecode = True

from changes import ALWAYS, RUNS, TQL, Program

# The rows are made at START, and the two halves of the changes at CHANGED; questions are asked of MOMENTS.
START, CHANGED = "2020-01-01 00:00:00", ("2021-01-01 00:00:00", "2022-01-01 00:00:00")
MOMENTS = ("2020-06-01 00:00:00", "2021-06-01 00:00:00", "2022-06-01 00:00:00")
DAYS = 4 * 365


class Asked(Program):
    """A program that keeps what it answered."""

    def run_for(self, lines: "list[str]") -> "tuple[float, list[str]]":
        """Has these statements answered; returns the milliseconds, and the numbers of their answers."""
        answers: "list[str]" = []
        before, out = self.used(), self.process.stdout
        self.process.stdout = Tee(out, answers)
        try:
            self.run(lines)
        finally:
            self.process.stdout = out
        return self.used() - before, [it.strip(" |") for it in answers if it.strip(" |\n").isdigit()]


class Tee:
    """Lines that are noted while they are read."""

    def __init__(self, lines: "object", noted: "list[str]") -> None:
        self.lines, self.noted = lines, noted

    def __iter__(self) -> "Tee":
        return self

    def __next__(self) -> str:
        line = next(self.lines)
        self.noted.append(line.rstrip("\n"))
        return line

    def readline(self) -> str:
        return self.lines.readline()


class Maria(Asked):
    """A MariaDB server of its own, and its client."""

    def __init__(self, room: Path) -> None:
        self.is_ours, at = False, room / "maria"
        shutil.rmtree(at, ignore_errors=True)
        at.mkdir()
        subprocess.run(["mariadb-install-db", "--user=root", f"--datadir={at}/data", "--auth-root-authentication-method=normal"], check=True, capture_output=True)
        words = ["mariadbd", "--no-defaults", "--user=root", f"--datadir={at}/data", f"--socket={at}/socket", "--skip-networking", "--skip-grant-tables",
                 "--max-heap-table-size=4G", "--tmp-table-size=4G", f"--pid-file={at}/pid"]
        self.server = subprocess.Popen(words, stdout=subprocess.DEVNULL, stderr=subprocess.DEVNULL)
        while not (at / "socket").exists():
            time.sleep(0.2)
        words = ["mariadb", "--no-defaults", f"--socket={at}/socket", "--batch", "--unbuffered", "--skip-column-names", "test"]
        self.process = subprocess.Popen(words, stdin=subprocess.PIPE, stdout=subprocess.PIPE, text=True)

    def used(self) -> float:
        found = 0.0
        for it in (self.process.pid, self.server.pid):
            for thread in Path(f"/proc/{it}/task").iterdir():
                found += int((thread / "schedstat").read_text().split()[0]) / 1e6
        return found

    def end(self) -> None:
        super().end()
        self.server.terminate()
        self.server.wait()


def rows(count: int) -> "list[tuple[int, date, date]]":
    return [(it // 4, date(2011 + it % 4, 1, 1), date(2012 + it % 4, 1, 1)) for it in range(count)]


def changes(count: int) -> "list[tuple[int, date, date, int]]":
    """Of each change the number, the two days and the new value."""
    found, state = [], 1
    for it in range(1, count + 1):
        state = state * 16807 % 2147483647
        first = date(2011, 1, 1) + timedelta(state % (DAYS - 120))
        found.append((state // 7 % max(count // 4, 1), first, first + timedelta(1 + state // DAYS % 119), it))
    return found


def questions(count: int) -> "list[tuple[int, date, str]]":
    return [(it * 7919 % max(count // 4, 1), date(2011, 1, 1) + timedelta(it * 31 % DAYS), MOMENTS[it % 3]) for it in range(count)]


def table(who: str) -> "list[str]":
    if who == "tql":
        return ["CREATE TABLE mark (x VARCHAR(9));", "INSERT INTO mark VALUES ('x');",
                f"CREATE TABLE t (k INTEGER, v INTEGER, a DATE, b DATE, {ALWAYS}, PERIOD FOR p (a, b), PRIMARY KEY (k, p WITHOUT OVERLAPS)) WITH SYSTEM VERSIONING;"]
    if who == "sqlite3":
        return ["CREATE TABLE t (k INTEGER, v INTEGER, a TEXT, b TEXT, s TEXT, PRIMARY KEY (k, a)) WITHOUT ROWID;",
                "CREATE TABLE h (k INTEGER, v INTEGER, a TEXT, b TEXT, s TEXT, e TEXT);", "CREATE INDEX i ON h (k, s);"]
    return ["CREATE TABLE t (k INTEGER, v INTEGER, a DATE, b DATE, PERIOD FOR p (a, b), PRIMARY KEY (k, p WITHOUT OVERLAPS) USING BTREE)"
            " ENGINE=MEMORY WITH SYSTEM VERSIONING;"]


def clock(who: str, moment: str) -> "list[str]":
    if who == "tql":
        return [f"AT TIMESTAMP '{moment}';"]
    return [] if who == "sqlite3" else [f"SET @@timestamp = UNIX_TIMESTAMP('{moment}');"]


def filled(who: str, count: int) -> "list[str]":
    day = "DATE " if who == "tql" else ""
    more = f", '{START}'" if who == "sqlite3" else ""
    all_rows = [f"({k}, 0, {day}'{a}', {day}'{b}'{more})" for k, a, b in rows(count)]
    return [f"INSERT INTO t VALUES {', '.join(all_rows[at:at + 100])};" if who != "maria" else f"INSERT INTO t (k, v, a, b) VALUES {', '.join(all_rows[at:at + 100])};"
            for at in range(0, count, 100)]


def changed(who: str, count: int) -> "list[str]":
    found = []
    for at, (k, x, y, v) in enumerate(changes(count)):
        if at in (0, count // 2):
            found += clock(who, CHANGED[at > 0])
        if who == "sqlite3":
            # Each change is a second later than the one before.
            moment = (datetime.fromisoformat(CHANGED[at >= count // 2]) + timedelta(seconds=at % (count // 2))).isoformat(" ")
            met = f"k = {k} AND a < '{y}' AND b > '{x}'"
            found += ["BEGIN;", f"INSERT INTO h SELECT k, v, a, b, s, '{moment}' FROM t WHERE {met};",
                      f"INSERT INTO t SELECT k, v, '{y}', b, '{moment}' FROM t WHERE k = {k} AND a < '{y}' AND b > '{y}';",
                      f"INSERT INTO t SELECT k, {v}, '{x}', min(b, '{y}'), '{moment}' FROM t WHERE k = {k} AND a < '{x}' AND b > '{x}';",
                      f"UPDATE t SET b = '{x}', s = '{moment}' WHERE k = {k} AND a < '{x}' AND b > '{x}';",
                      f"UPDATE t SET v = {v}, b = min(b, '{y}'), s = '{moment}' WHERE k = {k} AND a >= '{x}' AND a < '{y}';", "COMMIT;"]
        else:
            day = "DATE " if who == "tql" else ""
            found.append(f"UPDATE t FOR PORTION OF p FROM {day}'{x}' TO {day}'{y}' SET v = {v} WHERE k = {k};")
    return found


def asked(who: str, count: int) -> "list[str]":
    found = []
    for k, day, moment in questions(count):
        if who == "tql":
            found.append(f"SELECT v FROM t FOR SYSTEM_TIME AS OF TIMESTAMP '{moment}' WHERE k = {k} AND p CONTAINS DATE '{day}';")
        elif who == "sqlite3":
            on = f"k = {k} AND s <= '{moment}' AND a <= '{day}' AND b > '{day}'"
            found.append(f"SELECT v FROM t WHERE {on} UNION ALL SELECT v FROM h WHERE {on} AND e > '{moment}';")
        else:
            found.append(f"SELECT v FROM t FOR SYSTEM_TIME AS OF TIMESTAMP'{moment}' WHERE k = {k} AND a <= '{day}' AND b > '{day}';")
    return found


def main() -> None:
    count = int(sys.argv[1]) if len(sys.argv) > 1 else 100_000
    programs = ["tql", "sqlite3"] + (["maria"] if shutil.which("mariadbd") else [])
    found: "dict[tuple[str, str], float]" = {}
    answers: "dict[str, list[str]]" = {}
    with tempfile.TemporaryDirectory() as folder:
        for _ in range(RUNS):
            for who in programs:
                it = Maria(Path(folder)) if who == "maria" else Asked(who)
                it.run(table(who) + clock(who, START))
                for what, lines in (("a row, by INSERTs of 100", filled(who, count)), ("an UPDATE of a portion by key", changed(who, count)),
                                    ("a SELECT AS OF by key and day", asked(who, count))):
                    took, answers[who] = it.run_for(lines)
                    found[what, who] = min(took * 1000 / count, found.get((what, who), 1e9))
                it.end()
                if answers[who] != answers["tql"]:
                    sys.exit(f"peers.py: {who} answers otherwise")
    for what in dict.fromkeys(what for what, _ in found):
        told = {who: found[what, who] for who in programs}
        best = min((who for who in programs if who != "tql"), key=lambda who: told[who])
        print(f"{what}: {', '.join(f'{who} {us:.1f} us' for who, us in told.items())}; {told['tql'] / told[best]:.2f} of {best}", flush=True)


if __name__ == "__main__":
    main()
