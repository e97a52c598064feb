#!/usr/bin/env python3
"""Compares tql with MariaDB and PostgreSQL over the tables that tql-export writes. Outside the gate.

Usage: tools/exports.py [SCRIPT ..]        (make try-exports; without a SCRIPT: those of the recipes and examples)

Both servers are started here, on a socket in a folder of their own, and ended. Each script is exported, loaded and asked: per table all
versions, the current rows, and at three moments and three days what was known then about the day; the answers must be equal. Then a row is
added again: where tql refuses it by a key, the others must too. MariaDB is asked about moments from 1970 on alone. The program is TQL=path,
./tql or ./tql-quick, as in tools/quick.py. The servers come with Debian: mariadb-server, postgresql. Status 1: something differs.
"""
import importlib.machinery
import importlib.util
import os
import re
import shutil
import signal
import subprocess
import sys
import tempfile
import time
from pathlib import Path

sys.dont_write_bytecode = True
import quick  # noqa: E402

TOP = Path(__file__).resolve().parent.parent
CASES = TOP / "crates" / "test_cases" / "data" / "cases"
HIGH, LAST = "9999-12-31 23:59:59.999999", "2038-01-19 03:14:07.999999"


def module(name: str):
    """Returns a tool without an ending as a module."""
    loader = importlib.machinery.SourceFileLoader(name.replace("-", "_"), str(TOP / "tools" / name))
    made = importlib.util.module_from_spec(importlib.util.spec_from_loader(loader.name, loader))
    sys.modules[loader.name] = made
    loader.exec_module(made)
    return made


export = module("tql-export")


def user(name: str) -> dict:
    """Returns how a server is started that root may not run."""
    return {"user": name, "group": name, "extra_groups": []} if os.getuid() == 0 else {}


class Server:
    """A server on a socket in a folder of its own."""

    def __init__(self, room: Path, name: str) -> None:
        self.room, self.databases = room / name, 0
        self.room.mkdir()
        if os.getuid() == 0:
            shutil.chown(self.room, name, name)
        self.started = None

    def run(self, words: list, given: str = "", **more) -> subprocess.CompletedProcess:
        return subprocess.run(words, input=given, capture_output=True, text=True, encoding="utf-8", check=False, cwd=self.room, **more)

    def wait(self) -> None:
        """Waits until the server answers."""
        for _ in range(600):
            if self.query("SELECT 1", self.first)[0]:
                return
            time.sleep(0.1)
        sys.exit(f"{type(self).__name__} does not answer: {self.query('SELECT 1', self.first)}")

    def end(self) -> None:
        if self.started:
            self.started.terminate()
            self.started.wait(60)

    def load(self, text: str) -> "tuple[bool, str]":
        """Makes a database of a file, and returns whether all was accepted."""
        self.databases += 1
        self.query(f"CREATE DATABASE d{self.databases}", self.first)
        return self.query(text, f"d{self.databases}")

    def ask(self, text: str) -> list:
        """Returns the rows of an answer, sorted."""
        is_well, out = self.query(text, f"d{self.databases}")
        return sorted(map(plain, out.splitlines())) if is_well else [out]


def quoted(name: str, more: str = "") -> str:
    """Returns a name as an export has it."""
    return export.Writer([], "").name(name, more)


def plain(line: str) -> str:
    """Returns a line of an answer without zeros after the second, and with the highest moment of tql."""
    line = re.sub(r"(:\d\d)\.(\d*?)0+(?=\t|$)", lambda it: it[1] + (f".{it[2]}" if it[2] else ""), line)
    return line.replace(LAST, HIGH)


class MariaDB(Server):
    first = "mysql"

    def start(self) -> None:
        data = f"--datadir={self.room}/data"
        self.run(["mariadb-install-db", "--no-defaults", data, "--auth-root-authentication-method=normal", "--skip-test-db"], **user("mysql"))
        log = open(self.room / "log", "w", encoding="utf-8")
        self.started = subprocess.Popen(["mariadbd", "--no-defaults", data, f"--socket={self.room}/socket", "--skip-networking",
                                         f"--pid-file={self.room}/pid"], stdout=log, stderr=log, **user("mysql"))
        self.wait()

    def query(self, text: str, database: str) -> "tuple[bool, str]":
        ran = self.run(["mariadb", "--no-defaults", f"--socket={self.room}/socket", "-u", "root", "-N", "-B", "--raw",
                        "--default-character-set=utf8mb4", "--init-command=SET time_zone='+00:00', sql_mode='ANSI_QUOTES'", database], text)
        return ran.returncode == 0, ran.stdout if ran.returncode == 0 else ran.stderr

    def reference(self, table, moment: "str | None", span: str = "") -> tuple:
        """Returns what follows FROM for a table at a moment, in a span or now, and a condition."""
        name = quoted(table.name)
        if span:
            return f"{name} FOR SYSTEM_TIME ALL", "TRUE"
        return (f"{name} FOR SYSTEM_TIME AS OF TIMESTAMP '{moment}'" if moment else name), "TRUE"

    def contains(self, table, day: str) -> str:
        _, start, end = table.period
        return f"{quoted(start)} <= '{day}' AND '{day}' < {quoted(end)}"


class PostgreSQL(Server):
    first = "postgres"

    def start(self) -> None:
        folder = subprocess.run(["pg_config", "--bindir"], stdout=subprocess.PIPE, text=True, check=True).stdout.strip()
        made = self.run([f"{folder}/initdb", "-D", f"{self.room}/data", "-A", "trust", "-U", "postgres", "-E", "UTF8", "--locale=C"], **user("postgres"))
        if made.returncode:
            sys.exit(made.stderr)
        log = open(self.room / "log", "w", encoding="utf-8")
        self.started = subprocess.Popen([f"{folder}/postgres", "-D", f"{self.room}/data", "-k", str(self.room), "-h", ""],
                                        stdout=log, stderr=log, **user("postgres"))
        self.wait()

    def query(self, text: str, database: str) -> "tuple[bool, str]":
        ran = self.run(["psql", "-X", "-q", "-A", "-t", "-F", "\t", "-P", "null=NULL", "-v", "ON_ERROR_STOP=1", "-h", str(self.room), "-U", "postgres",
                        "-d", database], text)
        return ran.returncode == 0, ran.stdout if ran.returncode == 0 else ran.stderr

    def reference(self, table, moment: "str | None", span: str = "") -> tuple:
        if moment or span:
            return quoted(table.name, "_history"), f"system_time @> TIMESTAMP '{moment}'" if moment else "TRUE"
        return quoted(table.name), "TRUE"

    def contains(self, table, day: str) -> str:
        kind = "DATE" if table.column(table.period[1]).kind == "DATE" else "TIMESTAMP"
        return f"{quoted(table.period[0])} @> {kind} '{day}'"


class Tql:
    """The program with the rows of a script. Names are quoted as it keeps them."""

    def __init__(self, program: str, script: str) -> None:
        self.program, self.script = program, script

    def ask(self, text: str) -> list:
        told = export.answers(self.program, f"{self.script}\n;ROLLBACK;\n{text};\n")[-1]
        if "refused" in told:
            return [f"E{told['refused']}"]
        return sorted(plain("\t".join("NULL" if it is None else str(it) for it in row)) for row in told.get("rows", []))

    def reference(self, table, moment: "str | None", span: str = "") -> tuple:
        clause = span or (f"AS OF TIMESTAMP '{moment}'" if moment else "")
        return f'"{table.name}"' + (f" FOR SYSTEM_TIME {clause}" if clause else ""), "1 = 1"

    def contains(self, table, day: str) -> str:
        kind = "DATE" if table.column(table.period[1]).kind == "DATE" else "TIMESTAMP"
        return f"\"{table.period[0]}\" CONTAINS {kind} '{day}'"


def spread(values: set) -> list:
    """Returns three of some values: the least, one in the middle, the greatest."""
    found = sorted(values)
    return sorted({found[0], found[len(found) // 2], found[-1]}) if found else []


def questions(table, horizon: str, least: str) -> list:
    """Returns the questions about a table: moment, day and span of each."""
    moments, days = [None], [None]
    if table.system:
        start = table.place(table.system[0])
        moments += [it for it in spread({row[start] for row in table.rows}) if max(horizon, least) <= it < "2038"]
    if table.period:
        start = table.place(table.period[1])
        days += spread({row[start] for row in table.rows})
    found = [(moment, day, "") for moment in moments for day in days]
    return found + [(None, None, f"FROM TIMESTAMP '{horizon}' TO TIMESTAMP '{HIGH}'")] * bool(table.system)


def question(system, table, names: list, asked: tuple) -> str:
    """Returns a question in the language of a system."""
    moment, day, span = asked
    source, condition = system.reference(table, moment, span)
    shown = ", ".join(f'"{it}"' if isinstance(system, Tql) else quoted(it) for it in names)
    return f"SELECT {shown} FROM {source} WHERE {condition}" + (f" AND {system.contains(table, day)}" if day else "")


def compare(tql: Tql, server: Server, tables: list, horizon: str, notes: str) -> "tuple[int, list]":
    """Asks both about each table, and returns how many questions were asked and what differs."""
    count, wrong, is_maria = 0, [], isinstance(server, MariaDB)
    for table in tables:
        is_cut = is_maria and f"{export.Writer([], '').plain(table.name)}: " in notes
        names = [it.name for it in table.columns if not (is_cut and it.generated)]
        for asked in questions(table, horizon, "1970" if is_maria else ""):
            if is_cut and asked[2]:
                continue
            wanted, got = tql.ask(question(tql, table, names, asked)), server.ask(question(server, table, names, asked))
            count += 1
            if wanted != got:
                wrong.append(f"{type(server).__name__}, {question(server, table, names, asked)}: {got!r}, not {wanted!r}")
    return count, wrong


def repeated(tql: Tql, server: Server, tables: list) -> "tuple[int, list]":
    """Adds the first row of each table again: refused by both or by none."""
    wrong = []
    for table in (it for it in tables if it.current()):
        columns = [it for it in table.columns if not it.generated]
        row = [table.current()[0][table.place(it.name)] for it in columns]
        values = ", ".join(f"{it.kind} '{v}'" if it.kind in ("DATE", "TIMESTAMP") and v is not None else
                           export.Writer([], "").value(v, it.kind) for it, v in zip(columns, row))
        ours = "INSERT INTO \"{}\" ({}) VALUES ({})".format(table.name, ", ".join(f'"{it.name}"' for it in columns), values)
        names = ", ".join(quoted(it.name) for it in columns)
        generated = [it for it in table.columns if it.generated] if isinstance(server, PostgreSQL) else []
        theirs = (f"INSERT INTO {quoted(table.name)} ({', '.join([names, *(quoted(it.name) for it in generated)])}) "
                  f"VALUES ({', '.join([values, *(['now()'] * len(generated))])})")
        is_taken, told = server.query(theirs, f"d{server.databases}")
        if is_taken != (tql.ask(ours) != ["E35"]):
            wrong.append(f"{type(server).__name__}: {theirs}: accepted is {is_taken}: {told}")
    return len(tables), wrong


def main(words: list) -> int:
    scripts = [Path(it) for it in words] or sorted([*(CASES / "recipes").glob("*.sql"), *(CASES / "examples").glob("*.sql")])
    program, asked, added, wrong, kept = quick.program(), 0, 0, [], None
    signal.signal(signal.SIGTERM, lambda number, _: sys.exit(128 + number))    # so that the servers are ended
    with tempfile.TemporaryDirectory(prefix="tql-exports-") as folder:
        os.chmod(folder, 0o755)
        servers = [MariaDB(Path(folder), "mysql"), PostgreSQL(Path(folder), "postgres")]
        try:
            for server in servers:
                server.start()
            for script in scripts:
                text = script.read_text(encoding="utf-8")
                tables, horizon = export.tables_of(program, text)
                for server, writer in zip(servers, (export.MariaDB, export.PostgreSQL)):
                    kept = writer(tables, horizon).text(writer.__name__)
                    is_loaded, told = server.load(kept)
                    if not is_loaded:
                        wrong.append(f"{script.name} is not loaded: {told}")
                        continue
                    for counted, found in (compare(Tql(program, text), server, tables, horizon, kept.partition("\n\n")[0]),
                                           repeated(Tql(program, text), server, tables)):
                        asked, wrong = asked + counted, wrong + [f"{script.name}: {it}" for it in found]
                    added += 1
        finally:
            for server in servers:
                server.end()
    print("".join(f"{it}\n" for it in wrong) + f"{len(scripts)} scripts, {added} exports loaded, {asked} questions, {len(wrong)} wrong")
    return 1 if wrong else 0


if __name__ == "__main__":
    sys.exit(main(sys.argv[1:]))
