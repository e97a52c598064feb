#!/usr/bin/env python3
"""What a journal costs: instructions of a one-row INSERT, opening and testing a long journal, and syncs next to sqlite3.

Usage: benches/journal.py PROGRAM [COUNT]      COUNT statements, by default 1,000,000
       (first: make build or make quick, which leave a PROGRAM; needs valgrind, sqlite3 and sha256sum)

- Instructions: the difference of 3,000 and 1,000 INSERTs of a row under a key, divided by 2,000, under valgrind's callgrind, which counts nothing of the
  system. Syncs are the system's, so the journal counts as unsynced.
- A journal of COUNT one-row INSERTs: the processor seconds of the run without a journal and with it, of opening it, of --verify and of sha256sum, the
  lowest of three turns; and the bytes of a statement.
- One statement through a pipe and its reply, 1,000 times: the time of each in tql without a journal, with one, and in sqlite3 over a file in WAL mode
  with synchronous=FULL, which is asked for each reply by a SELECT. The programs take turns; the times are medians of five turns.
"""
import os
import re
import resource
import statistics
import subprocess
import sys
import tempfile
import time
from pathlib import Path

COLLECTED = re.compile(r"Collected : (\d+)")
TABLE = "CREATE TABLE t (a INT NOT NULL, b VARCHAR(40), c INT, PRIMARY KEY (a));\n"
TURNS, ROUND_TRIPS = 5, 1000


def insert(number: int) -> str:
    return f"INSERT INTO t VALUES ({number}, 'name of the row {number % 1000}', {number * 7 % 1000});\n"


def script(room: Path, count: int) -> Path:
    """Writes a script of so many INSERTs."""
    file = room / f"{count}.sql"
    with file.open("w", encoding="utf-8") as to:
        to.write(TABLE)
        to.writelines(insert(it) for it in range(count))
    return file


def instructions(words: list[str]) -> int:
    """Returns the instructions of a run."""
    ran = subprocess.run(["valgrind", "--tool=callgrind", "--callgrind-out-file=/dev/null", *words], stdout=subprocess.DEVNULL, stderr=subprocess.PIPE,
                         text=True, check=True)
    return int(COLLECTED.search(ran.stderr)[1])


def seconds(words: list[str]) -> float:
    """Returns the processor seconds of a run, in the program and in the system."""
    before = resource.getrusage(resource.RUSAGE_CHILDREN)
    subprocess.run(words, stdout=subprocess.DEVNULL, stderr=subprocess.DEVNULL, check=True)
    after = resource.getrusage(resource.RUSAGE_CHILDREN)
    return after.ru_utime + after.ru_stime - before.ru_utime - before.ru_stime


def counted(program: str, room: Path) -> None:
    """Prints the instructions of an INSERT, without and with a journal."""
    few, many, journal, costs = script(room, 1000), script(room, 3000), room / "counted.jn", []
    for more in ([], ["--journal", str(journal)]):
        runs = []
        for file in (few, many):
            journal.unlink(missing_ok=True)
            runs.append(instructions([program, "-q", *more, str(file)]))
        costs.append((runs[1] - runs[0]) // 2000)
    print(f"| a one-row INSERT, instructions | without {costs[0]:,} | with a journal {costs[1]:,} | {costs[1] / costs[0]:.2f} |", flush=True)


def long(program: str, room: Path, count: int) -> None:
    """Prints the seconds of runs over a long journal."""
    file, journal = script(room, count), room / "long.jn"
    best: dict[str, float] = {}
    for _ in range(3):
        journal.unlink(missing_ok=True)
        for what, words in (("run without a journal", ["-q", str(file)]), ("run with it", ["-q", "--journal", str(journal), str(file)]),
                            ("open", ["-q", "--journal", str(journal), "-c", ""]), ("--verify", ["--verify", str(journal)]), ("sha256sum", [])):
            took = seconds([program, *words] if words else ["sha256sum", str(journal)])
            best[what] = min(best.get(what, took), took)
    for what, took in best.items():
        print(f"| {what}, {count:,} INSERTs | {took:.2f} s |")
    print(f"| open / run | {best['open'] / best['run without a journal']:.2f} |\n| --verify / sha256sum | {best['--verify'] / best['sha256sum']:.2f} |")
    print(f"| bytes of a statement | {journal.stat().st_size / count:.0f}, of its text {file.stat().st_size / count:.0f} |", flush=True)


def asked(words: list[str], first: str, statement) -> float:
    """Returns the median time of a statement and its reply, in microseconds."""
    started = subprocess.Popen(words, stdin=subprocess.PIPE, stdout=subprocess.PIPE, stderr=subprocess.DEVNULL, bufsize=0)

    def answer(text: str) -> None:
        started.stdin.write(text.encode())
        while not os.read(started.stdout.fileno(), 65536).endswith(b"\n"):
            pass

    answer(first)
    times = []
    for it in range(ROUND_TRIPS):
        began = time.perf_counter()
        answer(statement(it))
        times.append((time.perf_counter() - began) * 1e6)
    started.stdin.close()
    started.wait()
    started.stdout.close()
    return statistics.median(times)


def synced(program: str, room: Path) -> None:
    """Prints the times of statements that are synced one by one, next to sqlite3."""
    times: dict[str, list[float]] = {}
    lite = "PRAGMA journal_mode=WAL; PRAGMA synchronous=FULL; " + TABLE.strip() + " SELECT 1;\n"
    for turn in range(TURNS):
        journal, file = room / f"pipe{turn}.jn", room / f"pipe{turn}.db"
        for what, words, first, statement in (
                ("without a journal", [program, "-q", "--format", "table"], TABLE, insert),
                ("with a journal", [program, "-q", "--format", "table", "--journal", str(journal)], TABLE, insert),
                ("sqlite3, WAL, FULL", ["sqlite3", str(file)], lite, lambda it: insert(it).strip() + " SELECT 1;\n")):
            times.setdefault(what, []).append(asked(words, first, statement))
    for what, all_turns in times.items():
        print(f"| an INSERT through a pipe and its reply, {what} | {statistics.median(all_turns):.0f} us |", flush=True)


def main() -> int:
    if not 2 <= len(sys.argv) <= 3:
        sys.exit(__doc__)
    program, count = str(Path(sys.argv[1]).resolve()), int(sys.argv[2]) if len(sys.argv) == 3 else 1_000_000
    with tempfile.TemporaryDirectory(prefix="journal-", dir=".") as folder:
        room = Path(folder).resolve()
        counted(program, room)
        synced(program, room)
        long(program, room, count)
    return 0


if __name__ == "__main__":
    sys.exit(main())
