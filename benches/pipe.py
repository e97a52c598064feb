#!/usr/bin/env python3
"""How much memory a long script takes that comes through a pipe, and how long a reply through a pipe takes to come.

Usage: benches/pipe.py [INSERTS [ROUNDS]]        (first: make build; needs sqlite3)

One-row INSERTs are written to ./tql through a pipe, and the replies are dropped: once with a table, so that the rows are kept, and once
without, so that each is refused. The peaks of memory are the operating system's. Then a statement is written, its reply read, and only
then the next statement written, as many times as ROUNDS says: to ./tql, and to sqlite3 over a database in memory.
"""
import os
import subprocess
import sys
import time
from pathlib import Path

TQL = str(Path(__file__).resolve().parent.parent / "tql")
TABLE = b"CREATE TABLE log (x INTEGER, name VARCHAR(20));\n"


def peak(inserts: int, is_kept: bool) -> tuple[float, int]:
    """The seconds and the peak of memory, in KiB, of so many INSERTs."""
    begun = time.monotonic()
    started = subprocess.Popen([TQL, "--quiet"], stdin=subprocess.PIPE, stdout=subprocess.DEVNULL)
    if is_kept:
        started.stdin.write(TABLE)
    for first in range(0, inserts, 1000):
        started.stdin.write(b"".join(b"INSERT INTO log VALUES (%d, 'name %d');\n" % (it, it % 1000) for it in range(first, first + 1000)))
    started.stdin.close()
    _, _, used = os.wait4(started.pid, 0)
    return time.monotonic() - begun, used.ru_maxrss


def rounds(words: list[str], statement: bytes, reply: bytes, count: int) -> float:
    """The microseconds from a statement's `;` to the end of its reply, on the average."""
    started = subprocess.Popen(words, stdin=subprocess.PIPE, stdout=subprocess.PIPE, bufsize=0)
    started.stdin.write(TABLE)
    if words[0] == TQL:
        os.read(started.stdout.fileno(), 1 << 16)
    begun = time.monotonic()
    for _ in range(count):
        os.write(started.stdin.fileno(), statement)
        got = b""
        while not got.endswith(reply):
            got += os.read(started.stdout.fileno(), 1 << 16)
    ended = time.monotonic()
    started.stdin.close()
    started.wait()
    return (ended - begun) / count * 1e6


def main() -> None:
    inserts = int(sys.argv[1]) if len(sys.argv) > 1 else 1_000_000
    count = int(sys.argv[2]) if len(sys.argv) > 2 else 10_000
    for is_kept, name in ((True, "kept"), (False, "refused")):
        seconds, kib = peak(inserts, is_kept)
        print(f"tql, {inserts} INSERTs through a pipe, {name}: {seconds:.1f} s, at most {kib / 1024:.1f} MiB")
    question = b"SELECT COUNT(*) FROM log;\n"
    print(f"tql, {count} round trips: {rounds([TQL], question, b'(1 rows)' + bytes([10]), count):.1f} microseconds each")
    print(f"sqlite3, {count} round trips: {rounds(['sqlite3', ':memory:'], question, bytes([10]), count):.1f} microseconds each")


if __name__ == "__main__":
    main()
