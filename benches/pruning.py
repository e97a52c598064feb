#!/usr/bin/env python3
"""How much memory PRUNE HISTORY gives back, and how long it takes.

Usage: benches/pruning.py [VERSIONS [ROUNDS]]        (first: make build)

A table of 1,000 rows is updated again and again through a pipe, until so many versions are closed; that is a round. Behind each round the
memory of ./tql is read, with PRUNE HISTORY before the next round and without it. The memory is the operating system's (VmRSS).
"""
import os
import subprocess
import sys
import time
from pathlib import Path

TQL = str(Path(__file__).resolve().parent.parent / "tql")
TABLE = ("CREATE TABLE log (x INTEGER, name VARCHAR(20), s TIMESTAMP GENERATED ALWAYS AS ROW START, e TIMESTAMP GENERATED ALWAYS AS ROW END, "
         "PERIOD FOR SYSTEM_TIME (s, e), PRIMARY KEY (x)) WITH SYSTEM VERSIONING;\n")
ROWS = 1000


class Talk:
    """A program that is told statements one by one."""

    def __init__(self) -> None:
        self.program = subprocess.Popen([TQL], stdin=subprocess.PIPE, stdout=subprocess.PIPE, bufsize=0)

    def say(self, statement: str) -> None:
        """Tells a statement that is answered in one line, and waits for the answer."""
        os.write(self.program.stdin.fileno(), statement.encode())
        answer = b""
        while not answer.endswith(b"\n"):
            answer += os.read(self.program.stdout.fileno(), 1 << 16)
        if answer.startswith(b"REFUSED"):
            sys.exit(f"{statement}: {answer.decode()}")

    def memory(self) -> float:
        """Its memory, in MiB."""
        status = Path(f"/proc/{self.program.pid}/status").read_text(encoding="ascii")
        return int(next(line for line in status.split("\n") if line.startswith("VmRSS")).split()[1]) / 1024

    def end(self) -> None:
        self.program.stdin.close()
        self.program.wait()


def measured(versions: int, rounds: int, is_pruned: bool) -> None:
    talk = Talk()
    talk.say(TABLE)
    for start in range(0, ROWS, 100):
        talk.say("INSERT INTO log VALUES " + ", ".join(f"({it}, 'name {it}')" for it in range(start, start + 100)) + ";\n")
    told, longest = [f"{talk.memory():.1f}"], 0.0
    for number in range(1, rounds + 1):
        talk.say(f"AT TIMESTAMP '{2011 + number}-01-01 00:00:00';\n")
        for _ in range(versions // ROWS):
            talk.say("UPDATE log SET x = x;\n")
        if is_pruned:
            begun = time.monotonic()
            talk.say(f"PRUNE HISTORY BEFORE TIMESTAMP '{2011 + number}-06-01 00:00:00';\n")
            longest = max(longest, time.monotonic() - begun)
        told.append(f"{talk.memory():.1f}")
    talk.end()
    print(f"{versions} versions a round, {'PRUNE HISTORY behind each' if is_pruned else 'nothing let go'}: MiB at first and behind each round "
          + ", ".join(told) + (f"; PRUNE HISTORY took at most {longest * 1e3:.0f} ms" if is_pruned else ""))


def main() -> None:
    versions = int(sys.argv[1]) if len(sys.argv) > 1 else 100_000
    rounds = int(sys.argv[2]) if len(sys.argv) > 2 else 3
    for is_pruned in (False, True):
        measured(versions, rounds, is_pruned)


if __name__ == "__main__":
    main()
