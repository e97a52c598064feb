#!/usr/bin/env python3
"""Tries the program on scripts that nobody has written, for a while, with the grammar as guide. Outside the gate.

Usage: tools/fuzz.py SECONDS [FIRST]        (make try-fuzz SECONDS=60)

Of three scripts in turn, each by a counter that begins at FIRST (by default the seconds since 1970):
- one of tools/copies.py, over the whole grammar: the program has to print what the machine of that tool prints, which copies all of its tables;
- one of tools/points.py: what the forty plain machines print, one a day;
- a case of crates/test_cases/data/cases with a few bytes changed, words swapped or statements repeated, cut at a byte, or with a long run of one
  token before a byte that begins none: the program ends with status 0 or 1, and prints the same whether its script comes whole or in small pieces
  through a pipe.
What differs is kept in a folder, which is named. The program is TQL=path, or ./tql where it is newer than every source, or else ./tql-quick,
which is compiled first where it has to be (make quick). The status is 1 where something differed.
"""
import os
import random
import subprocess
import sys
import tempfile
import time
from concurrent.futures import ThreadPoolExecutor
from pathlib import Path

sys.dont_write_bytecode = True

import copies
import points
from quick import program

TOP = Path(__file__).resolve().parent.parent
CASES = TOP / "crates" / "test_cases" / "data" / "cases"
PATIENCE = 60
WORDS = ["NULL", "(", ")", ",", ";", "'", '"', "--", "-9223372036854775808", "9999-12-31", "FOR PORTION OF", "FOR SYSTEM_TIME", "COMMIT;", "ROLLBACK;",
         "START TRANSACTION;", "WITHOUT OVERLAPS", "NOT", "OR", "\x00", "\x1b[31m", "\u00e4", "0"]

# Tokens of which long runs are made, how long they are, and what follows them.
RUN_TOKENS = ["(", "((", "NOT ", "NOT (", "- ", "-(", "+", "x,", "x + ", "x AND ", "SELECT ", "COUNT(", "PERIOD (", "IN (", ")", ".", "'a' ", '"a" ', "1 "]
RUN_LENGTHS = [63, 64, 65, 66, 300, 5000, 60000]
RUN_ENDS = ["#", ";", "\x00", "\u20ac;", "'", '"', "", " 1 #;", "x;"]


def run(words: list[str], script: bytes) -> tuple[bytes, int]:
    """What the program prints of a script on its standard input, and its status; -1000 where it did not end in a minute."""
    try:
        ran = subprocess.run(words, input=script, stdout=subprocess.PIPE, stderr=subprocess.DEVNULL, timeout=PATIENCE, check=False)
    except subprocess.TimeoutExpired:
        return b"", -1000
    return ran.stdout, ran.returncode


def fed(words: list[str], script: bytes, size: int) -> bytes:
    """What it prints of a script that comes in pieces through a pipe."""
    with tempfile.TemporaryFile() as out:
        started = subprocess.Popen(words, stdin=subprocess.PIPE, stdout=out, stderr=subprocess.DEVNULL)
        for at in range(0, len(script), size):
            started.stdin.write(script[at:at + size])
            started.stdin.flush()
        started.stdin.close()
        started.wait(PATIENCE)
        out.seek(0)
        return out.read()


def changed(seed: int, scripts: list[Path]) -> bytes:
    """A case with a few changes."""
    chance = random.Random(seed)
    text = bytearray(chance.choice(scripts).read_bytes())
    for _ in range(chance.randint(1, 6)):
        at = chance.randrange(len(text) + 1)
        to = min(len(text), at + chance.randint(0, 12))
        how = chance.randrange(6)
        if how == 0:
            del text[at:to]
        elif how == 1:
            text[at:at] = chance.choice(WORDS).encode()
        elif how == 2:
            text[at:to] = bytes(chance.randrange(256) for _ in range(chance.randint(1, 4)))
        elif how == 3:
            parts = bytes(text).split(b";")
            text += b";" + chance.choice(parts) + b";"
        elif how == 4:
            run_ = chance.choice(RUN_TOKENS) * chance.choice(RUN_LENGTHS) + chance.choice(RUN_ENDS)
            text[at:at] = run_.encode()
        else:
            del text[chance.randrange(len(text) // 2, len(text) + 1):]
    return bytes(text)


def difference(words: list[str], scripts: list[Path], seed: int) -> str:
    """What is wrong with the program at the script of this number; nothing where all is well."""
    if seed % 3 < 2:
        sql, text = (copies.script if seed % 3 == 0 else points.script)(seed)
        got, status = run(words, sql.encode())
        if status not in (0, 1):
            return f"status {status}"
        return "" if got == text.encode() else "other text"
    script = changed(seed, scripts)
    got, status = run(words, script)
    if status not in (0, 1):
        return f"status {status}"
    if fed(words, script, 1 + seed % 64) != got:
        return "other text through a pipe"
    return ""


def kept(folder: Path, scripts: list[Path], seed: int) -> None:
    """Keeps the script of this number, and what was wanted of it."""
    if seed % 3 < 2:
        sql, text = (copies.script if seed % 3 == 0 else points.script)(seed)
        (folder / f"{seed}.out").write_text(text, encoding="utf-8")
        (folder / f"{seed}.sql").write_text(sql, encoding="utf-8")
    else:
        (folder / f"{seed}.sql").write_bytes(changed(seed, scripts))


def main() -> int:
    if not sys.argv[1:] or not all(it.isdigit() for it in sys.argv[1:]):
        sys.exit(__doc__)
    seconds, first = int(sys.argv[1]), int(sys.argv[2]) if sys.argv[2:] else int(time.time())
    scripts = sorted(it for it in CASES.glob("*/*.sql") if it.parent.name not in ("sizes", "copies", "points") and it.stat().st_size < 20000)
    wrong, tried, folder = 0, 0, None
    with tempfile.TemporaryDirectory(prefix="tql-fuzz-") as room, ThreadPoolExecutor(os.cpu_count()) as pool:
        words, end = [program()], time.time() + seconds
        while time.time() < end:
            seeds = range(first + tried, first + tried + 24)
            for seed, what in zip(seeds, pool.map(lambda it: difference(words, scripts, it), seeds)):
                tried += 1
                if what:
                    wrong, folder = wrong + 1, folder or Path(tempfile.mkdtemp(prefix="tql-found-"))
                    kept(folder, scripts, seed)
                    print(f"script {seed}: {what}", flush=True)
    print(f"{tried} scripts from {first} on, {wrong} wrong" + (f", kept in {folder}" if folder else ""))
    return 1 if wrong else 0


if __name__ == "__main__":
    sys.exit(main())
