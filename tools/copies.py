#!/usr/bin/env python3
"""Writes scripts at random, each with what a machine prints for it that copies all of its tables at every commit.

Usage: tools/copies.py                         writes the scripts and texts of crates/test_cases/data/cases/copies
       tools/copies.py --look                  says whether they are what it writes; the status is 1 where they are not
       tools/copies.py --try [COUNT [FIRST]]   runs COUNT (by default 100) further scripts of few key values, or of ranges, by the counters from
                                               FIRST (by default 1,000) on, and compares what the program prints with what the machine does

The machine (tools/copying) shares nothing with the engine: it is told what a statement says, reads no SQL, and writes each reply itself, as
docs/LANGUAGE.md has it. A portion is done point by point, day by day or microsecond by microsecond, with no thought of the ends of periods,
and so are keys and references: every one of every table is tested after every change, at each point.

Most scripts go over the whole grammar. The last ones have few key values with many rows each, now and in the past (tools/copying/crowds.py). Every
third script of --try has a table that is read by ranges and by several values, and in groups (tools/copying/spreads.py). --try keeps a script that
differs in a folder, which it names, with both texts; the status is 1 then. The program is TQL=path, or ./tql where it is newer than every source, or
else ./tql-quick, which is compiled first where it has to be (make quick).
"""
import os
import subprocess
import sys
import tempfile
from concurrent.futures import ProcessPoolExecutor
from functools import partial
from pathlib import Path

sys.dont_write_bytecode = True

from copying.counter import BEGIN
from copying.crowds import Crowd
from copying.machine import At, Machine, Turn
from copying.makers import Maker
from copying.queries import Span, everything
from copying.spreads import Spread
from copying.values import MOMENT
from quick import program

FOLDER = Path(__file__).resolve().parent.parent / "crates" / "test_cases" / "data" / "cases" / "copies"
HEAD = "-- Made at random (tools/copies.py). The text comes from a machine that copies its tables at every commit.\n"
# How many scripts go over the whole grammar; how many of them, the first ones, are without PRUNE HISTORY, and how many without readers; how many
# statements each has besides its beginning and its end; and of how many of each sort each growth is refused in turn.
SCRIPTS, PLAIN, UNREAD, LENGTH, IN_TURN = 280, 200, 240, 40, 10
# How many scripts more have few key values; how many statements at most change hot rows at first; how many other statements each has; and how many
# a script of ranges.
CROWDS, VERSIONS, CROWD_LENGTH, SPREAD_LENGTH = 16, 32, 50, 60
# How long a script may take, in seconds, and by which counter those begin that are tried.
PATIENCE, FIRST = 60, 1000


class Script:
    """A text of statements, and what the machine prints for it."""

    def __init__(self, head: str = HEAD) -> None:
        self.machine, self.sql, self.text = Machine(), head, ""

    def add(self, statement) -> None:
        self.sql, self.text = self.sql + statement.text + ";\n", self.text + self.machine.answer(statement)

    def ended(self, maker: Maker) -> tuple[str, str]:
        """The script and its text, with all that its tables hold and held at the end."""
        machine = self.machine
        for table in machine.tables.values():
            self.add(everything(table.name))
            if table.system:
                self.add(everything(table.name, Span("between", [maker.written(MOMENT, max(BEGIN, machine.horizon)), maker.written(MOMENT, machine.next)])))
        return self.sql, self.text


def script(seed: int) -> tuple[str, str]:
    """A script over the whole grammar that begins with three definitions and some rows, and what the machine prints."""
    prunes, reads = seed > PLAIN, seed > UNREAD
    is_in_turn = seed - (UNREAD if reads else PLAIN if prunes else 0) <= IN_TURN
    made = Script("-- cases: in-turn\n" * is_in_turn + HEAD)
    machine = made.machine
    maker = Maker(seed, machine, prunes, reads)
    made.add(At(maker.clock(BEGIN)))
    while len(machine.tables) < 3:
        made.add(maker.definitions.definition())
    for _ in range(LENGTH):
        if machine.is_open and not machine.tables:
            made.add(Turn("ROLLBACK"))
        while not machine.tables:
            made.add(maker.definitions.definition())
        made.add(maker.picked())
    return made.ended(maker)


def crowd(seed: int) -> tuple[str, str]:
    """A script over few key values with many rows each, and what the machine prints. Two of four have PRUNE HISTORY, and one of these has readers;
    of one of five that are kept each growth is refused in turn, and one of three that are not kept has a deeper history."""
    made = Script("-- cases: in-turn\n" * (seed % 5 == 1 and seed < FIRST) + HEAD)
    maker = Crowd(seed, made.machine, seed % 4 > 1, seed % 4 == 3)
    made.add(At(maker.clock(BEGIN)))
    for name in ("RATE", "USE", "LOG"):
        made.add(maker.definition(name))
    for statement in maker.filled():
        made.add(statement)
    for _ in range(3 + maker.below(6)):
        made.add(maker.insert(made.machine.tables["USE"]))
    for _ in range((8 + maker.below(VERSIONS - 8)) * (5 if seed >= FIRST and seed % 3 == 0 else 1)):
        made.add(maker.at() if maker.one_in(8) else maker.turn() if maker.one_in(6) else maker.hot())
    for _ in range(CROWD_LENGTH):
        made.add(maker.picked())
    for statement in maker.last_questions() if "RATE" in made.machine.tables else []:
        made.add(statement)
    return made.ended(maker)


def spread(seed: int) -> tuple[str, str]:
    """A script over a table that is read by ranges and in groups, and what the machine prints. One of four has PRUNE HISTORY, and one has readers."""
    made = Script()
    maker = Spread(seed, made.machine, seed % 4 == 2, seed % 4 == 3)
    made.add(At(maker.clock(BEGIN)))
    for name in ("PART", "LIST"):
        made.add(maker.definition(name))
    for statement in maker.filled():
        made.add(statement)
    for _ in range(SPREAD_LENGTH):
        made.add(maker.picked())
    return made.ended(maker)


def run(words: list[str], counter: int) -> tuple[int, str, str, str]:
    """A counter, its script, what the machine prints, and what the program does."""
    sql, text = (spread if counter % 3 == 2 else crowd)(counter)
    try:
        ran = subprocess.run(words, input=sql.encode(), stdout=subprocess.PIPE, stderr=subprocess.DEVNULL, timeout=PATIENCE, check=False)
    except subprocess.TimeoutExpired:
        return counter, sql, text, f"no end after {PATIENCE} seconds\n"
    return counter, sql, text, ran.stdout.decode(errors="replace") + (f"status {ran.returncode}\n" if ran.returncode not in (0, 1) else "")


def try_further(count: int, first: int) -> int:
    """Runs further scripts; the status is 1 where one differs."""
    room: Path | None = None
    with ProcessPoolExecutor(os.cpu_count()) as pool:
        for counter, sql, text, said in pool.map(partial(run, [program()]), range(first, first + count)):
            if said != text:
                room = room or Path(tempfile.mkdtemp(prefix="copies."))
                for ending, it in (("sql", sql), ("machine.out", text), ("program.out", said)):
                    (room / f"{counter}.{ending}").write_text(it, encoding="utf-8")
                print(f"script {counter} differs: {room}")
    print(f"{count} scripts from {first}: {'some differ' if room else 'each answers as the machine does'}")
    return 1 if room else 0


def main() -> int:
    word, *numbers = sys.argv[1:] or [""]
    if word not in ("", "--look", "--try") or len(numbers) > (2 if word == "--try" else 0) or not all(it.isdigit() for it in numbers):
        sys.exit(__doc__)
    if word == "--try":
        count, first = [*map(int, numbers), *(100, FIRST)[len(numbers):]]
        return try_further(count, first)
    made = {}
    for seed in range(1, SCRIPTS + CROWDS + 1):
        made[f"{seed:03}.sql"], made[f"{seed:03}.out"] = script(seed) if seed <= SCRIPTS else crowd(seed)
    if word == "--look":
        there = {it.name: it.read_text(encoding="utf-8") for it in FOLDER.iterdir()} if FOLDER.is_dir() else {}
        bad = sorted(it for it in {*made, *there} if made.get(it) != there.get(it))
        print(f"{SCRIPTS + CROWDS} scripts, {len(bad)} files that differ", *bad[:10])
        return 1 if bad else 0
    FOLDER.mkdir(parents=True, exist_ok=True)
    for name, text in made.items():
        (FOLDER / name).write_text(text, encoding="utf-8")
    return 0


if __name__ == "__main__":
    sys.exit(main())
