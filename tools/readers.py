#!/usr/bin/env python3
"""Writes scripts that ask readers the same questions under three writers, each with what a machine prints for it.

Usage: tools/readers.py          writes the scripts and texts of crates/test_cases/data/cases/readers
       tools/readers.py --look   says whether they are what it writes; the status is 1 where they are not

A script begins at random with tables and rows, opens a reader, begins a transaction, changes rows in it, and opens a second one. From there on
three writers go on, each in a script of its own: they change rows, commit, roll back, prune, and between their statements ask the readers the
same questions in the same order, each table whole without a clause, AS OF, FROM .. TO and BETWEEN, and some at random. A question that no
horizon refuses must have one reply in all three; the machine (tools/copying) is held to that here, and the engine to the machine's text.
"""
import copy
import sys
from pathlib import Path

sys.dont_write_bytecode = True

from copying.counter import BEGIN
from copying.machine import At, Machine, Open, Read, Turn
from copying.makers import Maker
from copying.queries import Span, everything
from copying.values import E45, MOMENT

FOLDER = Path(__file__).resolve().parent.parent / "crates" / "test_cases" / "data" / "cases" / "readers"
HEAD = "-- Made at random (tools/readers.py). The text comes from a machine that copies its tables at every commit.\n"
# How many openings, with how many writers each; how many statements stand before the first reader, how many between the readers, and how many at
# most between two questions; and how many questions at random each reader is asked.
OPENINGS, WRITERS, BEFORE, BETWEEN, STEPS, RANDOM = 12, 3, 22, 4, 3, 4


class Script:
    """A text of statements, and what the machine prints for it."""

    def __init__(self) -> None:
        self.machine, self.sql, self.text = Machine(), HEAD, ""

    def add(self, statement) -> str:
        reply = self.machine.answer(statement)
        self.sql, self.text = self.sql + statement.text + ";\n", self.text + reply
        return reply


def opening(seed: int) -> tuple:
    """A script up to its second reader, and the questions to both."""
    script = Script()
    maker, machine = Maker(seed, script.machine), script.machine
    script.add(At(maker.clock(BEGIN)))
    while sum(it.system is not None for it in machine.tables.values()) < 2:
        script.add(maker.definitions.definition())
    for _ in range(BEFORE):
        script.add(maker.picked())
    if machine.is_open:
        script.add(Turn("COMMIT"))
    script.add(Open("R", "r"))
    script.add(Turn("START TRANSACTION"))
    for _ in range(BETWEEN):
        script.add(maker.change() if maker.one_in(2) else maker.insert())
    script.add(Open("S", "s"))
    return script, [it for name in ("R", "S") for it in questions(maker, name)]


def questions(maker: Maker, name: str) -> list:
    """What a reader is asked: each versioned table whole, in four ways, and some questions at random."""
    moments = [moment for moment, _ in maker.machine.readers[name]] or [BEGIN]
    asked = []
    for table in (it.name for it in maker.machine.tables.values() if it.system):
        first, last = maker.written(MOMENT, maker.any_of(moments)), maker.written(MOMENT, moments[-1] + 1)
        spans = (None, Span("as of", [maker.written(MOMENT, maker.any_of(moments))]), Span("from", [first, last]), Span("between", [first, last]))
        asked += [everything(table, it) if it else everything(table) for it in spans]
    asked += [maker.asked(name, name).query for _ in range(RANDOM)]
    return [Read(name, name.lower(), it) for it in asked]


def written(begun: Script, asked: list, seed: int) -> tuple:
    """The script that a writer goes on with, and the replies to the questions."""
    script, replies = copy.deepcopy(begun), []
    maker = Maker(seed, script.machine, prunes=True)
    for read in asked:
        for _ in range(maker.below(STEPS + 1)):
            script.add(maker.picked())
        replies.append(script.add(read))
    return script, replies


def differing(replies: list) -> list:
    """The questions whose replies differ, but for those that a horizon refused."""
    sets = [{it for it in each if E45 not in it} for each in zip(*replies)]
    return [at for at, it in enumerate(sets) if len(it) > 1]


def scripts() -> dict:
    """All files by their names."""
    files = {}
    for seed in range(1, OPENINGS + 1):
        begun, asked = opening(seed)
        made = [written(begun, asked, 1000 * seed + it) for it in range(1, WRITERS + 1)]
        bad = differing([replies for _, replies in made])
        if bad:
            raise SystemExit(f"readers: opening {seed}, questions {bad}: the replies differ")
        for at, (script, _) in enumerate(made, 1):
            files[f"{seed:02}-{at}.sql"], files[f"{seed:02}-{at}.out"] = script.sql, script.text
    return files


def main() -> int:
    made = scripts()
    if "--look" in sys.argv[1:]:
        there = {it.name: it.read_text(encoding="utf-8") for it in FOLDER.iterdir()} if FOLDER.is_dir() else {}
        bad = sorted(it for it in {*made, *there} if made.get(it) != there.get(it))
        print(f"{len(made)} files, {len(bad)} that differ", *bad[:10])
        return 1 if bad else 0
    FOLDER.mkdir(parents=True, exist_ok=True)
    for name, text in made.items():
        (FOLDER / name).write_text(text, encoding="utf-8")
    return 0


if __name__ == "__main__":
    sys.exit(main())
