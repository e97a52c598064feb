#!/usr/bin/env python3
"""Writes scripts by a counter, each with what plain machines print for it, one for each of forty days, that know no period.

Usage: tools/points.py          writes the scripts and texts of crates/test_cases/data/cases/points
       tools/points.py --look   says whether they are what it writes; the status is 1 where they are not

A question asks what holds on one day, or on each of the forty, now or as of a moment, and the machines of these days answer it. A change is given
to each machine as its day sees it: of an INSERT the tuples whose period holds the day, an UPDATE or a DELETE whole on the days of its portion
and not at all on the others. Each machine has the CHECKs, plain keys in the place of those without overlaps, and plain references. Where one
refuses a change, it is refused, with the first of their refusals, and no machine takes it. Only the counts, of which a day can say nothing,
come from a list of rows, each with the set of its days. PRUNE HISTORY is given to all. It reads no SQL, and shares nothing with the engine.
In the last scripts one key value or a few have a row on most days (tools/days/crowds.py).
"""
import sys
from pathlib import Path

sys.dont_write_bytecode = True

from days.crowds import Crowd
from days.machines import Database
from days.makers import HEAD, Maker, calendar

FOLDER = Path(__file__).resolve().parent.parent / "crates" / "test_cases" / "data" / "cases" / "points"
# How many scripts, how many of them without PRUNE HISTORY, the first ones; and how many statements each has before its last questions.
SCRIPTS, PLAIN, LENGTH = 240, 200, 34
# How many scripts more have few key values, and how many statements each of these has before its last questions.
CROWDS, CROWD_LENGTH = 10, 60


def script(which: int) -> tuple:
    """A script and its text."""
    database, is_crowd = Database(), which > SCRIPTS
    maker = Crowd(which, database, which % 2 == 1) if is_crowd else Maker(which, database, which > PLAIN)
    lines, text = [], ""

    def add(line: str, statement: tuple) -> None:
        nonlocal text
        lines.append(line)
        text += database.answer(statement)

    for it in [maker.beginning(), *maker.definitions()]:
        add(*it)
    for it in maker.first_rows() if is_crowd else []:
        add(*it)
    while len(lines) < (CROWD_LENGTH if is_crowd else LENGTH):
        add(*maker.picked())
    for it in [calendar(maker.points), *maker.last_questions()]:
        add(*it)
    return HEAD + "".join(f"{line};\n" for line in lines), text


def main() -> int:
    files = {}
    for which in range(1, SCRIPTS + CROWDS + 1):
        source, text = script(which)
        files[f"{which:03}.sql"], files[f"{which:03}.out"] = source, text
    if sys.argv[1:] == ["--look"]:
        there = {path.name: path.read_text(encoding="utf-8") for path in FOLDER.glob("*")}
        differ = sorted(name for name in {*there, *files} if there.get(name) != files.get(name))
        print(f"points: {len(files)} files, {len(differ)} differ" + "".join(f"\n{name}" for name in differ))
        return 1 if differ else 0
    FOLDER.mkdir(parents=True, exist_ok=True)
    for path in FOLDER.glob("*"):
        path.unlink()
    for name, text in files.items():
        (FOLDER / name).write_text(text, encoding="utf-8")
    print(f"points: {len(files)} files written")
    return 0


if __name__ == "__main__":
    sys.exit(main())
