#!/usr/bin/env python3
"""Prints the numbers that documents name and that can be counted here, and fails where a document has another one.

Usage: tools/counts.py [--write]        (a part of make lint)

CLAIMS has the sentences, each with what its numbers count. A number is exact, or rounded at its zeros where its count begins with '~'. A sentence that
is not there is wrong too, so that none is changed unseen. With --write the numbers are written anew. The status is 1 where one is wrong.
"""
import re
import sys
from pathlib import Path

sys.dont_write_bytecode = True
from documents import COUNTED  # noqa: E402
from quick import TOP, crates_of  # noqa: E402

CASES = TOP / "crates" / "test_cases" / "data" / "cases"
# The first of the scripts 'copies' go over the whole grammar; in the others few key values have many rows, or rows are found by ranges.
WHOLE_GRAMMAR = 280
# Document, sentence (each # is a number), and what they count.
CLAIMS = (
    ("crates/tql/README.md", "the # crates that it depends on", ("crates below tql",)),
    ("crates/tql/README.md", "proves these # crates", ("crates of a host",)),
    ("docs/DEFINITIONS.md", "some # lines of `tql_spec` (# without imports", ("~lines of run_bytes", "~statements of run_bytes")),
    ("docs/DEFINITIONS.md", "some # lines (# without imports", ("~lines of run_in", "~statements of run_in")),
    ("docs/DEFINITIONS.md", "and these # lines, in this order", ("lines of points",)),
    ("docs/PROMISES.md", "Some # cases refuse each allocation", ("~cases that refuse allocations",)),
    ("docs/PROMISES.md", "# scripts are made at random over the whole grammar, # of them with PRUNE HISTORY and # with readers. In # more",
     ("copies over the grammar", "copies with PRUNE HISTORY", "copies with readers", "copies with few key values")),
    ("docs/PROMISES.md", "on # scripts made at random", ("readers",)),
    ("docs/PROMISES.md", "on # scripts made by a counter. They have portions, keys, references and CHECKs, # of them PRUNE HISTORY",
     ("points", "points with PRUNE HISTORY")),
)


def scripts(folder: str) -> list[str]:
    """The scripts of a folder of cases, or of all with '**', in the order of their names."""
    return [it.read_text(encoding="utf-8", errors="replace") for it in sorted(CASES.glob(f"{folder}/*.sql"))]


def refuses(script: str) -> bool:
    """Whether a case refuses each of its allocations."""
    words = script.partition("\n")[0]
    return words.startswith("-- cases:") and not {"in-turn", "growths"}.isdisjoint(words.split())


def modules(text: str) -> "list[list[Path]]":
    """The files that each table of docs/DEFINITIONS.md lists."""
    tables = [COUNTED.findall(it) for it in text.split("\n\n")]
    return [[TOP / "crates" / (name if "/" in name else f"tql_spec/specs/{name}.antt") for name, _ in it] for it in tables if it]


def lines(files: "list[Path]", is_whole: bool) -> int:
    """The lines of these files, all or without imports, comments and blank lines."""
    found = [line for it in files for line in it.read_text(encoding="utf-8").splitlines()]
    return sum(is_whole or not re.match(r"\s*(use |pub use |--|$)", line) for line in found)


def counts() -> "dict[str, int]":
    """What is counted, by its name."""
    of_bytes, of_run, of_points = modules((TOP / "docs" / "DEFINITIONS.md").read_text(encoding="utf-8"))
    of_bytes = [it for it in of_bytes if it.parts[-3] == "tql_spec"]
    copies, points = scripts("copies"), scripts("points")
    whole = copies[:WHOLE_GRAMMAR]
    return {
        "crates below tql": len(crates_of("tql")) - 1,
        "crates of a host": len(crates_of("tql")),
        "lines of run_bytes": lines(of_bytes, True),
        "statements of run_bytes": lines(of_bytes, False),
        "lines of run_in": lines(of_run, True),
        "statements of run_in": lines(of_run, False),
        "lines of points": lines(of_points, True),
        "cases": len(scripts("**")),
        "cases that refuse allocations": sum(map(refuses, scripts("**"))),
        "copies over the grammar": len(whole),
        "copies with PRUNE HISTORY": sum("PRUNE HISTORY" in it for it in whole),
        "copies with readers": sum("OPEN READER" in it for it in whole),
        "copies with few key values": len(copies) - len(whole),
        "readers": len(scripts("readers")),
        "points": len(points),
        "points with PRUNE HISTORY": sum("PRUNE HISTORY" in it for it in points),
    }


def is_right(written: int, count: int, is_rounded: bool) -> bool:
    """Whether a number is the count, or the count rounded at the zeros at its end."""
    unit = 10 ** (len(str(written)) - len(str(written).rstrip("0"))) if is_rounded and written else 1
    return 2 * abs(written - count) <= unit if is_rounded else written == count


def numbered(text: str, sentence: str, of: "tuple[str, ...]", counted: "dict[str, int]", where: str) -> "tuple[str, list[str]]":
    """The text with the true numbers in a sentence, and what was wrong there."""
    found = re.search(re.escape(sentence).replace(r"\ ", r"\s+").replace(r"\#", "([0-9,]+)"), text)
    if not found:
        return text, [f"{where}: there is no sentence '{sentence}'"]
    wrong = []
    for at, name in reversed(list(enumerate(of, 1))):
        count, written = counted[name.lstrip("~")], int(found[at].replace(",", ""))
        if not is_right(written, count, name.startswith("~")):
            wrong.append(f"{where}: '{sentence}' has {written:,}, and there are {count:,} {name.lstrip('~')}")
            true = round(count, 2 - len(str(count))) if name.startswith("~") else count
            text = f"{text[:found.start(at)]}{true:,}{text[found.end(at):]}"
    return text, wrong


def main(words: list[str]) -> int:
    if words not in ([], ["--write"]):
        sys.exit(__doc__)
    counted, wrong = counts(), []
    for name, count in counted.items():
        print(f"{count:6,} {name}")
    for document, sentence, of in CLAIMS:
        text, found = numbered((TOP / document).read_text(encoding="utf-8"), sentence, of, counted, document)
        wrong += found
        if words and found:
            (TOP / document).write_text(text, encoding="utf-8")
    print("".join(f"{it}\n" for it in wrong) + f"{len(CLAIMS)} sentences with numbers, {len(wrong)} wrong")
    return 1 if wrong else 0


if __name__ == "__main__":
    sys.exit(main(sys.argv[1:]))
