#!/usr/bin/env python3
"""Runs the cases of crates/test_cases through the program, each as a whole, and compares what is printed.

Usage: tools/cases.py [FOLDER ..]        (a part of make check; without a FOLDER all)

NAME.out is compared with the standard output, NAME.err with the standard error, and NAME.check.out with what --check prints. Also
compared: the list crates/test_cases/stdout with the files. Left to the gate: pieces of scripts, refused allocations, lists in place of
trees, and NAME.marks. The program is TQL=path, ./tql or ./tql-quick, as in tools/quick.py. The status is 1 if something differs.
"""
import os
import re
import subprocess
import sys
from concurrent.futures import ThreadPoolExecutor
from pathlib import Path
from typing import Iterator

sys.dont_write_bytecode = True
import quick  # noqa: E402

CRATE = Path(__file__).resolve().parent.parent / "crates" / "test_cases"
CASES = CRATE / "data" / "cases"
GROUP = re.compile(rb"\{([0-9]+) ([^{}]*)\}")


def expanded(text: bytes) -> bytes:
    """Returns a text in the short form as a whole: {N text} is N copies of the text, and # in a copy is its number."""
    for _ in range(2):
        text = GROUP.sub(lambda it: b"".join(it[2].replace(b"#", b"%d" % number) for number in range(1, int(it[1]) + 1)), text)
    return text


def difference(kind: str, wanted: bytes, got: bytes) -> str:
    """Describes the first line in which an output differs."""
    lines = list(zip(wanted.split(b"\n") + [b""], got.split(b"\n") + [b""]))
    at, (said, printed) = next(((at, it) for at, it in enumerate(lines, 1) if it[0] != it[1]), (len(lines), (b"", b"")))
    return f"{kind}, line {at}: {printed[:100]!r}, not {said[:100]!r}"


def faults(program: str, script: Path) -> Iterator[str]:
    """Yields where the outputs of a case differ."""
    text = script.read_bytes()
    first = text.partition(b"\n")[0]
    is_short = first.startswith(b"-- cases:") and b"short" in first.split()
    text = expanded(text) if is_short else text
    for ending, words in ((".out", []), (".check.out", ["--check"])):
        file = script.with_suffix(ending)
        if not file.exists():
            continue
        ran = subprocess.run([program, *words], input=text, capture_output=True, check=False)
        wanted = expanded(file.read_bytes()) if is_short else file.read_bytes()
        if ran.returncode not in (0, 1) or ran.stdout != wanted:
            yield f"{difference(ending, wanted, ran.stdout)} (status {ran.returncode})"
        told = script.with_suffix(".err")
        if ending == ".out" and told.exists():
            lines = b"".join(it.removeprefix(b"tql: ") for it in ran.stderr.splitlines(True))
            wanted = expanded(told.read_bytes()) if is_short else told.read_bytes()
            if lines != wanted:
                yield difference(".err", wanted, lines)


def unlisted() -> Iterator[str]:
    """Yields the cases that are a file and no line of the list, or a line and no file."""
    there = {f"{it.parent.name}/{it.stem} ok" for it in CASES.rglob("*.sql")}
    listed = (CRATE / "stdout").read_text(encoding="utf-8").splitlines()
    yield from (f"{it.removesuffix(' ok')}: not listed in crates/test_cases/stdout" for it in sorted(there - set(listed)))
    yield from (f"{it}: crates/test_cases/stdout lists it, and there is no such case" for it in sorted(set(listed) - there))


def main(words: list) -> int:
    scripts = sorted(it for it in CASES.rglob("*.sql") if not words or it.parent.name in words)
    program = str(Path(quick.program()).resolve())
    with ThreadPoolExecutor(max(1, min(4, os.cpu_count() or 1))) as pool:
        found = list(pool.map(lambda it: [f"{it.parent.name}/{it.stem}: {fault}" for fault in faults(program, it)], scripts))
    wrong = [it for them in found for it in them] + list(unlisted())
    print("".join(f"{it}\n" for it in wrong) + f"{len(scripts)} cases as wholes, {len(wrong)} wrong (by {Path(program).name})")
    return 1 if wrong or not scripts else 0


if __name__ == "__main__":
    sys.exit(main(sys.argv[1:]))
