#!/usr/bin/env python3
"""Tries all that needs no proof: documents and sources, cases, units, command lines, and the tools' tests.

Usage: tools/check.py [STAGE ..]        (make check; the stages: lint, cases, units, lines)

- lint: make lint.
- cases: each case of crates/test_cases as a whole, by the program (tools/cases.py).
- units: crates/test_units, compiled as make quick compiles the program, with every allocation refused once.
- lines: make lines, which has the tests of tools/tests.

Each stage prints what it found and its seconds. The program is compiled first if there is none. In all it takes some ten minutes of one processor.
The tests of single crates, mutants, and cases in pieces or without memory are left to make test. The status is 1 if a stage fails.
"""
import resource
import shutil
import subprocess
import sys
import tempfile
import time
from pathlib import Path

sys.dont_write_bytecode = True
import quick  # noqa: E402

TOP = Path(__file__).resolve().parent.parent
UNITS = TOP / "crates" / "test_units"


def commanded(*words: str) -> bool:
    """Whether a command ends well."""
    return subprocess.run(words, cwd=TOP, check=False).returncode == 0


def units() -> bool:
    """Whether the program of crates/test_units prints what it must."""
    with tempfile.TemporaryDirectory(prefix="tql-units-") as folder:
        made = quick.compiled(quick.kit(), Path(folder).resolve(), UNITS.name)
        room = Path(shutil.copytree(UNITS / "data", Path(folder) / "data"))
        ran = subprocess.run([str(made)], cwd=room, stdout=subprocess.PIPE, check=False)
    print(ran.stdout.decode(errors="replace"), end="")
    return ran.returncode == 0 and ran.stdout == (UNITS / "stdout").read_bytes()


STAGES = {
    "lint": lambda: commanded("make", "-s", "lint"),
    "cases": lambda: commanded("tools/cases.py"),
    "units": units,
    "lines": lambda: commanded("tools/lines.py"),
}


def used() -> float:
    """Returns the processor seconds of this program and of those that it has run."""
    return sum(it.ru_utime + it.ru_stime for it in map(resource.getrusage, (resource.RUSAGE_SELF, resource.RUSAGE_CHILDREN)))


def main(words: list) -> int:
    if set(words) - set(STAGES):
        sys.exit(__doc__)
    quick.program()
    failed, began = [], used()
    for name in words or STAGES:
        since, before = time.monotonic(), used()
        is_well = STAGES[name]()
        failed += [] if is_well else [name]
        print(f"make check: {name} {'passed' if is_well else 'FAILED'}, {time.monotonic() - since:.0f} s, {used() - before:.0f} s of processor", flush=True)
    print(f"make check: {len(words or STAGES)} stages, {len(failed)} failed, {(used() - began) / 60:.1f} minutes of processor")
    return 1 if failed else 0


if __name__ == "__main__":
    sys.exit(main(sys.argv[1:]))
