#!/usr/bin/env python3
"""Proves the program and all crates that it is made of, and leaves it as ./tql.

Usage: tools/build.py        (make build)

The crates are proved one after the other, each after those that it uses, with a line for each: `proved 22 of 50: tql_expr, 170 s`. What earlier
checks proved of the same text is kept (`out/` of each crate) and not proved again; its line ends in `before`. Where a crate is not proved, what rt
said of it is printed and the status is 1. Where the kit has another logic than the one that README.md names, a line says so.
"""
import shutil
import signal
import subprocess
import sys
import time

sys.dont_write_bytecode = True

from quick import PROGRAM, TOP, crates_of, leave, run, warn_of_kit


def prove(crate: str) -> str:
    """Proves a crate over those below it, and returns how long that took, or that nothing was to be proved. The program is built too; rt does that
    only by running it, here on a script of no statement."""
    began = time.time()
    written = run(["rt", "run" if crate == PROGRAM else "lib"], TOP / "crates" / crate, f"make build: {crate} is not proved")
    return f"{time.time() - began:.0f} s" if "\nlogic=proved" in written else "before"


def main() -> int:
    if not shutil.which("rt"):
        sys.exit("make build: there is no rt on the path; README.md names the kit")
    warn_of_kit("make build")
    signal.signal(signal.SIGTERM, lambda number, _: sys.exit(128 + number))
    started, crates = time.time(), crates_of(PROGRAM)
    print(f"make build: proving {len(crates)} crates", flush=True)
    for number, crate in enumerate(crates, 1):
        print(f"proved {number} of {len(crates)}: {crate}, {prove(crate)}", flush=True)
    leave(TOP / "crates" / PROGRAM / "out" / PROGRAM, TOP / "tql", started)
    print("make build: proved and built ./tql; ./tql --help has its options")
    return 0


if __name__ == "__main__":
    try:
        sys.exit(main())
    except KeyboardInterrupt:
        sys.exit(130)
