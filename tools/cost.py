#!/usr/bin/env python3
"""Prints what each crate weighs in the gate, and fails where one is over a bound.

Usage: tools/cost.py        (a part of make lint)

By crate of crates.txt, the lowest first: functions (the fn lines of src/), lines of code (.rt) and of .antt (specs/ and proofs/), lines of
both in all crates below it, the edits in must-fail/ and the tests. 'weight' is what a proof of the crate is taken to need of its own memory,
in MB: 1,000 + code + .antt / 5. 'memory' is all that 'rt ci' takes it to need, in GB: the weight, and the code below / 12,500; and 'kit' what
it adds for the kit's crates that it and those below it list. The gate starts a task only where that much is free, so a crate of a high figure
waits for the others and then ends last. The bound is on the weight, without the code below: that grows with every step of the crates below, and
no crate can mend its own. The status is 1 where a bound is broken.
"""
import re
import shutil
import sys
from pathlib import Path

TOP = Path(__file__).resolve().parent.parent
FUNCTION = re.compile(r"^\s*(?:pub(?:\([a-z]+\))?\s+)?(?:const\s+|unsafe\s+)*fn\s+\w", re.M)
TEST = re.compile(r"^\s*#\[test\]", re.M)
UNDER_TEST = re.compile(r"#\[cfg\(test\)\]")
# A crate whose only job is tests: beside remarks and attributes its lib.rt has modules under cfg(test) alone, or it is a program that
# answers the files of its data/. Nothing stands on it.
ONLY_TESTS = re.compile(r"(?:\s*(?://[^\n]*|#!\[[^\n]*\]|#\[cfg\(test\)\]\s*(?:pub\s+)?mod\s+\w+;))+\s*")
# The libraries of the kit, and those of them that the gate does not count.
LIBRARIES, UNCOUNTED = Path(shutil.which("rt") or "rt").resolve().parent.parent / "rlibs", {"core", "std", "io", "libc", "os"}
FUNCTIONS, WEIGHT, EDITS, LINES = 90, 4000, 6, 800
# (crate, bound): why the bound is broken on purpose. The bounds: functions, weight, edits, tests, file.
LAWS = "definitions and their laws, which have no code to walk: a proof takes 14 seconds, and nothing is below it"
NAMED = "a crate that is proved in some 80 seconds, and seven mutants that each break a promise to users"
EXCEPTIONS: dict[tuple[str, str], str] = {
    ("tql_spec", "weight"): LAWS,
    ("tql_versions", "edits"): NAMED,
}


class Crate:
    """A crate and what it weighs; the crates below it are made already."""

    def __init__(self, name: str, below: "set[Crate]", kit: set[str]) -> None:
        self.name, self.below, self.folder = name, below, TOP / "crates" / name
        self.kit = kit.union(*(it.kit for it in below)) - UNCOUNTED
        self.code = {it: it.read_text(encoding="utf-8") for it in sorted((self.folder / "src").rglob("*.rt"))}
        parts = [it for part in ("specs", "proofs") for it in sorted((self.folder / part).rglob("*.antt"))]
        self.pure = {it: it.read_text(encoding="utf-8") for it in parts}
        self.lines, self.antt = lines(self.code), lines(self.pure)
        self.code_below, self.antt_below = sum(it.lines for it in below), sum(it.antt for it in below)
        self.functions, self.tests = (sum(len(word.findall(it)) for it in self.code.values()) for word in (FUNCTION, TEST))
        self.edits = len([*(self.folder / "must-fail").glob("*.edit")])
        loaded = [LIBRARIES / f"{it}.rlib" / "toolchain" / "checked.a" for it in self.kit]
        self.loaded = min(5 * sum(it.stat().st_size for it in loaded if it.is_file()) / 1e9, 2.5)
        self.weight = 1000 + self.lines + self.antt / 5
        self.memory = self.weight / 1000 + self.code_below / 12500
        only_tests = ONLY_TESTS.fullmatch(self.code.get(self.folder / "src" / "lib.rt", "")) is not None
        self.is_tests = only_tests or (self.folder / "data").is_dir()

    def broken(self) -> list[tuple[str, str]]:
        """The bounds that it breaks, each with what to say."""
        found = []
        if self.functions > FUNCTIONS:
            found.append(("functions", f"{self.functions} functions, at most {FUNCTIONS}"))
        if self.weight >= WEIGHT:
            found.append(("weight", f"1,000 + code + .antt / 5 is {self.weight:.0f}, to be below {WEIGHT}"))
        if self.edits > EDITS:
            found.append(("edits", f"{self.edits} in must-fail/, at most {EDITS}"))
        if not self.is_tests and any(UNDER_TEST.search(it) for it in self.code.values()):
            found.append(("tests", "cfg(test) in a crate that is not one of tests, so the gate proves it twice"))
        for file, text in {**self.code, **self.pure}.items():
            if text.count("\n") > LINES:
                found.append(("file", f"{file.relative_to(self.folder)} has {text.count(chr(10))} lines, at most {LINES}"))
        return found


def lines(files: dict[Path, str]) -> int:
    return sum(it.count("\n") for it in files.values())


def crates() -> list[Crate]:
    """The crates of crates.txt, the lowest first."""
    text = (TOP / "crates.txt").read_text(encoding="utf-8")
    rows = [it.partition("#")[0].partition(":") for it in text.split("\n")]
    uses, made = {it[0].split()[0]: it[2].split() for it in rows if it[0].strip()}, {}

    def make(name: str) -> Crate:
        if name not in made:
            direct = [make(it) for it in uses[name] if it in uses]
            made[name] = Crate(name, {*direct}.union(*(it.below for it in direct)), {*uses[name]} - {*uses})
        return made[name]

    return [make(it) for it in uses]


def main() -> int:
    failed, unneeded, found = 0, {*EXCEPTIONS}, crates()
    wide = max(len(it.name) for it in found)
    print(f"{'crate':{wide}} functions   code  .antt  code below  .antt below  memory  kit  weight  edits  tests")
    for it in found:
        print(f"{it.name:{wide}} {it.functions:9} {it.lines:6} {it.antt:6} {it.code_below:11} {it.antt_below:12} {it.memory:7.1f} "
              f"{it.loaded:4.1f} {it.weight:7.0f} {it.edits:6} {it.tests:6}")
    print()
    for it in found:
        for bound, said in it.broken():
            why = EXCEPTIONS.get((it.name, bound))
            unneeded.discard((it.name, bound))
            failed += why is None
            print(f"{it.name}: {bound}: {said}" + (f" (allowed: {why})" if why else ""))
    for name, bound in sorted(unneeded):
        failed += 1
        print(f"{name}: {bound}: an exception in tools/cost.py that nothing needs")
    print(f"{len(found)} crates, {failed} bounds broken")
    return 1 if failed else 0


if __name__ == "__main__":
    sys.exit(main())
