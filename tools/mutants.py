#!/usr/bin/env python3
"""Lists the mutants, and for each of the gate what its refusal shows beyond the text of a proof by hand.

Usage: tools/mutants.py [--all | --said]        (a part of make lint; make mutants)

A mutant is an edit of crates/NAME/must-fail/, which the gate tries, or of crates/NAME/edits/. A function may have parts
of its proof written by hand (Answers.antt, Invariants.antt, Proof.antt). These name its exits and loops, so the prover
refuses any change of the text there, even one that changes nothing. Such a refusal is no evidence. So each mutant of
the gate needs one of two kinds:

  planted   it changes only functions without such parts, so the prover fails at a clause;
  law       crates/test_mutants has a law function of the mutant's name: at an example with small values, what the wrong
            body returns does not meet the clause.

tools/mutants.tsv has a line for each mutant of the gate: its crate, its name, and what would be wrong, which --said prints.

The status is 1 where a mutant of the gate has neither kind of evidence or no line, where a law or a line has no mutant, or
where the gate has fewer mutants than LEAST. With --all it lists those of edits/ too, and marks the ones that change a
function with a proof by hand.
"""
import re
import sys
from pathlib import Path

TOP = Path(__file__).resolve().parent.parent
LAWS, LEAST = TOP / "crates" / "test_mutants" / "src", 40
SAID = TOP / "tools" / "mutants.tsv"
FUNCTION = re.compile(r'^( *)(?:pub(?:\([a-z]+\))? )?(?:const |unsafe |extern "C" )*fn (\w+)', re.M)
OWNER = re.compile(r"^(?:unsafe )?impl\b([^{]*)\{|^(?:pub )?trait (\w+)", re.M)
CYCLE = re.compile(r"#\[cycle\((\w+)\)\]")
PROOFS = ("Answers.antt", "Invariants.antt", "Proof.antt")


def owner_of(code: str, head: re.Match) -> str:
    """The folder of the type whose method begins here: its name, and in an impl of a trait the trait's after it."""
    found = [it for it in OWNER.finditer(code) if it.start() < head.start()]
    if not found or found[-1][2]:
        return found[-1][2] if found else ""
    said = found[-1][1]
    while "<" in said:
        said = re.sub(r"<[^<>]*>", "", said)
    parts = said.split(" where ")[0].split(" for ")
    names = [re.sub(r".*::", "", it.strip().split()[-1].lstrip("&")) for it in parts]
    return names[-1] + (names[0] if len(names) > 1 else "")


class Mutant:
    """An edit, and the functions that it changes, each with the files of its proof by hand."""

    def __init__(self, edit: Path) -> None:
        self.crate, self.name, self.folder = edit.parent.parent, edit.stem, edit.parent.name
        self.proofs, self.functions = self.crate / "proofs", {}
        file, old = "", ""
        for line in edit.read_text(encoding="utf-8").split("\n"):
            word, _, text = line.partition(":")
            if word == "file":
                file = text.strip()
            elif word == "old":
                old = text.removeprefix(" ")
            elif word == "new":
                self.functions |= self.changed(file, old)

    def changed(self, file: str, old: str) -> dict[str, list[str]]:
        """The function around a text, and its proof files. A text that an earlier pair of lines made has none."""
        code = (self.crate / file).read_text(encoding="utf-8")
        at = code.find(old)
        if at < 0 and self.functions:
            return {}
        found = [it for it in FUNCTION.finditer(code) if it.start() < at + len(old)]
        if not found or file.endswith(".antt"):
            return {file: ["no function"]}
        head, module = found[-1], file.removeprefix("src/").removesuffix(".rt").removesuffix("lib").removesuffix("/mod")
        files = self.files_of(module, owner_of(code, head) if head[1] else "", head[2])
        for cycle in CYCLE.findall(code[:head.start()].rsplit("\n}\n", 1)[-1]):
            files += self.in_cycle(cycle, head[2])
        return {f"{module}::{head[2]}": files}

    def files_of(self, module: str, owner: str, name: str) -> list[str]:
        """The proof files of a function; those of a method are with its type, in whichever module this is defined."""
        folders = self.proofs.glob(f"**/{owner}/{name}") if owner else [self.proofs / module / name]
        return [it for folder in folders for it in PROOFS if (folder / it).is_file()]

    def in_cycle(self, cycle: str, name: str) -> list[str]:
        """The proof files of functions that call each other which have a part for this one."""
        part, found = re.compile(rf"^(?:pub )?{name}\b", re.M), self.proofs.glob(f"**/+{cycle}/*.antt")
        return [it.name for it in found if part.search(it.read_text(encoding="utf-8"))]

    def kind(self, laws: set[str]) -> str:
        """What its refusal shows."""
        parts = {it for files in self.functions.values() for it in files}
        if self.name in laws:
            return "law"
        if "no function" in parts:
            return "changes no function"
        return "breaks a proof by hand" if parts else "planted"


def mutants(folder: str) -> list[Mutant]:
    return [Mutant(it) for it in sorted((TOP / "crates").glob(f"*/{folder}/*.edit"))]


def laws() -> set[str]:
    """The law functions of the crate of counterexamples."""
    texts = [it.read_text(encoding="utf-8") for it in LAWS.glob("*.rt")]
    return {name for text in texts for _, name in FUNCTION.findall(text)}


def said() -> dict[tuple[str, str], str]:
    """What would be wrong with each mutant of the gate, by its crate and name."""
    rows = [it.split("\t") for it in SAID.read_text(encoding="utf-8").splitlines()]
    return {(crate, name): text for crate, name, text in rows}


def unsaid(gate: list[Mutant]) -> list[str]:
    """What is wrong with mutants.tsv: a mutant of the gate without a line, or a line without one."""
    there, lines = {(it.crate.name, it.name) for it in gate}, set(said())
    return [f"tools/mutants.tsv: {crate}/{name} has no line" for crate, name in sorted(there - lines)] + [
        f"tools/mutants.tsv: there is no {crate}/must-fail/{name}.edit" for crate, name in sorted(lines - there)]


def main(words: list[str]) -> int:
    gate, known = mutants("must-fail"), laws()
    if words == ["--said"]:
        texts = said()
        print("\n".join(f"{it.crate.name:17} {it.name}: {texts.get((it.crate.name, it.name), '')}" for it in gate))
        return 0
    for it in gate + (mutants("edits") if "--all" in words else []):
        print(f"{it.crate.name:20} {it.folder:9} {it.name:56} {it.kind(known):22} {', '.join(it.functions)}")
    weak = [it.name for it in gate if it.kind(known) not in ("planted", "law")]
    idle = sorted(known - {it.name for it in gate})
    print(f"{len(gate)} mutants in the gate, at least {LEAST}; without evidence: {', '.join(weak) or 'none'}; "
          f"laws without a mutant: {', '.join(idle) or 'none'}")
    print("".join(f"{it}\n" for it in unsaid(gate)), end="")
    return 1 if weak or idle or unsaid(gate) or len(gate) < LEAST else 0


if __name__ == "__main__":
    sys.exit(main(sys.argv[1:]))
