#!/usr/bin/env python3
"""Tries the edits that the prover must refuse: those of crates/NAME/must-fail/, as the gate does, and those of crates/NAME/edits/.

Usage: tools/edits.py [--look] [NAME [EDIT]]        (make edits [CRATE=NAME] [EDIT=EDIT])

First it looks whether each edit still fits the file that it changes, in a second; with --look it ends there. Then the edits are made in copies of
their crate and checked, as many side by side as the gate would. A function is proved by its own body and what the others promise, so edits in the
bodies of different functions share a copy, and only these functions are checked: what is not proved there is not proved in the crate. Any other edit,
and one with which they are proved, is tried as the gate does, over the whole crate. The libraries below a crate are those that the gate kept on this
machine; one that it did not keep is proved first. The status is 0 where each edit was refused, and 1 where one was not, does not fit, or is not there.
"""
import re
import shutil
import sys
import tempfile
from concurrent.futures import ThreadPoolExecutor
from pathlib import Path

import gate

TOP = Path(__file__).resolve().parent.parent
FOLDERS = ("must-fail", "edits")
# The heads of a function and of a block of methods, the end of each, and how a check says that a function is not proved.
FUNCTION, IMPL = re.compile(r"( *)(?:pub(?:\([a-z ]+\))? )?(?:const )?fn (\w+)"), re.compile(r"impl(<.*?>)? (?:(.+) for )?(\w+)")
SAID, UNPROVED = re.compile(r"^fn (\S+): (no proof|not proved|proved|could not tell)", re.MULTILINE), ("no proof", "not proved")


def made(edit: Path, texts: dict[str, str]) -> str:
    """Makes the edit in the texts of its crate's files, and says why it cannot be made, or nothing: each old text stands once in its file."""
    crate, file, old, pairs = edit.parent.parent, "", "", 0
    for line in edit.read_text(encoding="utf-8").split("\n"):
        word, _, text = line.partition(":")
        text = text.removeprefix(" ")
        if word == "file":
            file = text.strip()
            if not (crate / file).is_file():
                return f"there is no file {file}"
            texts.setdefault(file, (crate / file).read_text(encoding="utf-8"))
        elif word == "old":
            old = text
        elif word == "new":
            if not old or not file:
                return "a line 'new:' without its 'file:' or 'old:'"
            if texts[file].count(old) != 1:
                return f"its old text stands {texts[file].count(old)} times in {file}"
            texts[file], old, pairs = texts[file].replace(old, text), "", pairs + 1
    return "" if pairs else "it has no pair of lines 'old:' and 'new:'"


def edits_of(crate: str, name: str) -> list[Path]:
    """The crate's edits, or those of one name."""
    found = [it for folder in FOLDERS for it in sorted((TOP / "crates" / crate / folder).glob("*.edit"))]
    return [it for it in found if not name or it.stem == name]


def look(edits: list[Path]) -> bool:
    """Says which edits do not fit, and whether all do."""
    bad, names = [(it, why) for it in edits if (why := made(it, {}))], [(it.parent.parent, it.name) for it in edits]
    bad += [(it, "another edit of the crate has this name") for it, key in zip(edits, names) if names.count(key) > 1]
    for edit, why in bad:
        print(f"{edit.relative_to(TOP)}: {why}")
    print(f"{len(edits)} edits, {len(bad)} that do not fit", flush=True)
    return not bad


def unread(_: str, names: list[str]) -> list[str]:
    """What the copy can do without: the history, and the kept work of checks."""
    return [it for it in names if it in (".git", "incremental")]


def named(holder: str, function: str) -> str:
    """A function's name behind its module, by the head of its block: impl From<Range> for Refusal has RefusalFromRange::from."""
    found = IMPL.match(holder)
    if not found:
        return function
    generic = set(re.findall(r"\w+", found[1] or ""))
    return found[3] + "".join(it for it in re.findall(r"\w+", found[2] or "") if it not in generic) + "::" + function


def function_at(lines: list[str], number: int) -> str:
    """The function that the line belongs to, or nothing."""
    holder, function, depth = "", "", ""
    for line in lines[: number + 1]:
        if found := FUNCTION.match(line):
            depth, function = found[1], named(holder, found[2])
        elif line.startswith("impl"):
            holder, function = line, ""
        elif line == "}":
            holder, function = "", ""
    return "" if lines[number] == depth + "}" else function


def bodies(edit: Path) -> list[str]:
    """The functions whose bodies the edit changes, by their names in the crate, or none if it changes anything else."""
    crate, found, texts = edit.parent.parent, [], {}
    made(edit, texts)
    for file, text in texts.items():
        old, new = (crate / file).read_text(encoding="utf-8").split("\n"), text.split("\n")
        module = "::".join(it for it in Path(file).with_suffix("").parts[1:] if it not in ("lib", "main", "mod"))
        changed = [number for number, pair in enumerate(zip(old, new)) if pair[0] != pair[1]] if len(old) == len(new) else []
        at = [in_body(old, new, number) for number in changed if file.startswith("src/")]
        if not at or not all(at):
            return []
        found += ["::".join(filter(None, [crate.name, module, it])) for it in dict.fromkeys(at)]
    return found


def in_body(old: list[str], new: list[str], number: int) -> str:
    """The function whose body has the line, or nothing if the line belongs to none or to what the function says of itself."""
    heads = {it[number].partition("{")[0] for it in (old, new)}
    is_head = FUNCTION.match(old[number]) and len(heads) > 1 or re.match(r" *(requires|ensures|ghost|where|#)", old[number])
    return "" if is_head else function_at(old, number)


class Round:
    """Edits of different functions, made in one copy of their crate."""

    def __init__(self) -> None:
        self.texts, self.names, self.edits = {}, [], []

    def takes(self, edit: Path, names: list[str]) -> bool:
        """Makes the edit too, if no other of this round is in one of its functions."""
        texts = dict(self.texts)
        if set(names) & set(self.names) or made(edit, texts):
            return False
        self.texts, self.names = texts, [*self.names, *names]
        self.edits.append((edit, names))
        return True


def rounds(edits: list[Path]) -> tuple[list[Round], list[Path]]:
    """The edits of functions' bodies by rounds, as few as can be, and the other edits."""
    found, others = [], []
    for edit in edits:
        names = bodies(edit)
        if not names:
            others.append(edit)
        elif not any(it.takes(edit, names) for it in found):
            found.append(Round())
            found[-1].takes(edit, names)
    return found, others


class Trials:
    """The tries of a crate's edits, in a copy of the repository."""

    def __init__(self, rt, name: str, room: Path) -> None:
        self.rt, self.name, self.folder = rt, name, room / "crates" / name
        self.crate = rt.Crate(str(self.folder), str(room), {})

    def begin(self) -> bool:
        """Gives the crate the libraries below it, and tells whether it has them all."""
        below = self.crate.below()
        kept = self.rt.Kept(below)
        for it in below:
            if not it.is_built() and kept.give(it, False, kept.key(it)):
                Path(it.folder, "out/rlib/stamp").write_text(it.stamp(), encoding="utf-8")
            if not it.is_built() and it.build_rlib(["--jobs", "1"], anew=False):
                return False
            kept.is_built(it)
        return True

    def verdicts(self, texts: dict[str, str], names: list[str]) -> "dict[str, str]":
        """What the prover says of each of these functions, with these texts; nothing of one that it has under no such name."""
        right = {it: it for it in names}
        while True:
            ran = self.rt.checked(self.crate, texts, ["--jobs", "1", *[word for it in right.values() for word in ("--only", it)]], None)
            # Where a name is not one, the check says which are.
            told = re.findall(r"`(\S+?)`", ran.stdout) if ran.returncode == 2 else []
            wrong = [it for it, name in right.items() if name not in told and it.rpartition("::")[2] in {one.rpartition("::")[2] for one in told}]
            other = [it for it in told if it not in right.values() and it.split("::")[:2] in [name.split("::")[:2] for name in wrong]]
            if len(wrong) != 1 or len(other) != 1:
                break
            right[wrong[0]] = other[0]
        found = dict(SAID.findall(ran.stdout))
        return {it: found.get(name, "") for it, name in right.items()}

    def round(self, it: Round) -> list[bool]:
        """Tries the edits of a round: those that are not refused at once by themselves."""
        told = self.verdicts(it.texts, it.names)
        return [self.refused(edit, [f"{name}: {told[name]}" for name in names if told[name] in UNPROVED]) for edit, names in it.edits]

    def refused(self, edit: Path, unproved: list[str], seed: "str | None" = None) -> bool:
        """Says what came of an edit, for which it is tried by itself if no function is unproved, and tells whether it was refused. With a seed that is
        begun from what the seed holds."""
        if unproved:
            print(f"{self.name}/{edit.name}: refused: {unproved[0]}", flush=True)
            return True
        with tempfile.TemporaryDirectory(prefix="tql-edit-") as folder:
            over = seed and f"{folder}/work"
            if over:
                self.rt.linked(f"{seed}/seed", over)
            kind, told = self.rt.must_fail(self.crate, str(edit), ["--jobs", "1"], over)
        if seed and kind not in (self.rt.REFUSED, self.rt.AT_LIMIT):
            return self.refused(edit, unproved)
        print(told, flush=True)
        return kind in (self.rt.REFUSED, self.rt.AT_LIMIT)

    def every(self, edits: list[Path], lanes: ThreadPoolExecutor) -> int:
        """Tries these edits, and says how many were refused."""
        found, others = rounds(edits)
        tried = lanes.map(self.round, found)
        seed = self.rt.seeded(self.crate, ["--jobs", "1"]) if len(others) > 1 else None
        alone = lanes.map(lambda it: self.refused(it, [], seed), others)
        refused = sum(map(sum, tried)) + sum(alone)
        shutil.rmtree(seed or "", ignore_errors=True)
        return refused


def main(words: list[str]) -> int:
    only_look, words = "--look" in words, [it for it in words if it != "--look"]
    crate, name = [*words, "", ""][:2]
    crates = [crate] if crate else sorted(it.name for it in (TOP / "crates").iterdir())
    edits = {it: found for it in crates if (found := edits_of(it, name))}
    if not edits:
        print(f"there is no edit {name or '*'} in crates/{crate or '*'}")
        return 1
    if not look([it for found in edits.values() for it in found]):
        return 1
    return 0 if only_look else tries(edits)


def tries(edits: dict[str, list[Path]]) -> int:
    """Tries all these edits, and says how many were refused."""
    rt, refused, of = gate.kit(), 0, sum(map(len, edits.values()))
    # Its first call sets the handler of a signal, which only this thread may.
    rt.rtlib.guarded()
    with tempfile.TemporaryDirectory(prefix="tql-edits-") as folder, ThreadPoolExecutor(gate.lanes()) as lanes:
        room = Path(folder, "tql")
        shutil.copytree(TOP, room, ignore=unread)
        for crate, found in edits.items():
            trials = Trials(rt, crate, room)
            if not trials.begin():
                print(f"{crate}: a library below it is not proved", flush=True)
                continue
            fine = trials.every(found, lanes)
            print(f"{crate}: {fine} of {len(found)} edits refused", flush=True)
            refused += fine
    print(f"{refused} of {of} edits refused")
    return 0 if refused == of else 1


if __name__ == "__main__":
    sys.exit(main(sys.argv[1:]))
