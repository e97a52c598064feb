#!/usr/bin/env python3
"""Prints the contracts of the crates, by area: each public function with clauses, their names, its file, and what it does.

Usage: tools/proofs.py [CRATE | --laws]        (make proofs; make proofs CRATE=NAME; make laws)

Of all crates it prints the first sentence of each function's docstring, of one crate the whole. With --laws it prints the laws, public functions
whose code does nothing: with the text of each clause, and the whole docstring.

tools/documents.py calls `faults`: each row of docs/PROOFS.md whose third cell is a file of code names functions of that file, with their clauses.
'`f`, `g` (`c`, `d`); `h`' are f and g, each with the clauses c and d, and h. A file of the fourth cell without a path is in specs/ of that crate.
"""
import re
import sys
import textwrap
from pathlib import Path
from typing import Iterator, NamedTuple

sys.dont_write_bytecode = True
from map import areas, first  # noqa: E402
from mutants import FUNCTION, TOP, owner_of  # noqa: E402

PAGE = TOP / "docs" / "PROOFS.md"
CLAUSE = re.compile(r"ensures\*?(?: (\w+))? \{(.*)")
ROW = re.compile(r"^\| .* \| (.*) \| `((\w+)/src/[\w/]+\.rt)` \| (.*) \|$", re.M)
QUOTED, DEFINED = re.compile(r"`([\w:]+)`"), re.compile(r"`(\w+\.antt)`")


class Contract(NamedTuple):
    """A function with its clauses: the text of each, by its name. A clause without a name has the name ''."""

    name: str
    file: Path
    is_public: bool
    is_law: bool
    text: str
    clauses: dict[str, str]


def docstring(lines: list[str]) -> str:
    """Returns the comment `///` at the end of the lines before a function, in one line; a heading ends with a colon."""
    found: list[str] = []
    for line in reversed(lines):
        if line.lstrip().startswith("///"):
            found.insert(0, re.sub(r"^# (.*)", r"\1:", line.lstrip()[3:].strip()))
        elif not line.lstrip().startswith("#["):
            break
    return " ".join(" ".join(found).split())


def clauses_of(lines: list[str], indent: str) -> tuple[dict[str, str], bool]:
    """Returns the clauses that follow a function's name, and whether the function does nothing: no argument and no result, or an empty body."""
    found: dict[str, str] = {}
    name = None
    for line in lines:
        clause = CLAUSE.match(line.strip())
        if line in (f"{indent}{{", f"{indent}{{}}") or clause is None and name is None and re.search(r"(\{|\{\}|;)$", line):
            return found, line.strip() == "{}" or lines[0].endswith("()")
        if clause:
            name = clause[1] or ""
            found[name] = clause[2]
        elif line.lstrip().startswith(("requires", "//")):
            name = None
        elif name is not None:
            found[name] += " " + line.strip()
        if line.endswith("};"):
            break
    return found, False


def in_file(file: Path) -> Iterator[Contract]:
    """Yields the functions of a file that have clauses."""
    code = file.read_text(encoding="utf-8")
    for head in FUNCTION.finditer(code):
        clauses, is_empty = clauses_of(code[head.end():].split("\n"), head[1])
        if clauses:
            owner = owner_of(code, head) if head[1] else ""
            is_public = head[0].lstrip().startswith("pub ") or bool(re.search(rf"^pub trait {owner}\b", code, re.M) if owner else None)
            name = f"{owner}::{head[2]}" if owner else head[2]
            text = docstring(code[:head.start()].split("\n")[:-1])
            texts = {it: re.sub(r" *\};?$", "", said).strip() for it, said in clauses.items()}
            yield Contract(name, file, is_public, is_public and is_empty, text, texts)


def in_crate(crate: str) -> list[Contract]:
    """Returns the functions of a crate that have clauses."""
    return [it for file in sorted((TOP / "crates" / crate / "src").rglob("*.rt")) for it in in_file(file)]


def printed(it: Contract, is_whole: bool, is_law: bool) -> str:
    """Returns a function, its clauses, its file and what it does, over as many lines as needed."""
    said = [f"{name}: {clause}".removeprefix(": ") if is_law else name for name, clause in it.clauses.items() if name or is_law]
    listed = f" ({'; '.join(said) if is_law else ', '.join(said)})" if said else ""
    file = str(it.file.relative_to(TOP / "crates")).partition("/src/")[2]
    return textwrap.fill(f"{it.name}{listed}, {file}: {it.text if is_whole else first(it.text)}", 120, initial_indent="    ",
                         subsequent_indent="        ", break_on_hyphens=False, break_long_words=False)


def faults() -> list[str]:
    """Returns what docs/PROOFS.md names and no crate has: a function of a file, its clause, or a file of definitions."""
    wrong = []
    for cell, path, crate, defined in ROW.findall(PAGE.read_text(encoding="utf-8")):
        file = TOP / "crates" / path
        there = list(in_file(file)) if file.is_file() else []
        absent = [it for it in DEFINED.findall(defined) if not (TOP / "crates" / crate / "specs" / it).is_file()]
        wrong += [f"docs/PROOFS.md: specs/ of {crate} has no {it}" for it in absent]
        for group in cell.split(";"):
            names, _, listed = group.partition("(")
            for name in QUOTED.findall(names):
                of = [it for it in there if it.name.split("::")[-1] == name.split("::")[-1]]
                wanted = QUOTED.findall(listed)
                if not any(set(wanted) <= set(it.clauses) for it in of):
                    wrong.append(f"docs/PROOFS.md: {path} has no {name} with the clauses ({', '.join(wanted)})")
    return wrong


def main(words: list[str]) -> int:
    is_law = words == ["--laws"]
    one = words[0] if words and not is_law else None
    if len(words) > 1 or one and one not in [it for _, _, crates in areas() for it in crates]:
        sys.exit(__doc__)
    for area, what, crates in areas():
        found = {crate: [it for it in in_crate(crate) if it.is_public and (it.is_law or not is_law)] for crate in crates if one in (None, crate)}
        if any(found.values()):
            print(f"{area}: {what}")
        for crate, of in found.items():
            print("\n".join([f"  {crate}", *(printed(it, bool(words), is_law) for it in of)]) + "\n" if of else "", end="")
    return 0


if __name__ == "__main__":
    sys.exit(main(sys.argv[1:]))
