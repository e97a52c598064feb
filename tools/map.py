#!/usr/bin/env python3
"""Prints what each crate is, by area, from the first sentence of its head (the //! lines of src/lib.rt or main.rt); of one crate its modules too.

Usage: tools/map.py [CRATE]        (make map; make map CRATE=NAME)

The areas, their order and the order of the crates in them are those of crates.txt. tools/documents.py calls `faults`: each crate of the folder
stands in crates.txt below an area, each crate and each module has a head, and the page of its area in docs/areas/ names each crate.
"""
import re
import sys
import textwrap
from pathlib import Path

TOP = Path(__file__).resolve().parent.parent
AREA, CRATE = re.compile(r"^# ---- (\w+): (.*)$"), re.compile(r"^(\w+)(?: staticlib)?:")
# The pages of an area, where it is not docs/areas/AREA.md.
PAGES = {"do": ("change", "query")}
SENTENCE = re.compile(r"(.*?\.)(?=\s+[A-Z`]|$)", re.S)


def areas() -> list[tuple[str, str, list[str]]]:
    """Returns the areas of crates.txt: each name, what it is, and its crates."""
    found: list[tuple[str, str, list[str]]] = []
    for line in (TOP / "crates.txt").read_text(encoding="utf-8").splitlines():
        area, crate = AREA.match(line), CRATE.match(line)
        if area:
            found.append((area[1], area[2], []))
        elif crate and found:
            found[-1][2].append(crate[1])
    return found


def head(file: Path) -> str:
    """Returns the comment at the head of a file in one line, or nothing if it has none."""
    lines = []
    for line in file.read_text(encoding="utf-8").splitlines():
        if not line.startswith("//") or line.startswith("///"):
            break
        lines.append(line.lstrip("/!").strip())
    return " ".join(" ".join(lines).split())


def first(text: str) -> str:
    """Returns the first sentence of a text."""
    found = SENTENCE.match(text)
    return found[1] if found else text


def root(crate: str) -> Path:
    """Returns the file with a crate's head."""
    folder = TOP / "crates" / crate / "src"
    return folder / "lib.rt" if (folder / "lib.rt").exists() else folder / "main.rt"


def modules(crate: str) -> list[Path]:
    """Returns the files of a crate's modules."""
    return [it for it in sorted((TOP / "crates" / crate / "src").rglob("*.rt")) if it != root(crate)]


def printed(name: str, text: str, indent: str) -> str:
    """Returns a name with what it is, over as many lines as needed."""
    return textwrap.fill(f"{name}: {text}", 120, initial_indent=indent, subsequent_indent=indent + "    ", break_on_hyphens=False)


def faults() -> list[str]:
    """Returns the crates and modules that the map would leave out or show without a word."""
    wrong, listed = [], {}
    for area, _, crates in areas():
        pages = [TOP / "docs" / "areas" / f"{it}.md" for it in PAGES.get(area, (area,))]
        named = set(re.findall(r"\w+", " ".join(it.read_text(encoding="utf-8") for it in pages if it.exists())))
        listed.update({it: it in named for it in crates})
    for crate in sorted(it.name for it in (TOP / "crates").iterdir() if it.is_dir()):
        if crate not in listed:
            wrong.append(f"crates.txt: no area has the crate {crate}")
        elif not listed[crate]:
            wrong.append(f"docs/areas: the page of its area does not name {crate}")
        wrong += [f"{it.relative_to(TOP)}: no comment at its head" for it in [root(crate), *modules(crate)] if not head(it)]
    return wrong


def main(words: list[str]) -> int:
    found = areas()
    if len(words) > 1 or words and words[0] not in [it for _, _, crates in found for it in crates]:
        sys.exit(__doc__)
    if words:
        print(printed(words[0], head(root(words[0])), ""))
        base = TOP / "crates" / words[0] / "src"
        print("\n".join(printed(str(it.relative_to(base).with_suffix("")), head(it), "  ") for it in modules(words[0])))
        return 0
    for area, what, crates in found:
        print(f"{area}: {what}")
        print("\n".join(printed(it, first(head(root(it))), "  ") for it in crates))
    return 0


if __name__ == "__main__":
    sys.exit(main(sys.argv[1:]))
