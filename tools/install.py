#!/usr/bin/env python3
"""Installs the program, its tools, manual page, completions and documents below a folder, and the C library where build/ has it.

Usage: tools/install.py PROGRAM FOLDER        (make install; FOLDER is DESTDIR and PREFIX)

A link of a document leads to the same document where that is installed, and else its label stays alone. The scripts of the recipes and
examples are installed with the documents, and `make run SCRIPT=..` is `tql ..` there. Python 3 runs the tools.
"""
import os
import re
import sys
from pathlib import Path
from typing import Iterator

sys.dont_write_bytecode = True

import library

TOP = Path(__file__).resolve().parent.parent
CASES = TOP / "crates" / "test_cases" / "data" / "cases"
TOOLS = ("tql-shell", "tql-csv", "tql-cents", "tql-timeline", "tql-export")
PAGES = ("LANGUAGE", "QUESTIONS", "RECIPES", "ERRORS", "MOVING", "EVIDENCE", "KEEPING", "POSTGRESQL-FIRST-DAY", "OUTGROWING", "HOSTS")
LINK = re.compile(r"\[([^\[\]]*)\]\(([^()\s]+)\)")
RUN = re.compile(r"make run SCRIPT=([\w./-]+)")


def documents() -> dict:
    """Returns the files of the documentation, and where each is installed below share/doc/tql."""
    files = {TOP / "docs" / f"{it}.md": Path(f"{it}.md") for it in PAGES if (TOP / "docs" / f"{it}.md").exists()}
    files |= {TOP / it: Path(it) for it in ("LICENSE-APACHE", "LICENSE-MIT", "CHANGELOG.md")}
    files |= {it: Path("examples") / it.name for it in sorted((TOP / "examples").glob("*.*")) if it.suffix in (".sql", ".py", ".sh", ".c", ".rs", ".md")}
    for folder in ("recipes", "asked", "errors", "moving"):
        files |= {it: Path(folder) / it.name for it in sorted((CASES / folder).glob("*.*")) if it.suffix in (".sql", ".out")}
    return files


def relinked(file: Path, at: Path, files: dict) -> str:
    """Returns the text of a document with the links that it has where it is installed."""

    def link(found: "re.Match[str]") -> str:
        label, (path, _, anchor) = found[1], found[2].partition("#")
        if re.match(r"[a-z]+:", path) or not path:
            return found[0]
        there = files.get((file.parent / path).resolve())
        if there is None:
            return label
        return f"[{label}]({os.path.relpath(there, at.parent)}{'#' * bool(anchor)}{anchor})"

    def run(found: "re.Match[str]") -> str:
        there = files.get((TOP / found[1]).resolve())
        return f"tql {os.path.relpath(there, at.parent)}" if there else found[0]

    return RUN.sub(run, LINK.sub(link, file.read_text(encoding="utf-8")))


def installed(program: Path) -> Iterator[tuple]:
    """Yields what is installed: the path below the folder, its bytes and its mode."""
    yield Path("bin/tql"), program.read_bytes(), 0o755
    for name in TOOLS:
        yield Path("bin") / name, (TOP / "tools" / name).read_bytes(), 0o755
    yield Path("share/man/man1/tql.1"), (TOP / "docs" / "tql.1").read_bytes(), 0o644
    for name in ("tql", *TOOLS):
        yield Path("share/bash-completion/completions") / name, (TOP / "tools" / "tql.bash").read_bytes(), 0o644
    if (library.BUILD / library.FILES[0]).exists():
        for name in library.FILES[:3]:
            yield Path("lib") / name, (library.BUILD / name).read_bytes(), 0o644
        yield Path("lib/pkgconfig/tql.pc"), library.pc("../..", "lib", "include").encode(), 0o644
        yield Path("include/tql.h"), (library.C / "tql.h").read_bytes(), 0o644
    files = documents()
    for file, at in files.items():
        text = relinked(file, at, files).encode() if file.suffix == ".md" else file.read_bytes()
        yield Path("share/doc/tql") / at, text, 0o755 if os.access(file, os.X_OK) else 0o644


def main(words: list) -> int:
    if len(words) != 2:
        sys.exit(__doc__)
    program, folder = map(Path, words)
    if not os.access(program, os.X_OK) or not program.is_file():
        print(f"make install: there is no {program} yet. `make build` proves and leaves ./tql; `make quick` leaves ./tql-quick without a proof, for\n"
              "    make install TQL=./tql-quick", file=sys.stderr)
        return 2
    for path, content, mode in installed(program):
        made = folder / path
        made.parent.mkdir(parents=True, exist_ok=True)
        made.unlink(missing_ok=True)
        made.write_bytes(content)
        made.chmod(mode)
    print(f"make install: {folder / 'bin' / 'tql'}, its tools and {folder / 'share' / 'doc' / 'tql'}")
    if not (library.BUILD / library.FILES[0]).exists():
        print("make install: no library, since build/ has none; make lib proves it, make quick-lib compiles it without a proof")
    elif library.is_unproved(library.BUILD):
        print(f"make install: {folder / 'lib' / library.FILES[0]} is not proved; make lib proves it")
    return 0


if __name__ == "__main__":
    sys.exit(main(sys.argv[1:]))
