#!/usr/bin/env python3
"""Checks that the documents name what exists, that their examples are those of the cases, and that lines are short enough.

Usage: tools/documents.py [--count]        (make lint)

The documents are the pages at the top, docs/*.md, docs/areas/*.md and the README.md files of crates, benches and examples. What is checked:

- Each crate that they name (tql_*, test_*) is in crates/.
- Each path from the top (crates/.., docs/.., tools/.., benches/.., examples/..), from a crate (tql_lex/src/scan.rt) or in one
  (specs/Runs.antt in the README.md of its crate) exists, and so does each file that is named (scan.rt). Words in capitals alone, as NAME, stand
  for any name.
- Each name in backticks (Engine::step) is in the sources outside of comments, or in bindings/. CHANGELOG.md and the pages of docs/ for users are left
  out: their names are those of SQL. A name tql_* may be a call of bindings/c/tql.h too.
- Each crate is in an area of crates.txt, and it and each of its modules has a comment at its head: tools/map.py prints these.
- In each line '| `Module` | 12 |' of docs/DEFINITIONS.md the number is the module's count of lines (of tql_spec, or of the named file of another
  crate). --count writes the numbers anew.
- A line of .rt and .antt has at most 120 characters, except what the formatter joins: the attributes #[tactic(..)], and in .antt up to 122.
- Each function that docs/PROOFS.md names with its file is there, with its clauses: see tools/proofs.py.
- No document has a mark of a merge that was left open.
- All documents together have at most the number of words of tools/words.py.
- Examples and links: see tools/pages.py.

The status is 1 if something is wrong.
"""
import os
import re
import sys
from pathlib import Path

sys.dont_write_bytecode = True
import map as crate_map  # noqa: E402
import pages  # noqa: E402
import proofs  # noqa: E402
import words as word_counts  # noqa: E402

TOP = Path(__file__).resolve().parent.parent
COLUMNS = {".rt": 120, ".antt": 122}
CRATE = re.compile(r"(?<![\w/.-])(?:tql|test)_[a-z_]*[a-z]\b")
# A path or the name of a file, without the mark behind it.
NAMED = re.compile(r"(?<![\w/:*+-])(?<!\w\.)(?:\.\./)*(?:[\w.+-]+/)*[\w+-]*[\w+](?:\.[\w]+)*(?<!\.)/?")
FILE = re.compile(r"\.(?:rt|antt|py|sh|md|edit)$")
# Documents whose names in backticks are those of SQL.
OF_SQL = ("CHANGELOG.md", "ERRORS.md", "EVIDENCE.md", "KEEPING.md", "LANGUAGE.md", "MOVING.md", "OUTGROWING.md", "POSTGRESQL-FIRST-DAY.md", "QUESTIONS.md", "RECIPES.md")
FOLDERS, PARTS = ("crates", "docs", "tools", "benches", "examples"), ("src", "specs", "proofs", "must-fail", "edits", "data")
ANY_NAME = re.compile(r"(?:^|/)(?:NAME|FOLDER|PATH|CRATE|EDIT|EXAMPLE)(?:[./]|$)")
# A name of the sources in backticks; the words of the sources, remarks apart; and what no source names.
QUOTED, REMARK, WORD = re.compile(r"`([A-Za-z_][\w:]*)`"), re.compile(r"^\s*(?://|--).*$", re.M), re.compile(r"[^\W_][\w◌]*|_\w+")
NO_SOURCE = {"anyhow", "awk", "sed", "sha256sum", "sqlite3", "COUNTS", "_", ""}
COUNTED = re.compile(r"^\| `([\w/.]+)` \| (\d+) \|", re.M)


def documents() -> list[Path]:
    places = ("*.md", "docs/*.md", "docs/areas/*.md", "crates/*/README.md", "benches/README.md", "examples/README.md")
    return [it for place in places for it in sorted(TOP.glob(place))]


def is_there(word: str, document: Path, files: set[str], crates: set[str]) -> bool:
    """Whether a word of a document is no path and no file's name, or one of what is there."""
    if word.startswith("../"):
        return (document.parent / word).exists()
    first, word = word.split("/")[0], word.rstrip("/")
    if ANY_NAME.search(word):
        return True
    if first in crates and "/" in word:
        word = f"crates/{word}"
        return (TOP / word).exists()
    if first in FOLDERS and "/" in word:
        return (TOP / word).exists()
    if first in PARTS and "/" in word and document.parent.parent.name == "crates":
        return (document.parent / word).exists()
    if not FILE.search(word):
        return True
    return f"/{word}" in files


def all_files() -> list[str]:
    """The paths of the files of the repository, without what a check leaves."""
    found = []
    for folder, folders, files in os.walk(TOP):
        folders[:] = [it for it in folders if it not in (".git", "out")]
        found += [os.path.relpath(os.path.join(folder, it), TOP) for it in files]
    return sorted(found)


def counted(text: str, count: bool) -> tuple[str, list[str]]:
    """The text with the true numbers of lines where they are counted, and else what is wrong with them."""
    wrong = []

    def number(found: re.Match[str]) -> str:
        name, written = found[1], int(found[2])
        file = TOP / "crates" / (name if "/" in name else f"tql_spec/specs/{name}.antt")
        true = file.read_text(encoding="utf-8").count("\n") if file.is_file() else 0
        if true != written and not count:
            wrong.append(f"docs/DEFINITIONS.md: {name} has {true} lines, not {written} (tools/documents.py --count)")
        return f"| `{name}` | {true} |"

    return COUNTED.sub(number, text), wrong


def main(words: list[str]) -> int:
    crates = {it.name for it in (TOP / "crates").iterdir() if it.is_dir()}
    paths = all_files()
    sources = {it: (TOP / it).read_text(encoding="utf-8") for it in paths if it.endswith((".rt", ".antt"))}
    files = {f"/{it.split('/', at)[at]}" for it in paths if FILE.search(it) for at in range(it.count("/") + 1)}
    named = {*NO_SOURCE, *(part for it in paths for part in [*it.split("/"), Path(it).stem])}
    for it in sources.values():
        named.update(WORD.findall(REMARK.sub("", it)))
    for it in paths:
        if it.startswith("bindings/") and it.endswith((".c", ".h", ".py", ".rs")):
            named.update(WORD.findall((TOP / it).read_text(encoding="utf-8")))
    calls = {it for it in WORD.findall((TOP / "bindings" / "c" / "tql.h").read_text(encoding="utf-8")) if it.startswith("tql_")}
    wrong, definitions = [], TOP / "docs" / "DEFINITIONS.md"
    text, found = counted(definitions.read_text(encoding="utf-8"), "--count" in words)
    wrong += found
    if "--count" in words:
        definitions.write_text(text, encoding="utf-8")
    for document in documents():
        for at, line in enumerate(document.read_text(encoding="utf-8").split("\n"), 1):
            said = f"{document.relative_to(TOP)}:{at}"
            wrong += [f"{said}: a merge was left open"] * line.startswith(("<<<<<<< ", ">>>>>>> "))
            wrong += [f"{said}: there is no crate {it}" for it in CRATE.findall(line) if it not in crates | calls]
            wrong += [f"{said}: there is no {it}" for it in NAMED.findall(line) if not is_there(it, document, files, crates)]
            if document.name not in OF_SQL:
                wrong += [f"{said}: no source names {it}" for it in QUOTED.findall(line) if not named.issuperset(it.split("::"))]
    wrong += crate_map.faults() + proofs.faults()
    for path, source in sources.items():
        most = COLUMNS[Path(path).suffix]
        for at, line in enumerate(source.split("\n"), 1):
            if len(line) > most and not line.lstrip().startswith("#[tactic("):
                wrong.append(f"{path}:{at}: {len(line)} characters, at most {most}")
    wrong += pages.faults(documents()) + word_counts.faults()
    print("".join(f"{it}\n" for it in wrong) + f"{len(documents())} documents, {len(wrong)} wrong")
    return 1 if wrong else 0


if __name__ == "__main__":
    sys.exit(main(sys.argv[1:]))
