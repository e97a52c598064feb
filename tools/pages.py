#!/usr/bin/env python3
"""Compares the examples of the pages with the cases that the gate runs, and checks the links of all documents.

Usage: tools/pages.py [PROGRAM]        (make lint calls it without a program)

The pages are README.md, examples/README.md and, in docs/, QUESTIONS.md, RECIPES.md and ERRORS.md.

- Examples: a fenced block `sql` is a script and a fenced block `text` is its output. Both belong to the case whose .sql file was linked last
  above the block. The scripts of a case, joined, equal its .sql file without the comments at its head. The outputs, joined, equal its .out
  file. Blank lines are left out. An output in box format equals the tables of the .out file, drawn as boxes. Other blocks are `sh`, `python`,
  `c` and `console`; none has a line over 120 characters. RECIPES.md may show parts: each block is a run of whole lines of the file, after the one before.
- QUESTIONS.md: each question also has a case of its own, whose script and output end with those of the page.
- ERRORS.md: its headings are the numbers and texts of tql_value/src/refusal.rt, each once, by number. Each but E01 is in an output of the cases
  `errors`.
- MOVING.md: each whole statement in the column "Here" is in a script of the cases `moving`.
- examples/: each case of the folder `examples` has an equal copy NAME.sql there, and its row in examples/README.md.
- README.md: each time in its table is in docs/TIMES.md.
- RECIPES.md: it links each case of `recipes`, and its lines of Python are in examples/client.py.
- crates/tql/src/lib.rt: each block of its documentation is a run of lines of the program crates/embedding, but for the blanks before them.
- Links: the file of each relative link exists, and has the heading that the link names.

With a PROGRAM, README.md's script is run with --format box, and the tables of its standard output are compared with the block line by line;
and the output of examples/client.py is compared with the block `console` of RECIPES.md. The status is 1 if something differs.
"""
import re
import subprocess
import sys
from pathlib import Path
from typing import Iterator, NamedTuple

TOP = Path(__file__).resolve().parent.parent
CASES = TOP / "crates" / "test_cases" / "data" / "cases"
PAGES = ("README.md", "examples/README.md", "docs/QUESTIONS.md", "docs/RECIPES.md", "docs/ERRORS.md")
LINK = re.compile(r"\]\(([^()\s]+)\)")
FENCE = re.compile(r"^```(\w*)$")
BOX = "┌│├└"
ROWS = re.compile(r"\((\d+) rows\)")
REFUSAL = re.compile(r'"(E\d\d) ([^"]+)"')
KINDS, WIDTH = ("sql", "text", "sh", "python", "c", "console"), 120


class Block(NamedTuple):
    """A fenced block of a page: its first line's number, its kind, its lines, and the script that was linked last above it."""

    line: int
    kind: str
    lines: list[str]
    script: Path | None


def case_of(script: Path) -> Path:
    """Returns the case that a script of examples/ is a copy of, or the script itself."""
    return CASES / "examples" / script.name if script.parent == TOP / "examples" else script


def blocks(page: Path) -> Iterator[Block]:
    """Yields the fenced blocks of a page, in order."""
    script, kind, begun, lines = None, None, 0, []
    for at, line in enumerate(page.read_text(encoding="utf-8").splitlines(), 1):
        fence = FENCE.match(line)
        if kind is None:
            for target in LINK.findall(line):
                if target.endswith(".sql"):
                    script = case_of((page.parent / target).resolve())
            if fence:
                kind, begun, lines = fence[1], at + 1, []
        elif fence:
            yield Block(begun, kind, lines, script)
            kind = None
        else:
            lines.append(line)


def filled(lines: list[str]) -> list[str]:
    """Returns the lines that are not blank, without blanks at their ends."""
    return [it.rstrip() for it in lines if it.strip()]


def script_lines(lines: list[str]) -> list[str]:
    """Returns the lines of a script without the comments at its head and without blank lines."""
    kept = filled(lines)
    while kept and kept[0].startswith("--"):
        kept = kept[1:]
    return kept


def lines_of(file: Path) -> list[str]:
    """Returns the lines of a case's file; none if there is no such file."""
    return file.read_text(encoding="utf-8", errors="replace").splitlines() if file.is_file() else []


def cut(line: str) -> list[str]:
    """Returns the values of a line of a table, as they are printed. A `|` in a text is part of its value."""
    return re.split(r"\|(?=(?:[^']*'[^']*')*[^']*$)", line)


def drawn(table: list[str]) -> list[str]:
    """Returns a printed table (its headings and its rows) as a box, by the format `box`: a column is as wide as its widest value, numbers are on
    the right, and texts have no quotes."""
    headings, rows = table[0].split("|"), [cut(it) for it in table[1:]]
    shown = [[it[1:-1].replace("''", "'") if it.startswith("'") else it for it in row] for row in rows]
    widths = [max(len(it) for it in column) for column in zip(headings, *shown)]
    kinds = [next((it for it in column if it != "NULL"), "") for column in zip(*rows)] or [""] * len(headings)
    right = [re.fullmatch(r"-?\d+", it) is not None for it in kinds]
    bars = ["─" * (width + 2) for width in widths]
    lines = [" │ ".join(it.ljust(width) for it, width in zip(headings, widths))]
    lines += [" │ ".join(it.rjust(width) if is_right else it.ljust(width) for it, width, is_right in zip(row, widths, right)) for row in shown]
    head, *body = [f"│ {it} │" for it in lines]
    ends = [f"{left}{cross.join(bars)}{last}" for left, cross, last in ("┌┬┐", "├┼┤", "└┴┘")]
    return [ends[0], head, ends[1], *body, ends[2], f"({len(rows)} row{'s' if len(rows) != 1 else ''})"]


def boxes(output: list[str]) -> list[str]:
    """Returns the tables of a default output as boxes. Other replies are left out."""
    found = []
    for at, line in enumerate(output):
        count = ROWS.fullmatch(line)
        if count:
            found += drawn(output[at - int(count[1]) - 1:at])
    return found


def difference(said: list[str], wanted: list[str]) -> str:
    """Describes the first line in which a page differs from a case."""
    for page, case in zip(said, wanted):
        if page != case:
            return f"the page has {page!r}, the case {case!r}"
    more, whose = (said, "page") if len(said) > len(wanted) else (wanted, "case")
    return f"the {whose} alone has {more[min(len(said), len(wanted))]!r}"


def missing_parts(parts: list[list[str]], wanted: list[str]) -> Iterator[str]:
    """Yields the first line of each part that is no run of the lines of a file after the parts before it."""
    at = 0
    for part in map(filled, parts):
        found = next((it for it in range(at, len(wanted)) if wanted[it:it + len(part)] == part), None)
        if found is None:
            yield f"the case has no such lines at this place: {part[0]!r} .."
        else:
            at = found + len(part)


def case_faults(script: Path, texts: list[list[str]], outputs: list[list[str]], is_whole: bool) -> Iterator[str]:
    """Yields where the blocks of a page differ from the case that they belong to."""
    wanted, printed = script_lines(lines_of(script)), filled(lines_of(script.with_suffix(".out")))
    if not is_whole:
        yield from (f"{script.name}: {it}" for it in missing_parts(texts, wanted))
        yield from (f"{script.stem}.out: {it}" for it in missing_parts(outputs, printed))
        return
    said = script_lines([line for it in texts for line in it])
    if said != wanted:
        yield f"{script.name}: {difference(said, wanted)}"
    said = filled([line for it in outputs for line in it])
    if any(line[0] in BOX for line in said):
        printed = boxes(printed)
    if said != printed:
        yield f"{script.stem}.out: {difference(said, printed)}"


def example_faults(page: Path) -> Iterator[str]:
    """Yields where the examples of a page differ from their cases."""
    name, scripts, outputs = page.relative_to(TOP), {}, {}
    for block in blocks(page):
        yield from (f"{name}:{at}: {len(it)} characters, at most {WIDTH}" for at, it in enumerate(block.lines, block.line) if len(it) > WIDTH)
        if block.kind not in KINDS:
            yield f"{name}:{block.line}: a block of none of the kinds {', '.join(KINDS)}"
        elif block.kind in ("sql", "text"):
            if block.script is None:
                yield f"{name}:{block.line}: no script is linked above this example"
            else:
                (scripts if block.kind == "sql" else outputs).setdefault(block.script, []).append(block.lines)
    for script in sorted({*scripts, *outputs}):
        found = case_faults(script, scripts.get(script, []), outputs.get(script, []), page.name != "RECIPES.md")
        yield from (f"{name}: {it}" for it in found)


def recipe_faults() -> Iterator[str]:
    """Yields the cases of `recipes` that RECIPES.md does not link."""
    page = (TOP / "docs" / "RECIPES.md").read_text(encoding="utf-8")
    yield from (f"docs/RECIPES.md: no link to {it.name}" for it in sorted((CASES / "recipes").glob("*.sql")) if f"recipes/{it.name})" not in page)


def question_faults() -> Iterator[str]:
    """Yields the questions that no case of their own asks: each script of the page but the first, with the output after it."""
    found = [it for it in blocks(TOP / "docs" / "QUESTIONS.md") if it.kind in ("sql", "text")]
    alone = [(script_lines(lines_of(it)), filled(lines_of(it.with_suffix(".out")))) for it in sorted((CASES / "asked").glob("*.sql"))
             if it.stem != "page"]
    for asked, answer in list(zip(found[::2], found[1::2]))[1:]:
        question, reply = filled(asked.lines), filled(answer.lines)
        if not any(script[-len(question):] == question and output[-len(reply):] == reply for script, output in alone):
            yield f"docs/QUESTIONS.md:{asked.line}: no case of `asked` but `page` ends with this question and its answer"


def refusal_faults() -> Iterator[str]:
    """Yields what is wrong with the headings of ERRORS.md."""
    source = (TOP / "crates" / "tql_value" / "src" / "refusal.rt").read_text(encoding="utf-8")
    wanted = sorted({f"{number} {text}" for number, text in REFUSAL.findall(source)})
    page = (TOP / "docs" / "ERRORS.md").read_text(encoding="utf-8")
    said = re.findall(r"^#+ (E\d\d .*)$", page, re.M)
    if said != wanted:
        yield f"docs/ERRORS.md: {difference(said, wanted)}"
    printed = {line for file in (CASES / "errors").glob("*.out") for line in lines_of(file)}
    for text in wanted:
        if not text.startswith("E01 ") and not any(line.endswith(f"REFUSED {text}") for line in printed):
            yield f"docs/ERRORS.md: no output of the cases `errors` has {text}"


def time_faults() -> Iterator[str]:
    """Yields the times of README.md's table that docs/TIMES.md does not have."""
    times = (TOP / "docs" / "TIMES.md").read_text(encoding="utf-8")
    for time in re.findall(r"(?<=\| )[\d.,]+ [mun]?s(?= \|)", (TOP / "README.md").read_text(encoding="utf-8")):
        if f" {time} " not in times:
            yield f"README.md: docs/TIMES.md has no {time}"


def moving_faults() -> Iterator[str]:
    """Yields the statements of MOVING.md that no script of the cases `moving` has."""
    scripts = " ".join(" ".join(it.read_text(encoding="utf-8").split()) for it in sorted((CASES / "moving").glob("*.sql")))
    for at, line in enumerate((TOP / "docs" / "MOVING.md").read_text(encoding="utf-8").splitlines(), 1):
        row = line.split(" | ")
        for code in re.findall(r"`([^`]+)`", row[-1]) if line.startswith("|") else []:
            if re.match(r"(?:SELECT|INSERT INTO|UPDATE|DELETE FROM|FROM) ", code) and ".." not in code and code not in scripts:
                yield f"docs/MOVING.md:{at}: no case of `moving` has {code}"


def folder_faults() -> Iterator[str]:
    """Yields the examples that have no equal copy, or no row in the README.md of the folder."""
    rows = (TOP / "examples" / "README.md").read_text(encoding="utf-8")
    wanted = {it.name for it in (CASES / "examples").glob("*.sql")}
    copied = {it.name for it in (TOP / "examples").glob("*.sql")}
    yield from (f"examples/{it}: there is no such case" for it in sorted(copied - wanted))
    for name in sorted(wanted):
        if name not in copied or (TOP / "examples" / name).read_bytes() != (CASES / "examples" / name).read_bytes():
            yield f"examples/{name} is not equal to the case"
        if f"| [{name}]({name}) |" not in rows:
            yield f"examples/README.md: no row of {name}"


def library_faults() -> Iterator[str]:
    """Yields the examples of the library that are no lines of the example of a host, and says so if there is none."""
    host = [line.strip() for it in sorted((TOP / "crates" / "embedding" / "src").glob("*.rt")) for line in lines_of(it)]
    head = "\n".join(line[3:].strip() for line in lines_of(TOP / "crates" / "tql" / "src" / "lib.rt") if line.startswith("//!"))
    examples = [it.split("\n") for it in re.findall(r"^```text\n(.*?)\n```$", head, re.M | re.S)]
    for lines in examples:
        if not any(host[at:at + len(lines)] == lines for at in range(len(host))):
            yield f"crates/tql/src/lib.rt: crates/embedding has no such lines: {lines[0]!r} .."
    if not examples:
        yield "crates/tql/src/lib.rt: there is no example"


def anchors(document: Path) -> set[str]:
    """Returns the names by which links reach the headings of a document."""
    headings = re.findall(r"^#+ (.+)$", re.sub(r"^```.*?^```", "", document.read_text(encoding="utf-8"), flags=re.M | re.S), re.M)
    return {re.sub(r"[^\w\- ]", "", it.lower()).replace(" ", "-") for it in headings}


def link_faults(document: Path) -> Iterator[str]:
    """Yields the relative links of a document that lead nowhere."""
    for at, line in enumerate(document.read_text(encoding="utf-8").splitlines(), 1):
        for target in LINK.findall(line):
            if re.match(r"[a-z]+:", target):
                continue
            path, _, anchor = target.partition("#")
            file = (document.parent / path).resolve() if path else document
            if not file.exists():
                yield f"{document.relative_to(TOP)}:{at}: {target} leads nowhere"
            elif anchor and anchor not in anchors(file):
                yield f"{document.relative_to(TOP)}:{at}: {path or document.name} has no heading #{anchor}"


def client_faults(program: str | None) -> Iterator[str]:
    """Yields where RECIPES.md differs from examples/client.py, and from what this writes about a program, if there is one."""
    client = TOP / "examples" / "client.py"
    for block in blocks(TOP / "docs" / "RECIPES.md"):
        said = "\n".join(block.lines) + "\n"
        if block.kind == "python" and said not in client.read_text(encoding="utf-8"):
            yield f"docs/RECIPES.md:{block.line}: examples/client.py has no such lines"
        if block.kind == "console" and program is not None:
            ran = subprocess.run([str(client), program], stdout=subprocess.PIPE, text=True, encoding="utf-8", check=False)
            if ran.stdout != said:
                yield f"docs/RECIPES.md:{block.line}: examples/client.py prints {ran.stdout!r}"


def box_faults(program: str) -> Iterator[str]:
    """Yields where the output of README.md's script differs from what the program prints in box format."""
    said = [it for it in blocks(TOP / "README.md") if it.kind == "text"]
    ran = subprocess.run([program, "--format", "box", str(said[0].script)], stdout=subprocess.PIPE, text=True, encoding="utf-8", check=False)
    printed, page = ran.stdout.splitlines(), [line for it in said for line in it.lines]
    printed = [it for it in printed if it and it[0] in BOX or re.fullmatch(r"\(\d+ rows?\)", it)]
    if printed != page:
        yield f"README.md: {difference(page, printed)} (with --format box)"


def faults(documents: list[Path]) -> list[str]:
    """Returns what is wrong with the pages and with the links of these documents."""
    wrong = [it for page in PAGES for it in example_faults(TOP / page)]
    wrong += [*client_faults(None), *question_faults(), *recipe_faults(), *refusal_faults(), *time_faults(), *moving_faults(), *folder_faults(), *library_faults()]
    return wrong + [it for document in documents for it in link_faults(document)]


def main(words: list[str]) -> int:
    documents = [*sorted(TOP.glob("*.md")), TOP / "examples" / "README.md", *sorted((TOP / "docs").rglob("*.md"))]
    wrong = faults(documents) + [it for program in words for it in [*client_faults(program), *box_faults(program)]]
    print("".join(f"{it}\n" for it in wrong) + f"{len(PAGES)} pages with examples, {len(wrong)} wrong")
    return 1 if wrong else 0


if __name__ == "__main__":
    sys.exit(main(sys.argv[1:]))
