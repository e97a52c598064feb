"""Runs scripts through the module, and compares each answer with the JSON that the program wrote.

Usage: try_cases.py CASES ANSWERS        (tools/hosts.py calls it)

CASES is a folder of scripts, and ANSWERS one with the program's output by `--format json` for each, under the same name with the suffix .json.
Compared are the words and the count of a reply; the headings of a table, and each cell as a value of Python; the number, text, line, column, detail,
hint, constraint, columns and row of a refusal."""
import datetime
import json
import sys
from pathlib import Path

sys.path.insert(0, str(Path(__file__).resolve().parent.parent))
import tql  # noqa: E402


def plain(value: object) -> object:
    """Returns a cell as JSON has it."""
    if isinstance(value, datetime.datetime):
        return value.isoformat(sep=" ")
    return value.isoformat() if isinstance(value, datetime.date) else value


def by_module(script: bytes) -> list:
    """Returns the answers to a script."""
    answers = []
    with tql.connect() as db:
        for it in db.cursor()._answers(script):
            if isinstance(it, tql.DatabaseError):
                answer = {"line": it.line, "refused": it.number, "text": it.text}
                for name in ("column", "detail", "hint", "constraint", "columns", "row"):
                    if getattr(it, name):
                        answer[name] = list(it.columns) if name == "columns" else getattr(it, name)
            elif it._names is not None:
                answer = {"columns": it._names, "rows": [[plain(cell) for cell in row] for row in it.fetchall()]}
            else:
                answer = {"reply": tql._c.tql_words(db._engine).decode()}
                if it.rowcount >= 0:
                    answer["count"] = it.rowcount
            answers.append(answer)
    return answers


def by_program(file: Path) -> list:
    """Returns the answers in a file."""
    answers = [json.loads(line) for line in file.read_text(encoding="utf-8").split("\n") if line]
    for it in answers:
        it.pop("statement")
        it.pop("kinds", None)
        if "refused" not in it:
            it.pop("line")
    return answers


def main(folder: Path, answers: Path) -> int:
    scripts, wrong, count = sorted(folder.rglob("*.sql")), 0, 0
    for script in scripts:
        got, wanted = by_module(script.read_bytes()), by_program((answers / script.relative_to(folder)).with_suffix(".json"))
        count += len(got)
        if got != wanted:
            wrong += 1
            at = next((at for at, (one, other) in enumerate(zip(got, wanted)) if one != other), min(len(got), len(wanted)))
            print(f"{script.relative_to(folder)}, answer {at + 1}: {got[at:at + 1]}, not {wanted[at:at + 1]}"[:600])
    print(f"by Python: {len(scripts)} cases, {count} answers, {wrong} cases wrong")
    return 1 if wrong or not scripts else 0


if __name__ == "__main__":
    sys.exit(main(*map(Path, sys.argv[1:])))
