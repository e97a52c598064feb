#!/usr/bin/env python3
"""Prints the version, its day and the logic of the kits that it is for, and fails where a file has others.

Usage: tools/version.py [--write | --tag]        (a part of make lint)

Version and logic are those that the program prints (VERSION in crates/tql_options/src/options.rt), and the day is that of CHANGELOG.md, whose newest
release has to be this version. PLACES has the files that repeat them; --write writes them there anew. --tag prints the text of the release's tag, its
part of CHANGELOG.md: tools/version.py --tag | git tag -a v0.1.0 -F -

The status is 1 where a file has another version, day or logic, or none.
"""
import re
import sys
from pathlib import Path

TOP = Path(__file__).resolve().parent.parent
OPTIONS, CHANGES = TOP / "crates" / "tql_options" / "src" / "options.rt", TOP / "CHANGELOG.md"
PROGRAM = re.compile(r'^static VERSION: &str =\s+"(?P<version>\S+) \(for Rattle kits with logic (?P<logic>\w+);', re.M)
RELEASE = re.compile(r"^## \[(?P<version>\d\S*)\] - (?P<day>\S+)\n(?P<text>.*?)(?=^## |\Z)", re.M | re.S)
NUMBER = r"\d+\.\d+\.\d+"
# A file, what it repeats, and where: the group of each match.
PLACES = (
    ("CITATION.cff", "version", r"^version: (\S+)$"),
    ("CITATION.cff", "day", r"^date-released: (\S+)$"),
    ("docs/tql.1", "version", rf'^\.TH TQL 1 "" "tql ({NUMBER})"'),
    ("crates/tql_main/lines.txt", "version", rf"\| tql ({NUMBER}) \("),
    ("crates/tql_main/lines.txt", "logic", r"kits with logic (\w+);"),
    ("tools/tests/test_install.py", "version", rf"(?:tql[-_]|Version: )({NUMBER})"),
    ("README.md", "logic", r"shows `logic (\w+)`"),
    ("docs/PROMISES.md", "logic", r"\bsum=(\w+)"),
)


def repeated(text: str, pattern: str, value: str) -> "tuple[str, list[str]]":
    """Returns a text with a value at each place of a pattern, and what it had there."""
    had = []

    def put(found: "re.Match[str]") -> str:
        had.append(found[1])
        start, end = found.start(1) - found.start(), found.end(1) - found.start()
        return found[0][:start] + value + found[0][end:]

    return re.sub(pattern, put, text, flags=re.M), had


def tag(version: str, text: str) -> str:
    """Returns the text of a tag. A line of it that begins with # would be a comment to git."""
    return f"tql {version}\n\n" + re.sub(r"^### (.*)$", r"\1:", text.strip(), flags=re.M) + "\n"


def main(words: "list[str]") -> int:
    if words not in ([], ["--write"], ["--tag"]):
        sys.exit(__doc__)
    program = PROGRAM.search(OPTIONS.read_text(encoding="utf-8"))
    release = RELEASE.search(CHANGES.read_text(encoding="utf-8"))
    if not program or not release:
        sys.exit("tools/version.py: options.rt has no VERSION, or CHANGELOG.md has no release")
    values = {**program.groupdict(), "day": release["day"]}
    if words == ["--tag"]:
        print(tag(release["version"], release["text"]), end="")
        return 0
    wrong = [f"CHANGELOG.md: the newest release is {release['version']}"] * (release["version"] != values["version"])
    for name, what, pattern in PLACES:
        file = TOP / name
        text, had = repeated(file.read_text(encoding="utf-8"), pattern, values[what])
        others = sorted({it for it in had if it != values[what]})
        if others and words:
            file.write_text(text, encoding="utf-8")
        wrong += [f"{name}: the {what} is {', '.join(others) or 'not there'}"] * (bool(others) or not had)
    print("".join(f"{it}\n" for it in wrong) + f"version {values['version']} of {values['day']}, for kits with logic {values['logic']}; {len(wrong)} wrong")
    return 1 if wrong else 0


if __name__ == "__main__":
    sys.exit(main(sys.argv[1:]))
