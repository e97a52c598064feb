"""Runs the pages docs/EVIDENCE.md, docs/KEEPING.md and docs/POSTGRESQL-FIRST-DAY.md from the top.

A block of SQL that begins with `-- NAME.sql` is that file. A block `sh` runs in the folder of these files, and prints the block `text`
that follows it. `test_pages.py --write` writes what is printed into the pages; read it before you keep it.
"""
import os
import re
import sys
import tempfile
import unittest
from pathlib import Path

from common import TOOLS, TOP, ran, tql

PAGES = ("EVIDENCE.md", "KEEPING.md", "POSTGRESQL-FIRST-DAY.md")


def played(page: Path, room: Path) -> str:
    """Returns a page with what its commands print."""
    shown = []
    for made in (Path(tql()), *TOOLS.glob("tql-*")):
        (room / ("tql" if made.parent != TOOLS else made.name)).symlink_to(made)

    def block(found: "re.Match[str]") -> str:
        kind, body = found[1], found[2]
        if kind == "sql":
            name, _, text = body.removeprefix("-- ").partition("\n")
            (room / name).write_text(text, encoding="utf-8")
        elif kind == "sh":
            told = ran(["sh", "-c", body], cwd=room, env=dict(os.environ, PATH=f"{room}:{os.environ['PATH']}"))
            shown.append(told.stdout.decode().replace("\r\n", "\n"))
        elif kind == "text":
            return f"```text\n{shown.pop()}```"
        return found[0]

    return re.sub(r"^```(\w+)\n(.*?)^```", block, page.read_text(encoding="utf-8"), flags=re.S | re.M)


class Pages(unittest.TestCase):
    def test_each_command_prints_what_the_page_says(self):
        for name in PAGES:
            with self.subTest(name), tempfile.TemporaryDirectory() as room:
                self.assertEqual((TOP / "docs" / name).read_text(encoding="utf-8"), played(TOP / "docs" / name, Path(room)))


if __name__ == "__main__":
    if sys.argv[1:] == ["--write"]:
        for it in PAGES:
            with tempfile.TemporaryDirectory() as folder:
                text = played(TOP / "docs" / it, Path(folder))
            (TOP / "docs" / it).write_text(text, encoding="utf-8")
        sys.exit()
    unittest.main()
