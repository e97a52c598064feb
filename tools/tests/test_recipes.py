"""Tests of the lines of shell in docs/RECIPES.md: they run, and the one that keeps data refuses what it must."""
import os
import re
import tempfile
import unittest
from pathlib import Path

from common import CASES, TOOLS, TOP, ran, tql

BOOKS = "CREATE TABLE t (n INTEGER);\nINSERT INTO t VALUES (1);\n"
FILES = {"bank.csv": "id;amount;payee\n1;1.234,50;Łukasz\n2;-0,07;O'Neil\n", "books.sql": BOOKS, "today.sql": "INSERT INTO t VALUES (2);\n",
         "report.sql": "CREATE TABLE r (n INTEGER);\nSELECT n FROM r;\n"}


class Shell(unittest.TestCase):
    def setUp(self):
        folder = tempfile.TemporaryDirectory()
        self.addCleanup(folder.cleanup)
        self.room = Path(folder.name)
        for name, text in FILES.items():
            (self.room / name).write_text(text, encoding="utf-8")
        for case in ("recipes/stop.sql", "examples/pay.sql"):
            (self.room / Path(case).name).write_bytes((CASES / case).read_bytes())
        for made in (Path(tql()), *TOOLS.glob("tql-*")):
            (self.room / ("tql" if made.parent != TOOLS else made.name)).symlink_to(made)

    def shell(self, lines: str):
        return ran(["sh", "-e", "-c", lines], cwd=self.room, env=dict(os.environ, PATH=f"{self.room}:{os.environ['PATH']}"))

    def blocks(self) -> list[str]:
        return re.findall(r"^```sh\n(.*?)^```", (TOP / "docs" / "RECIPES.md").read_text(encoding="utf-8"), re.M | re.S)

    def test_each_block_runs(self):
        self.assertGreaterEqual(len(self.blocks()), 5)
        for block in self.blocks():
            self.assertEqual(self.shell(block).returncode, 0, block)

    def test_amounts_come_out_as_they_came_in(self):
        block = next(it for it in self.blocks() if "tql-cents" in it)
        self.assertEqual(self.shell(block).stdout.decode(), "PAYEE;AMOUNT\nO'Neil;-0,07\nŁukasz;1234,50\n")

    def test_the_picture_of_the_readme(self):
        self.shell(next(it for it in self.blocks() if "tql-timeline" in it))
        self.assertEqual((self.room / "pay.svg").read_bytes(), (TOP / "docs" / "pay.svg").read_bytes())

    def test_a_file_is_kept_only_if_it_is_whole(self):
        block = next(it for it in self.blocks() if "today.sql" in it)
        insert = "INSERT INTO t VALUES (2);\n"
        for today, is_kept in (("START TRANSACTION;\n" + insert, False), (insert + "INSERT INTO u VALUES (2);\n", False), (insert + "SELECT", False),
                               ("START TRANSACTION;\n" + insert + "COMMIT;\n", True), (insert + "-- a comment", True)):
            (self.room / "today.sql").write_text(today, encoding="utf-8")
            (self.room / "books.jn").unlink(missing_ok=True)
            got = self.shell(block)
            kept = (self.room / "books.jn").read_bytes()
            self.assertEqual((got.returncode == 0, kept.count(b"VALUES (2)")), (is_kept, int(is_kept)), today)


if __name__ == "__main__":
    unittest.main()
