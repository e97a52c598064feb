"""Tests of tql-export without a server (tools/exports.py compares the answers of servers)."""
import tempfile
import unittest
from pathlib import Path

from common import TOOLS, ran, tql

SCRIPT = """-- a; comment
CREATE TABLE "Old name" (a INT);
DROP TABLE "Old name";
CREATE TABLE item (no BIGINT, "Select" VARCHAR(9) NOT NULL, price INTEGER, CONSTRAINT p CHECK (price > 0 OR "Select" = 'it''s; free'), UNIQUE (no));
CREATE TABLE item (a INTEGER);
CREATE TABLE cover (no INTEGER, s TIMESTAMP(6) WITHOUT TIME ZONE, e TIMESTAMP, PERIOD FOR runs (s, e),
  a TIMESTAMP GENERATED ALWAYS AS ROW START, z TIMESTAMP NOT NULL GENERATED ALWAYS AS ROW END NOT NULL, PERIOD FOR SYSTEM_TIME (a, z),
  PRIMARY KEY (no, runs WITHOUT OVERLAPS), FOREIGN KEY (no) REFERENCES item (no) ON DELETE NO ACTION ON UPDATE NO ACTION,
  CHECK (runs CONTAINS TIMESTAMP '2024-01-02 00:00:00')) WITH SYSTEM VERSIONING;
CREATE TABLE risk (no INTEGER, s TIMESTAMP, e TIMESTAMP, PERIOD FOR runs (s, e), FOREIGN KEY (no, PERIOD runs) REFERENCES cover (no, PERIOD runs));
INSERT INTO item VALUES (1, 'O''Neil', 5), (2, 'x', NULL);
INSERT INTO cover (no, s, e) VALUES (1, TIMESTAMP '2024-01-01 00:00:00', TIMESTAMP '2024-03-01 00:00:00');
AT TIMESTAMP '2024-02-01 00:00:00';
UPDATE cover SET e = TIMESTAMP '2024-04-01 00:00:00';
PRUNE HISTORY BEFORE TIMESTAMP '2000-01-01 00:00:00';
START TRANSACTION;
DELETE FROM cover;
"""
# What each output has.
MARIADB = (
    "-- Written by tql-export for MariaDB. Not carried over:\n",
    "--   a CHECK of cover that compares periods: ( runs CONTAINS TIMESTAMP '2024-01-02 00:00:00' )\n",
    "--   cover: 0 versions outside of 1970 to 2038; 1 that began before have 1970-01-01 00:00:01\n",
    "--   the reference with PERIOD of risk to cover\n",
    "--   history before 2000-01-01 00:00:00, which was pruned",
    'CREATE TABLE "item" (\n  "no" BIGINT,\n  "Select" VARCHAR(9) NOT NULL,\n  "price" BIGINT,\n  UNIQUE ("no"),\n'
    '  CHECK ( "price" > 0 OR "Select" = \'it\'\'s; free\' )) DEFAULT',
    '  "a" TIMESTAMP(6) GENERATED ALWAYS AS ROW START,\n  "z" TIMESTAMP(6) GENERATED ALWAYS AS ROW END,\n  PERIOD FOR "runs" ("s", "e"),\n'
    '  PERIOD FOR SYSTEM_TIME ("a", "z"),\n  PRIMARY KEY ("no", "runs" WITHOUT OVERLAPS))',
    "(1, 'O''Neil', 5),\n(2, 'x', NULL);\n",
    "(1, '2024-01-01 00:00:00', '2024-03-01 00:00:00', '1970-01-01 00:00:01', '2024-02-01 00:00:00');\n",
    "(1, '2024-01-01 00:00:00', '2024-04-01 00:00:00', '2024-02-01 00:00:00');\n",
    'ALTER TABLE "cover" ADD FOREIGN KEY ("no") REFERENCES "item" ("no");\n',
)
POSTGRESQL = (
    "--   system versioning: a change here adds no version",
    '  "runs" tsrange NOT NULL GENERATED ALWAYS AS (tsrange("s", "e")) STORED,\n  CHECK ("s" < "e"),\n'
    '  EXCLUDE USING gist ("no" WITH =, "runs" WITH &&));\n',
    '  EXCLUDE USING gist ("no" WITH =, "runs" WITH &&, system_time WITH &&));\n',
    'INSERT INTO "cover_history" ("no", "s", "e", "a", "z") VALUES\n'
    "(1, '2024-01-01 00:00:00', '2024-03-01 00:00:00', '0001-01-01 00:00:00.000001', '2024-02-01 00:00:00'),\n",
)


class Export(unittest.TestCase):
    def exported(self, script: str, to: str):
        with tempfile.TemporaryDirectory() as room:
            (Path(room) / "books.sql").write_text(script, encoding="utf-8")
            return ran([TOOLS / "tql-export", "--to", to, "--program", tql(), f"{room}/books.sql"])

    def test_what_is_written(self):
        for to, parts in (("mariadb", MARIADB), ("postgresql", POSTGRESQL)):
            got = self.exported(SCRIPT, to)
            self.assertEqual((got.returncode, got.stderr), (0, b""))
            for part in parts:
                self.assertIn(part, got.stdout.decode())
            self.assertNotIn("Old name", got.stdout.decode())

    def test_nothing_is_lost(self):
        got = self.exported("CREATE TABLE t (a INTEGER);\n", "mariadb")
        self.assertIn("Not carried over:\n--   nothing\n", got.stdout.decode())

    def test_refused(self):
        for script, part in (("CREATE TABLE t (a INTEGER)", "the last statement of the scripts has no ;"),
                             ("CREATE TABLE t (a INTEGER); INSERT INTO t VALUES ('1); DROP TABLE t;", "is a quote open?"),
                             ('CREATE TABLE log (a INTEGER); CREATE TABLE "log" (a INTEGER);', "differs from it by case"),
                             ("CREATE TABLE t (a VARCHAR(3)); INSERT INTO t VALUES ('\0');", "zero byte")):
            got = self.exported(script, "postgresql")
            self.assertEqual((got.returncode, got.stdout), (1, b""), script)
            self.assertIn(part, got.stderr.decode())

    def test_no_program(self):
        got = ran([TOOLS / "tql-export", "--to", "mariadb", "--program", "/nowhere/tql", "/dev/null"])
        self.assertEqual((got.returncode, got.stdout), (1, b""))
        self.assertIn("give --program PATH", got.stderr.decode())


if __name__ == "__main__":
    unittest.main()
