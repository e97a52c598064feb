"""Tests of tql-csv and tql-cents. What some of them make is run by the program too."""
import contextlib
import os
import pty
import re
import subprocess
import threading
import unittest

from common import TOOLS, TOP, ran, tql

INSERT = "INSERT INTO t (%s) VALUES\n"
HISTORY = ("item,cents,von,bis\n1,100,2023-01-05 08:00:00,2023-06-01 08:00:00\n1,120,2023-06-01 08:00:00,\n"
           "2,250,2023-01-05 08:00:00,2023-09-01 08:00:00\n")
VERSIONS = ["t", "--create", "--versioned", "--key", "item", "--start", "von", "--end", "bis"]
ALL = ("SELECT item, cents, known_from, known_to FROM t FOR SYSTEM_TIME "
       "BETWEEN TIMESTAMP '0001-01-01 00:00:00' AND TIMESTAMP '9999-12-31 23:59:59.999999'")
# What it shows, the file, the words, and the statements.
MADE = (
    ("plain", "a,b\n1,x\n", [], INSERT % "a, b" + "(1, 'x');\n"),
    ("no line end, CRLF", "a,b\r\n1,x\r\n2,y", [], INSERT % "a, b" + "(1, 'x'),\n(2, 'y');\n"),
    ("semicolons and a mark", b"\xef\xbb\xbfa;b\r\n1;31.12.2023\r\n", [], INSERT % "a, b" + "(1, DATE '2023-12-31');\n"),
    ("tabs", "a\tb\n1\tx,y\n", [], INSERT % "a, b" + "(1, 'x,y');\n"),
    ("UTF-16", "a\tb\r\n1\tŁ\r\n".encode("utf-16"), [], INSERT % "a, b" + "(1, 'Ł');\n"),
    ("cp1252", "a,b\n1,Zoë\n".encode("cp1252"), ["--encoding", "cp1252"], INSERT % "a, b" + "(1, 'Zoë');\n"),
    ("quotes", 'a,b\n1,"x ""y"", z\nw"\n', [], INSERT % "a, b" + "(1, 'x \"y\", z\nw');\n"),
    ("all fields in quotes", '"a","b"\n"1","x,y"\n"2","z"\n', [], INSERT % "a, b" + "(1, 'x,y'),\n(2, 'z');\n"),
    ("one quoted field of two lines", 'a\n"x\ny"\nz\n', [], INSERT % "a" + "('x\ny'),\n('z');\n"),
    ("a quote in a text", "a\nO'Neil\n", [], INSERT % "a" + "('O''Neil');\n"),
    ("a percent sign", "a,b\n5 %s,%d\n", [], INSERT % "a, b" + "('5 %s', '%d');\n"),
    ("NULL and empty", 'a,b\n,""\n', [], INSERT % "a, b" + "(NULL, '');\n"),
    ("an empty quoted field makes texts", 'a\n1\n""\n', [], INSERT % "a" + "('1'),\n('');\n"),
    ("NULL among numbers", "a,b\n1,2\n,3\n", [], INSERT % "a, b" + "(1, 2),\n(NULL, 3);\n"),
    ("leading zeros are a text", "a\n007\n12\n", [], INSERT % "a" + "('007'),\n('12');\n"),
    ("cents", 'a\n1234.50\n-0.07\n3\n"1,000.5"\n', ["--cents", "a"], INSERT % "a" + "(123450),\n(-7),\n(300),\n(100050);\n"),
    ("plain cents", "a\n1234.50\n-0.07\n0.00\n", ["--cents", "a"], INSERT % "a" + "(123450),\n(-7),\n(0);\n"),
    ("cents with commas", "a;b\n1.234,50;x\n-0,07;x\n", ["--cents", "a"], INSERT % "a, b" + "(123450, 'x'),\n(-7, 'x');\n"),
    ("decimal given", "a\n1.505\n", ["--cents", "a", "--decimal", ","], INSERT % "a" + "(150500);\n"),
    ("days by evidence", "a\n31/12/2023\n01/02/2024\n", [], INSERT % "a" + "(DATE '2023-12-31'),\n(DATE '2024-02-01');\n"),
    ("days of America", "a\n12/31/2023\n01/02/2024\n", [], INSERT % "a" + "(DATE '2023-12-31'),\n(DATE '2024-01-02');\n"),
    ("no day of the calendar is a text's", "a\n2023-02-28\nx\n", [], INSERT % "a" + "('2023-02-28'),\n('x');\n"),
    ("moments", "a\n2024-01-02T03:04:05Z\n2024-01-02 3:04\n2.1.2024 03:04:05.5\n", [],
     INSERT % "a" + "(TIMESTAMP '2024-01-02 03:04:05'),\n(TIMESTAMP '2024-01-02 03:04:00'),\n(TIMESTAMP '2024-01-02 03:04:05.500000');\n"),
    ("plain moments", "a\n2024-01-02 03:04:05\n", [], INSERT % "a" + "(TIMESTAMP '2024-01-02 03:04:05');\n"),
    ("headings", "Paid on,date,2nd\n1,2,3\n", [], INSERT % "paid_on, date_, c_2nd" + "(1, 2, 3);\n"),
    ("columns", "x,y,z\n1,2,3\n", ["--columns", "z,a=x:VARCHAR"], INSERT % "z, a" + "(3, '1');\n"),
    ("heading alone", "a,b\n", ["--create"], "CREATE TABLE t (\n  a VARCHAR(1),\n  b VARCHAR(1));\n"),
    ("empty lines", "a,b\n\n1,2\n\n", [], INSERT % "a, b" + "(1, 2);\n"),
    ("one column with NULL", "a\n1\n\n2\n", [], INSERT % "a" + "(1),\n(NULL),\n(2);\n"),
    ("a separator of Unicode in a text", "a,b\n1,x\u2028y\n", [], INSERT % "a, b" + "(1, 'x\u2028y');\n"),
    ("a blank heading", ",b\n1,2\n", [], INSERT % "c, b" + "(1, 2);\n"),
    ("at", "x,m\n2,2024-02-01 00:00:00\n1,2024-01-01\n3,2024-02-01 00:00:00\n", ["--at", "m"],
     "AT TIMESTAMP '2024-01-01 00:00:00';\nSTART TRANSACTION;\nINSERT INTO t (x) VALUES\n(1);\nCOMMIT;\n"
     "AT TIMESTAMP '2024-02-01 00:00:00';\nSTART TRANSACTION;\nINSERT INTO t (x) VALUES\n(2),\n(3);\nCOMMIT;\n"),
)
# What is wrong, the file, the words, the status, and a part of the standard error.
REFUSED = (
    ("cp1252 not given", "a,b\n1,Zoë\n".encode("cp1252"), ["t"], 1, "try --encoding cp1252"),
    ("three decimals", "a\n1.50\n1.505\n", ["t", "--cents", "a"], 1, "tql-csv: line 3: '1.505' of a is not an amount with two decimals"),
    ("an amount in two ways", "a\n1.505\n", ["t", "--cents", "a"], 1, "two ways"),
    ("both marks", "a;b\n1.50;1\n1,50;1\n", ["t", "--cents", "a"], 1, "two ways"),
    ("a day in two ways", "a\n01/02/2024\n", ["t"], 1, "--dates"),
    ("no such day", "a\n2023-02-29\n2023-02-28\n", ["t", "--columns", "a:DATE"], 1, "line 2: '2023-02-29' of a is not a DATE"),
    ("no such day, guessed", "a\n2023-02-28\n2023-02-29\n", ["t"], 1, "line 3: '2023-02-29' of a is not a DATE"),
    ("headings twice", "a b,a-b\n1,2\n", ["t"], 1, "two columns have the name a_b"),
    ("widths, each line named", "a,b\n1\n1,2\n1,2,3\n", ["t"], 1, "line 2: 1 fields, where the heading has 2\ntql-csv: line 4: 3"),
    ("widths that cancel out", "a,b\n1\n1,2,3\n", ["t"], 1, "line 2: 1 fields, where the heading has 2\ntql-csv: line 3: 3"),
    ("lines after a field of two lines", 'a,b\n1,"x\ny"\n2\n', ["t"], 1, "line 4: 1 fields"),
    ("an open quote", 'a\n"x\n', ["t"], 1, "quote that does not end"),
    ("a quote inside", 'a,b\nx"y",z\n', ["t"], 1, "line 2: a quote inside"),
    ("an even number of quotes inside", 'a,b\nx"y"z,w\n', ["t"], 1, "line 2: a quote inside"),
    ("text after a quote", 'a,b\n"x"y,z\n', ["t"], 1, "line 2: a quote inside a field, or text after"),
    ("an empty file", "", ["t"], 1, "no heading"),
    ("too large", "a\n99999999999999999999\n", ["t", "--columns", "a:INTEGER"], 1, "line 2: '99999999999999999999' of a is not an INTEGER"),
    ("a reserved table", "a\n1\n", ["date"], 2, "not a name of a table"),
    ("no such column", "a\n1\n", ["t", "--cents", "b"], 2, "b is not one of the columns a"),
    ("no such kind", "a\n1\n", ["t", "--columns", "a:TEXT"], 2, "TEXT is not one of the kinds"),
    ("nothing left", "a\n2024-01-01\n", ["t", "--at", "a"], 2, "no column is left"),
    ("a history that overlaps", HISTORY + "2,9,2023-08-01,\n", VERSIONS, 1, "line 5: its time overlaps that of line 4"),
    ("a history that runs backwards", HISTORY + "3,9,2023-08-01,2023-08-01\n", VERSIONS, 1, "line 5: its end"),
    ("a history without a key", HISTORY, ["t", "--start", "von", "--end", "bis"], 2, "--key"),
    ("a key of moments", HISTORY, ["t", "--key", "item,von", "--start", "von", "--end", "bis"], 2, "name columns of the table"),
    ("a key that is NULL", HISTORY + ",9,2023-08-01,\n", VERSIONS, 1, "line 5: its key is NULL"),
    ("finer than the clock", HISTORY + "3,9,2023-08-01 00:00:00.1234567,\n", VERSIONS, 1, "line 5"),
    ("Excel's note", "sep=;\na;b\n1;2\n", ["t"], 1, "not a heading"),
    ("lone returns", "a,b\r1,2\r", ["t"], 1, "lone carriage return"),
    ("UTF-16 without a mark", "a,b\n1,2\n".encode("utf-16-le"), ["t"], 1, "utf-16-le"),
    ("no such file", "", ["t", "nosuch.csv"], 1, "nosuch.csv: No such file"),
    ("one value of 2 MB", "a\n" + "x" * 2000000 + "\n", ["t"], 1, "is not a VARCHAR"),
    ("the 30,000th is wrong", "a,b\n" + "".join(f"{it},1\n" for it in range(29999)) + "x\n", ["t"], 1, "line 30001: 1 fields"),
)
# What is asked of the statements, and how the answer ends.
ASKED = (
    ("no;von;bis;wert\n1;01.01.2024;01.01.2025;12,50\n",
     ["t", "--create", "--versioned", "--cents", "wert", "--key", "no,von,bis", "--period", "valid=von,bis"],
     "SELECT no, von, bis, wert FROM t WHERE valid CONTAINS DATE '2024-05-05'", "1|2024-01-01|2025-01-01|1250\n(1 rows)\n"),
    (HISTORY, VERSIONS, ALL, "1|100|2023-01-05 08:00:00|2023-06-01 08:00:00\n1|120|2023-06-01 08:00:00|9999-12-31 23:59:59.999999\n"
     "2|250|2023-01-05 08:00:00|2023-09-01 08:00:00\n(3 rows)\n"),
    ("a\n" + ("x" * 60000 + "\n") * 40, ["t", "--create"], "SELECT COUNT(*) FROM t", "40\n(1 rows)\n"),
    ("a,b\n" + "".join(f"{it},é\n" for it in range(30000)), ["t", "--create", "--key", "a"], "SELECT COUNT(*), MAX(a) FROM t", "30000|29999\n(1 rows)\n"),
    ('a,b\n' + "".join(f'"{it}","é"\n' for it in range(30000)), ["t", "--create", "--key", "a"], "SELECT COUNT(*), SUM(a) FROM t", "30000|449985000\n(1 rows)\n"),
)


def shown_at_a_terminal(words: list, given: bytes) -> str:
    """Returns what a tool shows at a terminal. The terminal is read while the tool works, since a full one would stop it."""
    master, slave = pty.openpty()
    shown = []

    def read() -> None:
        with contextlib.suppress(OSError):
            while part := os.read(master, 4096):
                shown.append(part)

    reader = threading.Thread(target=read)
    with subprocess.Popen(words, stdin=subprocess.PIPE, stdout=subprocess.DEVNULL, stderr=slave) as started:
        os.close(slave)
        reader.start()
        started.communicate(given)
    reader.join()
    os.close(master)
    return b"".join(shown).decode()


class Csv(unittest.TestCase):
    def test_made(self):
        for name, data, words, wanted in MADE:
            with self.subTest(name):
                got = ran([TOOLS / "tql-csv", "t", *words], data)
                self.assertEqual((got.returncode, got.stderr, got.stdout.decode()), (0, b"", wanted))

    def test_refused(self):
        for name, data, words, status, part in REFUSED:
            with self.subTest(name):
                got = ran([TOOLS / "tql-csv", *words], data)
                self.assertIn(part, got.stderr.decode())
                self.assertEqual((got.returncode, got.stdout), (status, b""))

    def test_twenty_lines_at_most(self):
        got = ran([TOOLS / "tql-csv", "t"], "a,b,c\n" + "1\n" * 40)
        self.assertEqual([it.split(":")[1] for it in got.stderr.decode().splitlines()], [f" line {it}" for it in range(2, 22)])

    def test_asked(self):
        for data, words, query, wanted in ASKED:
            with self.subTest(query):
                made = ran([TOOLS / "tql-csv", *words], data)
                got = ran([tql(), "--bail", "-q", "-", "-c", query], made.stdout)
                self.assertEqual((made.returncode, got.returncode, got.stdout.decode().endswith(wanted)), (0, 0, True), got.stdout[-300:])

    def test_reserved_words(self):
        source = (TOP / "crates" / "tql_lex" / "src" / "reserved.rt").read_text(encoding="utf-8")
        words = set(re.findall(r'"([A-Z_]+)"', source))
        tool = (TOOLS / "tql-csv").read_text(encoding="utf-8")
        self.assertEqual(set(re.search(r'RESERVED = frozenset\("""(.*?)"""', tool, re.S)[1].split()), words)

    def test_progress_at_a_terminal_only(self):
        data = "a,b\n" + "".join(f"{it},{it * 7}.5 x\n" for it in range(1_200_000))
        self.assertRegex(shown_at_a_terminal([TOOLS / "tql-csv", "t"], data.encode()), r"^\r(tql-csv: [0-9,]+ rows (read|written)\x1b\[K\r)+\x1b\[K$")


class Cents(unittest.TestCase):
    def test_amounts(self):
        table = 'A,B\r\n123450,"x;y"\r\n-7,\r\n,z\r\n\r\nB,A\r\nq,100\r\n'
        for words, wanted in ((["--comma"], 'A;B\n1234,50;"x;y"\n-0,07;\n;z\n\nB;A\nq;1,00\n'), ([], "A,B\n1234.50,x;y\n-0.07,\n,z\n\nB,A\nq,1.00\n")):
            got = ran([TOOLS / "tql-cents", "a", *words], table)
            self.assertEqual((got.returncode, got.stdout.decode(), got.stderr), (0, wanted, b""))

    def test_refused(self):
        for words, table, part in ((["c"], "A\n1\n", "no table has C"), (["a"], "A\nx\n", "'x' is not a number of cents")):
            got = ran([TOOLS / "tql-cents", *words], table)
            self.assertEqual(got.returncode, 1)
            self.assertIn(part, got.stderr.decode())


if __name__ == "__main__":
    unittest.main()
