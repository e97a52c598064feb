"""Tests of examples/client.py: each answer belongs to the statement that was sent."""
import sys
import tempfile
import unittest
from pathlib import Path

from common import TOP, ran, tql

ASKED = """
def told(statement):
    try:
        return ask(statement)
    except ValueError as wrong:
        return str(wrong)

for it in {statements!r}:
    answer = told(it)
    print(answer if isinstance(answer, str) else answer.get("reply") or answer.get("rows") or answer["refused"])
"""


class Client(unittest.TestCase):
    def answers(self, *statements: str) -> list[str]:
        source = (TOP / "examples" / "client.py").read_text(encoding="utf-8").partition("print(ask(")[0]
        return ran([sys.executable, "-c", source + ASKED.format(statements=statements), tql()]).stdout.decode().splitlines()

    def test_texts_that_are_not_one_statement(self):
        none = "not exactly one statement"
        for text in ("CREATE TABLE t (a INTEGER); INSERT INTO t VALUES (1)", "", " -- a comment", "SELECT 'a", 'SELECT "a', "DROP TABLE t;"):
            self.assertEqual(self.answers(text, "CREATE TABLE u (a INTEGER)"), [none, "CREATE TABLE"], text)

    def test_quotes_and_comments(self):
        texts = ("CREATE TABLE u (a VARCHAR(9))", "INSERT INTO u VALUES ('a;--''x') -- it's; one", 'SELECT a AS ";" FROM u', "DROP")
        self.assertEqual(self.answers(*texts), ["CREATE TABLE", "INSERT", "[[\"a;--'x\"]]", "10"])

    def test_the_answer_of_another_statement(self):
        source = (TOP / "examples" / "client.py").read_text(encoding="utf-8").partition("print(ask(")[0]
        with tempfile.TemporaryDirectory() as room:
            false = Path(room) / "tql"
            false.write_text("#!/bin/sh\nread line\necho '{\"statement\": 2, \"reply\": \"COMMIT\"}'\nexec cat > /dev/null\n", encoding="utf-8")
            false.chmod(0o755)
            got = ran([sys.executable, "-c", source + "ask('COMMIT')", str(false)])
        self.assertIn(b"RuntimeError: the answer is that of another statement", got.stderr)


if __name__ == "__main__":
    unittest.main()
