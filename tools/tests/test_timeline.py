"""Tests of tql-timeline: by the elements of its pictures, and in a browser where there is one (chromium)."""
import json
import re
import shutil
import tempfile
import unittest
import xml.etree.ElementTree as tree
from pathlib import Path

from common import CASES, TOOLS, TOP, ran, tql

ALL = "FOR SYSTEM_TIME BETWEEN TIMESTAMP '0001-01-01 00:00:00' AND TIMESTAMP '9999-12-31 23:59:59.999999'"
RATES = f"SELECT employee, cents, since, until, known_from, known_to FROM rate {ALL}"
PAY = f"SELECT employee, cents, because, since, until, known_from, known_to FROM pay {ALL}"
QUESTION = ["--money", "cents", "--as-of", "2024-03-31 12:00:00", "--on", "2024-03-15"]
SVG = "{http://www.w3.org/2000/svg}"
ROW = '{"columns":["K","V","A","B","S","E"],"rows":[[1,%s,"2024-01-01","2024-02-01","2024-01-01 00:00:00","9999-12-31 23:59:59.999999"]]}'
# Writes down what the browser made of the page: its errors, and for each version whether its texts are inside its rectangle.
PROBE = """<script>window.onerror = it => { document.title = 'error ' + it };
addEventListener('load', () => { document.title = JSON.stringify([...document.querySelectorAll('g.version')].map(group => {
  const box = group.querySelector('rect').getBoundingClientRect(), texts = [...group.querySelectorAll('text')];
  const inside = it => { const b = it.getBoundingClientRect();
    return b.left >= box.left - 1 && b.right <= box.right + 1 && b.top >= box.top - 1 && b.bottom <= box.bottom + 1 };
  return [box.width > 0 && box.height > 0, texts.every(inside), texts.map(it => it.textContent)] })) })</script>"""


def output(script: Path, query: str, acts: str = "") -> bytes:
    return ran([tql(), "-q", "--format", "json", script, "-c", f"{query};{acts}"]).stdout


def drawn(recipe: str, *words: str, query: str = RATES, acts: str = "") -> str:
    script = CASES / "recipes" / f"{recipe}.sql" if recipe != "pay" else TOP / "examples" / "pay.sql"
    return ran([TOOLS / "tql-timeline", *words], output(script, query, acts)).stdout.decode()


class Timeline(unittest.TestCase):
    def test_a_rectangle_for_each_version(self):
        for recipe in ("undo", "who", "moments", "owed"):
            versions = json.loads(output(CASES / "recipes" / f"{recipe}.sql", RATES).splitlines()[-1])["rows"]
            found = [it for it in tree.fromstring(drawn(recipe, "--svg")).iter(SVG + "g") if it.get("class") == "version"]
            self.assertEqual(len(found), len(versions), recipe)
            values = sorted(it.find(SVG + "title").text.split("\n")[1] for it in found)
            self.assertEqual(values, sorted(f"cents: {it[1]}" for it in versions), recipe)

    def test_the_answer_is_at_the_crossing(self):
        for as_of, on, wanted in (("2024-04-30 18:00:00", "2024-05-15", "22.00"), ("2024-05-30 18:00:00", "2024-05-15", "20.00"),
                                  ("2024-01-01", "2024-05-15", "no row"), ("2024-04-30 18:00:00", "2024-02-29", "20.00")):
            svg = drawn("undo", "--svg", "--money", "cents", "--as-of", as_of, "--on", on, query=RATES + " WHERE employee = 1")
            self.assertEqual([it.text for it in tree.fromstring(svg).iter(SVG + "text") if it.get("fill") == "#fff"], [wanted], as_of)

    def test_acts(self):
        page = drawn("who", acts="SELECT clerk, why, at_from FROM act")
        self.assertIn("written by: lee, rise from March on, letter 17", page)
        self.assertIn("ended by: mia, employee 2 never came", page)

    def test_no_outside_resource(self):
        self.assertIsNone(re.search(r"(src|href)=|url\((?!#)|@import", drawn("undo")))

    def test_marks_of_html(self):
        page = ran([TOOLS / "tql-timeline", "--title", "<i>"], ROW % '"<b>&"').stdout.decode()
        self.assertIn("&lt;b&gt;&amp;", page)
        self.assertIn("<title>&lt;i&gt;</title>", page)

    def test_refused(self):
        for words, given, status, part in (
                ([], "", 1, "no row"), ([], '{"columns":["A"],"rows":[]}', 1, "no row"), ([], '{"columns":["A"],"rows":[[1]]}', 2, "two columns"),
                ([], '{"statement":1,"refused":10,"text":"not a statement"}', 1, "was refused: not a statement"), ([], "A|B", 1, "--format json"),
                (["--on", "tomorrow"], ROW % 1, 2, "--on tomorrow"), (["--as-of", "2024-13-01"], ROW % 1, 2, "--as-of"),
                (["--key", "x"], ROW % 1, 2, "the columns are K, V, A, B, S, E")):
            got = ran([TOOLS / "tql-timeline", *words], given)
            self.assertEqual((got.returncode, got.stdout), (status, b""), got.stderr)
            self.assertIn(part, got.stderr.decode())

    @unittest.skipUnless(shutil.which("chromium"), "there is no chromium")
    def test_in_a_browser(self):
        for recipe, words, query, count in (("undo", ["--money", "cents"], RATES, 17), ("pay", QUESTION, PAY, 3)):
            versions = json.loads(output(TOP / "examples" / "pay.sql" if recipe == "pay" else CASES / "recipes" / "undo.sql", query).splitlines()[-1])
            with tempfile.TemporaryDirectory() as room:
                page = Path(room) / "page.html"
                page.write_text(drawn(recipe, *words, query=query).replace("</body>", f"{PROBE}</body>"), encoding="utf-8")
                words = ["chromium", "--headless", "--no-sandbox", "--disable-gpu", f"--user-data-dir={room}/user", "--dump-dom", page.as_uri()]
                title = re.search(r"<title>(.*?)</title>", ran(words, timeout=60).stdout.decode())[1]
            found = json.loads(title.replace("&amp;", "&"))
            self.assertEqual((len(found), len(versions["rows"])), (count, count))
            self.assertTrue(all(is_drawn and is_inside for is_drawn, is_inside, _ in found), found)
            shown = [texts[0] for _, _, texts in found if texts]
            self.assertLessEqual(set(shown), {f"{row[1] // 100:,}.{row[1] % 100:02}" for row in versions["rows"]})
            self.assertGreaterEqual(len(shown), count // 2)


if __name__ == "__main__":
    unittest.main()
