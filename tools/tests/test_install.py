"""Tests of make install and make package: what is there, that no link is dead, and that twice the same gives the same bytes."""
import hashlib
import io
import os
import re
import shutil
import subprocess
import tarfile
import tempfile
import unittest
from pathlib import Path

from common import CASES, TOP, ran, tql
import library

TOOLS = ("tql-csv", "tql-cents", "tql-timeline", "tql-export", "tql-shell")
DOCUMENTS = ("LANGUAGE", "QUESTIONS", "RECIPES", "ERRORS", "MOVING", "EVIDENCE", "KEEPING", "POSTGRESQL-FIRST-DAY", "OUTGROWING", "HOSTS")
LINK = re.compile(r"\]\(([^()\s#]+)(?:#[^()\s]*)?\)")
# What is typed, and what completes the last word.
COMPLETED = (
    ("tql --pl", ["--plans"]), ("tql --format js", ["json", "jsonl"]), ("tql-export --to m", ["mariadb"]), ("/usr/bin/tql-csv --dec", ["--decimal"]),
    ("tql-csv --dates ", ["dmy", "mdy"]), ("tql examples/pa", ["examples/pay.sql", "examples/payroll.sql"]), ("tql -c exa", []),
)


def made(target: str, *words: str) -> subprocess.CompletedProcess:
    return ran(["make", "-s", target, *words], cwd=TOP)


class Install(unittest.TestCase):
    def setUp(self):
        folder = tempfile.TemporaryDirectory()
        self.addCleanup(folder.cleanup)
        self.room = Path(folder.name)

    def test_nothing_without_a_program(self):
        got = made("install", f"TQL={self.room}/none", f"DESTDIR={self.room}")
        self.assertEqual((got.returncode, list(self.room.iterdir())), (2, []))
        self.assertIn(b"make install TQL=./tql-quick", got.stderr)

    def test_what_is_there(self):
        self.assertEqual(made("install", f"TQL={tql()}", f"DESTDIR={self.room}", "PREFIX=/usr").returncode, 0)
        below, share = self.room / "usr", self.room / "usr" / "share"
        self.assertEqual((below / "bin" / "tql").read_bytes(), Path(tql()).read_bytes())
        self.assertEqual(sorted(it.name for it in (below / "bin").iterdir() if os.access(it, os.X_OK)), sorted(["tql", *TOOLS]))
        self.assertEqual((share / "man/man1/tql.1").read_bytes(), (TOP / "docs/tql.1").read_bytes())
        self.assertTrue({"LICENSE-APACHE", "LICENSE-MIT", *(f"{it}.md" for it in DOCUMENTS)} <= {it.name for it in (share / "doc/tql").iterdir()})
        for script in ("recipes/undo.sql", "examples/pay.sql"):
            self.assertEqual((share / "doc/tql" / script).read_bytes(), (CASES / script).read_bytes())
        self.assertEqual({it.name for it in (share / "bash-completion/completions").iterdir()}, {"tql", *TOOLS})

    def test_the_library(self):
        self.assertEqual(library.main(["--quick", "--silent"]), 0)
        self.assertEqual(made("install", f"TQL={tql()}", f"DESTDIR={self.room}", "PREFIX=/usr").returncode, 0)
        lib = self.room / "usr" / "lib"
        self.assertEqual({it.name for it in lib.iterdir()}, {"libtql.so.0", "libtql.so", "libtql.a", "pkgconfig"})
        self.assertFalse(any(it.is_symlink() for it in [*lib.iterdir(), *library.BUILD.iterdir()]))
        if shutil.which("pkg-config"):
            for place, words in ((lib / "pkgconfig", []), (library.BUILD, []), (lib / "pkgconfig", ["-static"])):
                flags = ran(["pkg-config", "--cflags", "--libs", "tql"], env={**os.environ, "PKG_CONFIG_PATH": str(place)}).stdout.decode().split()
                got = ran([library.compiler(), TOP / "examples/host.c", "-o", self.room / "host", *flags, *words])
                self.assertEqual((got.returncode, got.stderr), (0, b""))
                got = ran([self.room / "host"], env={"LD_LIBRARY_PATH": str(place.parent if place != library.BUILD else place)})
                self.assertTrue(got.stdout.startswith(b"E35, row 1, ONE_RATE\n"), got)

    def test_no_link_is_dead(self):
        made("install", f"TQL={tql()}", f"DESTDIR={self.room}", "PREFIX=")
        pages, count = list(self.room.rglob("*.md")), 0
        for page in pages:
            for target in LINK.findall(page.read_text(encoding="utf-8")):
                count += 1
                self.assertTrue(re.match("[a-z]+:", target) or (page.parent / target).exists(), f"{page.name}: {target}")
        self.assertGreater(count, 50)
        self.assertIn("`tql recipes/gaps.sql`", (self.room / "share/doc/tql/RECIPES.md").read_text(encoding="utf-8"))

    def test_completions(self):
        for typed, wanted in COMPLETED:
            words = typed.split(" ")
            script = (f"source tools/tql.bash; COMP_WORDS=({' '.join(words[:-1])} '{words[-1]}'); COMP_CWORD={len(words) - 1}; "
                      f"_tql {words[0]}; printf '%s\\n' \"${{COMPREPLY[@]}}\"")
            got = ran(["bash", "-c", script], cwd=TOP)
            self.assertEqual((sorted(filter(None, got.stdout.decode().split("\n"))), got.stderr), (wanted, b""), typed)


class Package(unittest.TestCase):
    def test_twice_the_same_bytes(self):
        found = []
        for _ in range(2):
            with tempfile.TemporaryDirectory() as room:
                self.assertEqual(ran([TOP / "tools/package.py", tql(), room]).returncode, 0)
                found.append({it.name: it.read_bytes() for it in Path(room).iterdir()})
        self.assertEqual(*found)
        archive, package = found[0]["tql-0.1.0-linux-x86_64.tar.gz"], found[0]["tql_0.1.0_amd64.deb"]
        for name in ("tql-0.1.0-linux-x86_64.tar.gz", "tql_0.1.0_amd64.deb"):
            self.assertIn(f"{hashlib.sha256(found[0][name]).hexdigest()}  {name}\n", found[0]["SHA256SUMS"].decode())
        with tempfile.TemporaryDirectory() as room:
            tarfile.open(fileobj=io.BytesIO(archive)).extractall(room)
            checked = ran(["sha256sum", "-c", "--quiet", "SHA256SUMS"], cwd=f"{room}/tql-0.1.0-linux-x86_64")
            self.assertEqual((checked.returncode, checked.stdout), (0, b""))
            if shutil.which("dpkg-deb"):
                (Path(room) / "tql.deb").write_bytes(package)
                self.assertEqual(ran(["dpkg-deb", "-x", f"{room}/tql.deb", f"{room}/root"]).returncode, 0)
                self.assertEqual(ran(["dpkg-deb", "-f", f"{room}/tql.deb", "Package", "Version"]).stdout, b"Package: tql\nVersion: 0.1.0\n")
                self.assertEqual((Path(room) / "root/usr/bin/tql").read_bytes(), Path(tql()).read_bytes())

    def test_no_program(self):
        got = made("package", "TQL=./none")
        self.assertEqual(got.returncode, 2)
        self.assertIn(b"TQL=./tql-quick", got.stderr)


if __name__ == "__main__":
    unittest.main()
