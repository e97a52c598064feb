#!/usr/bin/env python3
"""Tries the C library and the bindings: the examples, wrong use, all cases, and the tests of the Python module and of the Rust crate.

Usage: tools/hosts.py [PROGRAM]        (a part of make lines)

- The library has the calls of tql.h and no others, and the Python module declares the same.
- bindings/c/tests/wrong.c, and ten thousand engines that are opened and closed, which leave no memory behind.
- bindings/c/tests/cases.c: each script of crates/test_cases gives the JSON that the program writes, fed in parts of 65,536 bytes, every 25th also in
  parts of 7. Where valgrind is there, every 25th script and wrong.c run without an error or a leak.
- The tests of bindings/python, and all scripts through the module; pip installs it, if it is there. The tests of bindings/rust, if cargo is there.
- The examples of README.md and docs/HOSTS.md print what they say, and so examples/host.c, host.py and host.rs the same lines.

PROGRAM is as tools/quick.py finds it. The library is that of TQL_LIB_DIR, or the one in build/ if it is new, or is made by make quick-lib first.
"""
import os
import re
import shutil
import subprocess
import sys
import tempfile
from concurrent.futures import ThreadPoolExecutor
from pathlib import Path
from typing import Iterator

sys.dont_write_bytecode = True

import library
import quick

TOP = quick.TOP
C, PYTHON, RUST = (TOP / "bindings" / it for it in ("c", "python", "rust"))
CASES = TOP / "crates" / "test_cases" / "data" / "cases"
SAID = "E35, row 1, ONE_RATE\n2024-03-31 12:00:00: 250000\n2024-04-30 12:00:00: 265000\n"
WARNINGS = ("-std=c11", "-Wall", "-Wextra", "-Wpedantic", "-Werror", "-O1", "-g", "-pthread")
EVERY = 25
# What the examples of README.md print.
README = {"python": "duplicate key\nAda 250000\n", "c": "E35 duplicate key\nAda\n"}


class Trials:
    """Trials of a library, in a folder of their own, and how many went wrong."""

    def __init__(self, program: str, libraries: Path, room: Path) -> None:
        self.program, self.libraries, self.room, self.count, self.wrong = program, libraries, room, 0, 0
        self.shared = libraries / "libtql.so.0"
        self.scripts = sorted(CASES.rglob("*.sql"))

    def told(self, name: str, got, wanted) -> None:
        """Counts a trial, and prints it if it went wrong."""
        self.count += 1
        if got != wanted:
            self.wrong += 1
            print(f"{name}: {str(got)[-1500:]}, not {str(wanted)[:300]}")

    def run(self, words: list, cwd: Path = TOP, **more) -> "tuple[int, str]":
        """Runs a command, and returns its status and what it wrote."""
        env = {it: value for it, value in os.environ.items() if it not in ("PYTHONPATH", "TQL_LIBRARY")}
        env |= {it: str(value) for it, value in more.items()}
        ran = subprocess.run(list(map(str, words)), cwd=cwd, env=env, stdin=subprocess.DEVNULL, stdout=subprocess.PIPE, stderr=subprocess.STDOUT,
                             encoding="utf-8", errors="replace", check=False)
        return ran.returncode, ran.stdout

    def compiled(self, source: Path, *objects: object) -> Path:
        """Compiles a program of C over the shared library, or over these objects."""
        made = self.room / (source.stem + "-static" * bool(objects))
        with_library = objects or (f"-L{self.libraries}", "-ltql", f"-Wl,-rpath,{self.libraries}")
        self.told(f"{source.name}, compiled", self.run([library.compiler(), *WARNINGS, f"-I{C}", source, "-o", made, *with_library]), (0, ""))
        return made

    def declared(self) -> None:
        """The calls of tql.h are those of the library and of the Python module; it is a header of C++ too."""
        text = (C / "tql.h").read_text(encoding="utf-8")
        named = sorted(re.findall(r"^[a-z].*?\*?\b(tql_\w+)\(", text, re.M))
        exported = self.run(["nm", "-D", "--defined-only", self.shared])[1]
        self.told("the calls of the library", sorted(re.findall(r" T (\w+)@@TQL_0$", exported, re.M)), named)
        exported = self.run(["nm", "-g", "--defined-only", self.libraries / "libtql.a"])[1]
        self.told("the calls of the archive", sorted(re.findall(r" T (\w+)$", exported, re.M)), named)
        module = (PYTHON / "tql" / "_library.py").read_text(encoding="utf-8")
        self.told("the calls of the module", sorted(re.findall(r'^    "(tql_\w+)"', module, re.M)), named)
        if shutil.which("g++"):
            self.told("tql.h in C++", self.run(["g++", "-Wall", "-Wextra", "-Werror", "-fsyntax-only", "-x", "c++", C / "tql.h"]), (0, ""))

    def pages(self) -> None:
        """The examples of the pages print what they say: one of sh is run in a folder that looks like the repository, with the library in build/."""
        place, build, python = self.room / "top", self.room / "top" / "build", {"PYTHONPATH": PYTHON, "TQL_LIBRARY": self.shared}
        build.mkdir(parents=True)
        for it in ("bindings", "examples"):
            (place / it).symlink_to(TOP / it)
        for it in library.FILES:
            shutil.copy(self.libraries / it, build / it)
        found = list(blocks(TOP / "README.md"))
        for kind, text in found:
            if kind == "python":
                self.told("README.md, Python", self.run([sys.executable, "-B", "-c", text], **python), (0, README[kind]))
            if kind == "c":
                (self.room / "readme.c").write_text(text, encoding="utf-8")
                self.told("README.md, C", self.run([self.compiled(self.room / "readme.c")]), (0, README[kind]))
        self.told("the examples of README.md", [kind for kind, _ in found if kind in README], list(README))
        found = list(blocks(TOP / "docs" / "HOSTS.md"))
        for (kind, text), (_, wanted) in zip(found, [*found[1:], ("", "")]):
            if kind == "python":
                self.told("docs/HOSTS.md, Python", self.run([sys.executable, "-B", "-c", text], **python), (0, wanted))
            for line in text.splitlines() if kind == "sh" else []:
                if "cargo" not in line or shutil.which("cargo"):
                    words = ["sh", "-c", re.sub(r"^cc\b", library.compiler(), line)]
                    self.told(f"docs/HOSTS.md: {line}", self.run(words, place, PYTHONDONTWRITEBYTECODE=1), (0, SAID))
        self.told("the examples of docs/HOSTS.md", [kind for kind, _ in found], ["sh", "python", "text", "python", "text"])
        self.told("host.c, static", self.run([self.compiled(TOP / "examples" / "host.c", self.libraries / "libtql.a")]), (0, SAID))

    def wrong_use(self) -> None:
        """Wrong use is reported."""
        made = self.compiled(C / "tests" / "wrong.c")
        for words, name in (([], "wrong.c"), (self.checker(), "wrong.c by valgrind")):
            if words or name == "wrong.c":
                status, said = self.run([*words, made, "100" if words else "1"])
                self.told(name, (status, said if status else re.sub(r"\d+", "N", said)), (0, "N checks, N failed\n"))

    def checker(self) -> list:
        """Returns the words of valgrind, if it is there."""
        found = shutil.which("valgrind")
        return [found, "-q", "--leak-check=full", "--errors-for-leak-kinds=definite,possible", "--error-exitcode=9"] if found else []

    def answers(self) -> None:
        """Keeps the answers of the program to each script."""

        def answer(script: Path) -> None:
            made = self.room / "answers" / script.relative_to(CASES).with_suffix(".json")
            made.parent.mkdir(parents=True, exist_ok=True)
            with script.open("rb") as given, made.open("wb") as written:
                subprocess.run([self.program, "--format", "json", "-q"], stdin=given, stdout=written, stderr=subprocess.DEVNULL, check=False)

        with ThreadPoolExecutor(max(1, min(4, os.cpu_count() or 1))) as pool:
            list(pool.map(answer, self.scripts))

    def by_c(self) -> None:
        """The library answers each script as the program does."""
        made, some = self.compiled(C / "tests" / "cases.c"), self.scripts[::EVERY]
        checker = self.checker()
        trials = [("65536", [], self.scripts), ("7", [], some), *([("65536", checker, some)] if checker else [])]
        for part, words, scripts in trials:
            status, said = self.run([*words, made, part, *scripts])
            found = dict(it.partition("\n")[::2] for it in re.split("^== ", said, flags=re.M)[1:])
            self.told(f"cases.c {part} {words[:1]}", (status, len(found)), (0, len(scripts)))
            for it in scripts:
                wanted = (self.room / "answers" / it.relative_to(CASES).with_suffix(".json")).read_text(encoding="utf-8", errors="replace")
                wanted = re.sub(r'^\{"statement": \d+', '{"statement": 1', wanted, flags=re.M)
                self.told(f"{it.name} by cases.c {part} {words[:1]}", found.get(str(it)), wanted)

    def by_python(self) -> None:
        """The tests of the module pass, each script is answered as by the program, and pip installs it with the library."""
        tests = self.run([sys.executable, "-m", "unittest", "-q", "tests.test_dbapi"], PYTHON, TQL_LIBRARY=self.shared, PYTHONDONTWRITEBYTECODE=1)
        self.told("the tests of the module", (tests[0], tests[1] if tests[0] else ""), (0, ""))
        cases = self.run([sys.executable, PYTHON / "tests" / "try_cases.py", CASES, self.room / "answers"], TQL_LIBRARY=self.shared, PYTHONDONTWRITEBYTECODE=1)
        print(cases[1], end="")
        self.told("the cases by the module", cases[0], 0)
        if self.run([sys.executable, "-m", "pip", "--version"])[0] == 0:
            words = [sys.executable, "-m", "pip", "install", "-q", "--no-index", "--no-deps", "--target", self.room / "site", PYTHON]
            how = {"TQL_LIBRARY": self.shared, "PIP_ROOT_USER_ACTION": "ignore", "PIP_DISABLE_PIP_VERSION_CHECK": 1, "PYTHONDONTWRITEBYTECODE": 1}
            self.told("pip", self.run(words, **how), (0, ""))
            self.told("host.py, installed", self.run([sys.executable, TOP / "examples" / "host.py"], PYTHONPATH=self.room / "site"), (0, SAID))

    def by_rust(self) -> None:
        """The tests of the crate pass."""
        if shutil.which("cargo"):
            words = ["cargo", "test", "--offline", "--locked", "--quiet", "--manifest-path", RUST / "Cargo.toml", "--target-dir", self.room / "target"]
            status, said = self.run(words, TQL_LIB_DIR=self.libraries, CARGO_INCREMENTAL=0)
            self.told("cargo test", (status, said if status else ""), (0, ""))


def blocks(page: Path) -> "Iterator[tuple[str, str]]":
    """Yields the fenced blocks of a page: the kind and the text of each."""
    for found in re.finditer(r"^```(\w+)\n(.*?)^```$", page.read_text(encoding="utf-8"), re.M | re.S):
        yield found[1], found[2]


def folder() -> Path:
    """Returns the folder of the library that is tried."""
    if "TQL_LIB_DIR" in os.environ:
        return Path(os.environ["TQL_LIB_DIR"]).resolve()
    if library.main(["--quick", "--silent"]):
        sys.exit("tools/hosts.py: there is no library")
    return library.BUILD


def wrong(program: str) -> int:
    """Returns how many trials of a program differ."""
    with tempfile.TemporaryDirectory(prefix="tql-hosts-") as room:
        trials = Trials(program, folder(), Path(room))
        for it in (trials.declared, trials.pages, trials.wrong_use, trials.answers, trials.by_c, trials.by_python, trials.by_rust):
            it()
        print(f"{trials.count} trials of the library and its bindings, {trials.wrong} wrong")
        return trials.wrong


if __name__ == "__main__":
    if len(sys.argv) > 2:
        sys.exit(__doc__)
    sys.exit(int(wrong(str(Path(sys.argv[1]).resolve()) if sys.argv[1:] else str(Path(quick.program()).resolve())) > 0))
