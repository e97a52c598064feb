#!/usr/bin/env python3
"""Tries the program where what it reads or writes fails, where memory or the stack is short, and on statements at each limit. Outside the gate.

Usage: tools/devices.py        (make try-devices; first: make build or make quick)

Each line that it prints is a trial: what was tried, the status, and `ok` or what was wanted. A program that dies by a signal is wrong wherever
it does. The status is 1 where one is wrong.
"""
import os
import resource
import subprocess
import sys
import tempfile
from pathlib import Path

sys.dont_write_bytecode = True

from quick import program

TOP = Path(__file__).resolve().parent.parent
PROGRAM = program()
ROWS = "CREATE TABLE t (x INTEGER, y VARCHAR(40));\n" + "".join(
    "INSERT INTO t VALUES " + ", ".join(f"({i * 1000 + j}, 'a text of some length')" for j in range(1000)) + ";\n" for i in range(100))
TABLE = ROWS + "SELECT * FROM t;\n"
# The stack, in KiB, with which all long and deep statements have to be answered.
STACK = 256
wrong = 0


def told(what: str, status: int, fits: bool, wanted: str) -> None:
    """One line of a trial."""
    global wrong
    wrong += not fits
    print(f"{what}: status {status}, {'ok' if fits else 'WRONG, wanted ' + wanted}", flush=True)


def limited(kind: int, bytes_: int):
    """What sets a limit in the child."""
    return lambda: resource.setrlimit(kind, (bytes_, bytes_))


def run(words: list[str], script: str = "", **more) -> subprocess.CompletedProcess:
    """The program run on a script on its standard input."""
    more.setdefault("stdout", subprocess.PIPE)
    return subprocess.run([PROGRAM, *words], input=script.encode(), stderr=subprocess.PIPE, timeout=300, check=False, **more)


def outputs(room: Path) -> None:
    """The standard output closed, full, and left in the middle of a table."""
    ran = run([], TABLE, stdout=None, preexec_fn=lambda: os.close(1))
    told("the standard output is closed", ran.returncode, ran.returncode == 3 and b"tql: cannot write" in ran.stderr, "3, and that it cannot write")
    with open("/dev/full", "wb") as full:
        ran = run([], TABLE, stdout=full)
    told("the device is full", ran.returncode, ran.returncode == 3 and b"tql: cannot write" in ran.stderr, "3, and that it cannot write")
    (room / "table.sql").write_text(TABLE, encoding="utf-8")
    started = subprocess.Popen([PROGRAM, str(room / "table.sql")], stdout=subprocess.PIPE, stderr=subprocess.PIPE)
    started.stdout.read(100000)
    started.stdout.close()
    said = started.stderr.read()
    status = started.wait(60)
    told("the reader goes away in the middle of a table", status, status == 3 and b"tql: cannot write" in said, "3, and that it cannot write")


def inputs(room: Path) -> None:
    """A script that is a folder, one that may not be read, and one that shrinks while it is read."""
    ran = run([str(room)])
    told("the script is a folder", ran.returncode, ran.returncode == 3 and b"tql: cannot read" in ran.stderr, "3, and that it cannot read")
    secret = room / "secret.sql"
    secret.write_text("COMMIT;\n", encoding="utf-8")
    secret.chmod(0)
    room.chmod(0o755)
    ran = run([str(secret)], preexec_fn=(lambda: os.setuid(65534)) if os.getuid() == 0 else None)
    told("the script may not be read", ran.returncode, ran.returncode == 3 and b"tql: cannot read" in ran.stderr, "3, and that it cannot read")
    shrinking = room / "shrinking.sql"
    shrinking.write_text(TABLE * 20, encoding="utf-8")
    started = subprocess.Popen([PROGRAM, str(shrinking)], stdout=subprocess.PIPE, stderr=subprocess.DEVNULL)
    got = started.stdout.read(100)
    os.truncate(shrinking, 70000)
    got += started.stdout.read()
    status = started.wait(300)
    told("the script shrinks while it is read", status, status in (0, 1, 3) and got.startswith(b"CREATE TABLE\n"), "0, 1 or 3")


def memory(room: Path) -> None:
    """A script that grows, under ten limits of memory."""
    script = "CREATE TABLE t (x INTEGER);\n" + "INSERT INTO t VALUES (1), (2), (3), (4);\n" + "INSERT INTO t SELECT * FROM t;\n" * 22 + "SELECT COUNT(*) FROM t;\n"
    for size in (8, 12, 16, 24, 32, 48, 64, 96, 128, 192):
        ran = run([], script, preexec_fn=limited(resource.RLIMIT_AS, size << 20))
        refused = ran.stdout.count(b"E01")
        told(f"{size} MiB of memory ({refused} statements refused)", ran.returncode, ran.returncode in (0, 1, 3), "0, 1 or 3")


def nested(front: str, inside: str, back: str = ")", depth: int = 64) -> str:
    """A form inside itself."""
    return front * depth + inside + back * depth


def deep() -> dict[str, str]:
    """The forms that call themselves deepest: 64 parentheses, and in each a list of every kind, a NOT and a sign."""
    both = nested("(x = 0 OR x = 1 AND NOT ", "(x = 1)", " AND x = 1 OR x = 2)", 63)
    signed = nested("-(1 + 0 * ", "x", " * 1 - 1)")
    mixed = nested("(x = 0 OR x = 1 AND NOT ", "x + 1 > " + nested("-(0 * ", "x", " + 1)", 32), " OR x = 2)", 32)
    return {
        "64 parentheses": "SELECT " + nested("(", "1") + " FROM t;",
        "64 parentheses, each with a sign and lists": f"SELECT {signed} FROM t;",
        "64 parentheses of conditions": "SELECT x FROM t WHERE " + nested("(NOT ", "x = 1") + ";",
        "64 parentheses of conditions, each with lists": f"SELECT x FROM t WHERE {both};",
        "32 of conditions and 32 of numbers in them": f"SELECT x FROM t WHERE {mixed};",
        "the same in ON": f"SELECT t.x FROM t LEFT JOIN t u ON {both.replace('x', 'u.x')};",
        "the same in HAVING": f"SELECT x FROM t GROUP BY x HAVING {both};",
        "the same in UPDATE": f"UPDATE t SET x = {nested('-(0 * ', 'x', ' + 1)')} WHERE {both};",
        "the same in DELETE": f"DELETE FROM t WHERE {both};",
        "the same in a CHECK": f"CREATE TABLE u (x INTEGER, CHECK ({nested('(x = 0 OR x = 1 AND NOT ', '(x = 1)', ' OR x = 2)', 61)}));\n"
                               "INSERT INTO u VALUES (1);\nDROP TABLE u;",
        "in an aggregate": f"SELECT SUM({nested('-(1 + 0 * ', 'x', ' * 1 - 1)', 63)}) FROM t;",
        "in IN and BETWEEN": f"SELECT x FROM t WHERE x IN ({nested('(', 'x', ')', 63)}) AND x BETWEEN {nested('(', 'x')} AND {nested('(', 'x')};",
        "in PERIOD": "SELECT x FROM t WHERE PERIOD (" + nested("(", "DATE '2011-01-01'", ")", 63) + ", " + nested("(", "DATE '2011-01-02'", ")", 63)
                     + ") CONTAINS DATE '2011-01-01';",
        "65 parentheses": "SELECT x FROM t WHERE " + nested("(NOT ", "x = 1", ")", 65) + ";",
        "a million open parentheses": "SELECT " + "(" * 1000000 + " FROM t;",
        "20,000 closed versions": "CREATE TABLE h (x INTEGER, s TIMESTAMP GENERATED ALWAYS AS ROW START, e TIMESTAMP GENERATED ALWAYS AS ROW END, "
                                  "PERIOD FOR SYSTEM_TIME (s, e)) WITH SYSTEM VERSIONING;\nINSERT INTO h VALUES (0);\n" + "UPDATE h SET x = x + 1;\n" * 20000
                                  + "SELECT x FROM h FOR SYSTEM_TIME AS OF TIMESTAMP '0001-01-01 00:00:00.005';",
    }


def passes(statement: str, stack_: int) -> tuple[int, bool]:
    """The status of a run with so many KiB of stack, and whether the statement and one behind it were answered."""
    ran = run([], f"CREATE TABLE t (x INTEGER);\nINSERT INTO t VALUES (1);\n{statement}\nSELECT COUNT(*) FROM t;\n",
              preexec_fn=limited(resource.RLIMIT_STACK, stack_ << 10))
    has_ended = not statement.endswith(";") or ran.stdout.endswith(b" rows)\n")
    return ran.returncode, ran.returncode in (0, 1) and ran.stdout.startswith(b"CREATE TABLE\nINSERT 1\n") and has_ended


def least_stack(room: Path) -> None:
    """The least stack with which all forms of `deep` are answered; 8 MiB is what most systems give."""
    for size in (64, 96, 128, 192, 256, 384, 512, 768, 1024, 2048, 4096, 8192):
        if all(passes(it, size)[1] for it in deep().values()):
            told(f"the deepest forms are answered with a stack of {size} KiB", 0, size <= STACK, f"{STACK} KiB or less")
            return
    told("the deepest forms", 1, False, "answers with a stack of 8 MiB")


def stack(room: Path) -> None:
    """Long and deep statements with a short stack."""
    long = {
        **deep(),
        "a condition of 50,000 terms": "SELECT x FROM t WHERE x = 0" + " OR x = 1" * 50000 + ";",
        "IN of 100,000": "SELECT x FROM t WHERE x IN (0" + ", 1" * 100000 + ");",
        "a sum of 250,000": "SELECT 1" + " + 1" * 250000 + " FROM t;",
        "a product of 250,000": "SELECT 1" + " * 1" * 250000 + " FROM t;",
        "ORDER BY of 300,000 keys, all equal": "INSERT INTO t VALUES (1);\nSELECT x FROM t ORDER BY 1" + ", 1" * 299999 + ";",
        "DISTINCT of 300,000 items, all equal": "INSERT INTO t VALUES (1);\nSELECT DISTINCT x" + ", x" * 299999 + " FROM t;",
        "10,000 rows": "INSERT INTO t VALUES (1)" + ", (2)" * 9999 + ";",
        "quotes that never close": "SELECT '" + "x" * 900000,
        "a comment of a mebibyte": "--" + "x" * 1000000 + "\nSELECT x FROM t;",
    }
    for what, statement in long.items():
        status, fits = passes(statement, STACK)
        told(f"{what}, with a stack of {STACK} KiB", status, fits, "0 or 1, and a reply to the last statement")


# Each form of a statement up to where an expression, a condition or a moment begins.
FORMS = (
    "SELECT ", "INSERT INTO t VALUES ", "INSERT INTO t SELECT ", "UPDATE t SET x = ", "UPDATE t SET x = 1 WHERE ", "DELETE FROM t WHERE ",
    "UPDATE t FOR PORTION OF p FROM ", "CREATE TABLE u (x INTEGER, CHECK ", "READ r SELECT ", "SELECT x FROM t GROUP BY x HAVING ",
    "SELECT t.x FROM t JOIN u ON ", "SELECT x FROM t ORDER BY ", "AT ", "PRUNE HISTORY BEFORE ", "FOO ",
)
# What follows the parentheses, whether a later statement is still read, and the refusal.
TAILS = {
    "a byte that begins no token": ("#;", True, "E10 not a statement"), "a semicolon": (";", True, "E14 nested too deep"),
    "an open quote": ("'", False, "E12 unfinished statement"), "an open quoted name": ('"', False, "E12 unfinished statement"),
    "the end": ("", False, "E12 unfinished statement"),
}


def fits_nested(form: str, depth: int, tail: str, option: str, limit) -> bool:
    """Whether a form with so many open parentheses and a tail is refused as it has to be, and a later statement is answered."""
    end, goes_on, refusal = TAILS[tail]
    ran = run([option] if option else [], form + "(" * depth + end + ("\nCOMMIT;\n" if goes_on else ""), preexec_fn=limit)
    later = "OK" if option == "--check" else "REFUSED E40 not in this transaction state"
    wanted = f"REFUSED {refusal}\n" + (f"{later}\n" if goes_on else "")
    place = f"tql: statement 1, line 1{', column' if refusal.startswith('E10') else ''}".encode()
    return ran.returncode == 1 and ran.stdout.decode() == wanted and ran.stderr.startswith(b"" if option == "--quiet" else place)


def open_parentheses(room: Path) -> None:
    """2,000 and 100,000 open parentheses in each form of a statement, before each tail: with a short stack and the default one."""
    for option in ("", "--check", "--quiet"):
        for what, limit in ((f"a stack of {STACK} KiB", limited(resource.RLIMIT_STACK, STACK << 10)), ("the default stack", None)):
            for tail in TAILS:
                bad = [f"{form.strip()} {depth:,}" for form in FORMS for depth in (2000, 100000) if not fits_nested(form, depth, tail, option, limit)]
                told(f"open parentheses in {len(FORMS)} forms before {tail}, {option or 'plain'}, with {what}", len(bad), not bad,
                     f"a refusal each: {', '.join(bad)}")


def main() -> int:
    with tempfile.TemporaryDirectory(prefix="tql-devices-") as folder:
        for trials in (outputs, inputs, memory, stack, open_parentheses, least_stack):
            trials(Path(folder))
    print(f"{wrong} wrong")
    return 1 if wrong else 0


if __name__ == "__main__":
    sys.exit(main())
