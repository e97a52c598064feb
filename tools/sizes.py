#!/usr/bin/env python3
"""Times the program on inputs of 1, 2, 4 and 8 times a size, and prints a table. Outside the gate.

Usage: tools/sizes.py [TIMES]        (make try-growth-times)

Each row is a form of input, each column a size; a time is the least of TIMES runs (by default 3), in milliseconds of a processor, the program's start
and what it says on the standard error included. What the program prints is compared with what docs/LANGUAGE.md says of such an input. The last column
says by how much a doubling may multiply the time: 3, or 2.4 where a row of one key value must not cost more the more there are of it, or a member of
a list not more the longer the list is in which it is looked up, or 1.5 where only what lies beside it is doubled. The status is 1 where an answer is
wrong, where a doubling does more, or where a run takes over a minute; such a row ends there. What takes less than 50 ms is taken as 50. The row of
PRUNE HISTORY has the instructions of one run by valgrind, where that is there: its time is short, and says little beside other work. The program is
TQL=path, or ./tql where it is newer than every source, or else ./tql-quick, which is compiled first where it has to be (make quick).
"""
import re
import resource
import shutil
import subprocess
import sys
import tempfile
from datetime import date
from pathlib import Path

sys.dont_write_bytecode = True

from quick import program

FLOOR, PATIENCE, TRIPLE, DOUBLE, ALIKE = 0.05, 60, 3.0, 2.4, 1.5
# Of what is counted: how many seconds of valgrind are waited for, and below how many instructions the start of the program counts too much.
COUNTING, FEWEST = 600, 1e7
COLLECTED = re.compile(rb"Collected : (\d+)")
MADE, ONE = "CREATE TABLE t (x INTEGER, y VARCHAR(65535));\nINSERT INTO t VALUES (1, 'a');\n", "CREATE TABLE\nINSERT 1\n"
ROW, NONE = "X\n1\n(1 rows)\n", "X\n(0 rows)\n"
LONGEST = 1048576
# How numbers are spread for joins, groups and DISTINCT.
FACTOR = 11_400_714_819_323_198_485


def refused(text: str) -> str:
    """The line of a refusal."""
    return f"REFUSED {text}\n"


def literal(size: int) -> tuple[str, str]:
    """A text literal: taken by a condition as long as its statement is not too long."""
    begin, end = "SELECT x FROM t WHERE y = '", "';\nCOMMIT;\n"
    is_taken = len(begin) + size + 1 <= LONGEST
    return MADE + begin + "b" * size + end, ONE + (NONE if is_taken else refused("E13 statement too long")) + refused("E40 not in this transaction state")


def empty(size: int) -> tuple[str, str]:
    """Statements that are none."""
    return ";" * size + "COMMIT;\n", refused("E40 not in this transaction state")


def terms(size: int) -> tuple[str, str]:
    """A condition of so many terms, of which the last is true."""
    return MADE + "SELECT x FROM t WHERE " + "x=0 OR " * (size - 1) + "x=1;\n", ONE + ROW


def members(size: int) -> tuple[str, str]:
    """IN of so many members, of which the last is found."""
    return MADE + "SELECT x FROM t WHERE x IN (" + "0," * (size - 1) + "1);\n", ONE + ROW


def sums(size: int) -> tuple[str, str]:
    """A sum of so many terms."""
    return MADE + "SELECT " + "x+" * (size - 1) + "1 AS x FROM t;\n", ONE + f"X\n{size}\n(1 rows)\n"


def nested(size: int) -> tuple[str, str]:
    """Parentheses in so many statements, as deep as they may be."""
    deep = "SELECT x FROM t WHERE " + "(" * 32 + "x=" + "(" * 32 + "1" + ")" * 64 + ";\n"
    return MADE + deep * size, ONE + ROW * size


def quote(size: int) -> tuple[str, str]:
    """A text that never closes."""
    return "COMMIT;\n'" + "x;" * (size // 2), refused("E40 not in this transaction state") + refused(
        "E12 unfinished statement" if size + 1 <= LONGEST else "E13 statement too long")


def tables(size: int) -> tuple[str, str]:
    """Tables, each with a row."""
    made = "".join(f"CREATE TABLE t{i} (x INTEGER);\nINSERT INTO t{i} VALUES ({i});\n" for i in range(size))
    return made + f"SELECT x FROM t{size - 1};\n", ONE * size + f"X\n{size - 1}\n(1 rows)\n"


def references(size: int) -> tuple[str, str]:
    """So many table references in each of 2,000 queries."""
    names = ",".join(f"t r{i}" for i in range(size))
    return MADE + f"SELECT COUNT(*) AS x FROM {names};\n" * 2000, ONE + ROW * 2000


def updates(size: int) -> tuple[str, str]:
    """So many UPDATEs of one row in one transaction, by its key."""
    made = "CREATE TABLE k (x INTEGER, y INTEGER, PRIMARY KEY (x));\nINSERT INTO k VALUES (1, 0);\nSTART TRANSACTION;\n"
    return (made + "UPDATE k SET y = y + 1 WHERE x = 1;\n" * size + "COMMIT;\nSELECT y AS x FROM k;\n",
            ONE + "START TRANSACTION\n" + "UPDATE 1\n" * size + f"COMMIT\nX\n{size}\n(1 rows)\n")


def loose(size: int) -> tuple[str, str]:
    """So many items and columns of GROUP BY, and an item that is none of them: what the standard error says of it takes each once."""
    return (MADE + "SELECT " + "x," * size + "y FROM t GROUP BY " + "x," * (size - 1) + "x;\n", ONE + refused("E23 form not allowed here"))


def unheaded(size: int) -> tuple[str, str]:
    """So many items and keys of ORDER BY, the last of which heads no item."""
    return (MADE + "SELECT " + "x," * (size - 1) + "x FROM t ORDER BY " + "x," * (size - 1) + "q;\n",
            ONE + refused("E21 name unknown, ambiguous or repeated"))


def ordered(size: int) -> tuple[str, str]:
    """So many items with a heading each, and as many keys of ORDER BY, from the last heading to the first."""
    names = [f"a{it}" for it in range(size)]
    return (MADE + "SELECT " + ",".join(f"x {it}" for it in names) + " FROM t ORDER BY " + ",".join(reversed(names)) + ";\n",
            ONE + "|".join(names).upper() + "\n" + "1|" * (size - 1) + "1\n(1 rows)\n")


def grouped(size: int) -> tuple[str, str]:
    """So many items, and as many columns of GROUP BY, of which all items are the last."""
    return (MADE + "SELECT " + "y," * (size - 1) + "y FROM t GROUP BY " + "x," * (size - 1) + "y;\n",
            ONE + "Y|" * (size - 1) + "Y\n" + "'a'|" * (size - 1) + "'a'\n(1 rows)\n")


# ---- lists of names in one statement

UNKNOWN = refused("E21 name unknown, ambiguous or repeated")


def listed(size: int) -> str:
    """So many names that no column has."""
    return ",".join(f"q{it}" for it in range(size))


def filled(size: int) -> tuple[str, str]:
    """An INSERT with so many unknown columns."""
    return MADE + f"INSERT INTO t ({listed(size)}) VALUES (1);\n", ONE + UNKNOWN


def assigned(size: int) -> tuple[str, str]:
    """An UPDATE of so many unknown columns."""
    return MADE + "UPDATE t SET " + ",".join(f"q{it}=1" for it in range(size)) + ";\n", ONE + UNKNOWN


def keyed(size: int) -> tuple[str, str]:
    """A key of so many unknown columns."""
    return f"CREATE TABLE t (x INTEGER, UNIQUE ({listed(size)}));\n", UNKNOWN


def referring(size: int) -> tuple[str, str]:
    """A reference of so many unknown columns."""
    return MADE + f"CREATE TABLE c (x INTEGER, FOREIGN KEY ({listed(size)}) REFERENCES t (x));\n", ONE + UNKNOWN


def referred(size: int) -> tuple[str, str]:
    """A reference to so many columns that its parent does not have."""
    return MADE + f"CREATE TABLE c (x INTEGER, FOREIGN KEY (x) REFERENCES t ({listed(size)}));\n", ONE + UNKNOWN



# ---- one key value with many periods, and one row with many versions

RATES = ("CREATE TABLE p (k INTEGER, f DATE, u DATE, x INTEGER, PERIOD FOR v (f, u), PRIMARY KEY (k, v WITHOUT OVERLAPS));\n"
         "CREATE TABLE c (k INTEGER, f DATE, u DATE, PERIOD FOR v (f, u), FOREIGN KEY (k, PERIOD v) REFERENCES p (k, PERIOD v));\n")
HOT = ("CREATE TABLE h (k INTEGER, x INTEGER, s TIMESTAMP GENERATED ALWAYS AS ROW START, e TIMESTAMP GENERATED ALWAYS AS ROW END,"
       " PERIOD FOR SYSTEM_TIME (s, e), PRIMARY KEY (k)) WITH SYSTEM VERSIONING;\nAT TIMESTAMP '2011-01-01 00:00:00';\nINSERT INTO h VALUES (1, 0);\n")
PACK, ASKED = 1000, 2000


def day(at: int) -> str:
    """A day of a thousand years and more."""
    return f"DATE '{date.fromordinal(365000 + at).isoformat()}'"


def packed(table: str, rows: list[str]) -> tuple[str, str]:
    """INSERTs of rows, many at a time, and their replies."""
    packs = [rows[at:at + PACK] for at in range(0, len(rows), PACK)]
    return "".join(f"INSERT INTO {table} VALUES {','.join(it)};\n" for it in packs), "".join(f"INSERT {len(it)}\n" for it in packs)


def daily(size: int) -> tuple[str, str]:
    """So many days of one key value, each a period, and a table that may refer to them."""
    script, replies = packed("p", [f"(1,{day(it)},{day(it + 1)},{it})" for it in range(size)])
    return RATES + script, "CREATE TABLE\n" * 2 + replies


def one_by_one(size: int) -> tuple[str, str]:
    """So many periods of one key value, each by an INSERT of its own; the last one overlaps."""
    rows = "".join(f"INSERT INTO p VALUES (1,{day(it)},{day(it + 1)},{it});\n" for it in range(size))
    return (RATES + rows + f"INSERT INTO p VALUES (1,{day(size - 1)},{day(size + 1)},0);\n",
            "CREATE TABLE\n" * 2 + "INSERT 1\n" * size + refused("E35 duplicate key"))


def half(size: int) -> tuple[str, str]:
    """A DELETE of half of so many parents, beside as many children of the others, and one of a parent that a child needs."""
    script, replies = daily(size)
    children, more = packed("c", [f"(1,{day(it)},{day(it + 1)})" for it in range(size // 2)])
    return (script + children + f"DELETE FROM p WHERE f >= {day(size // 2)};\nDELETE FROM p WHERE f = {day(size // 2 - 1)};\n",
            replies + more + f"DELETE {size - size // 2}\n" + refused("E36 reference not met"))


def children(size: int) -> tuple[str, str]:
    """So many children, of which each spans three parents; the last one spans a day without a parent."""
    script, replies = daily(size + 2)
    rows = "".join(f"INSERT INTO c VALUES (1,{day(it)},{day(it + 3)});\n" for it in range(size + 1))
    return script + rows, replies + "INSERT 1\n" * size + refused("E36 reference not met")


def by_day(size: int) -> tuple[str, str]:
    """2,000 SELECTs by key and day, of so many days."""
    script, replies = daily(size)
    asked = [it * 7919 % size for it in range(ASKED)]
    return (script + "".join(f"SELECT x FROM p WHERE k = 1 AND v CONTAINS {day(it)};\n" for it in asked),
            replies + "".join(f"X\n{it}\n(1 rows)\n" for it in asked))


def by_portion(size: int) -> tuple[str, str]:
    """An UPDATE of each of so many days, by key and portion."""
    script, replies = daily(size)
    changes = "".join(f"UPDATE p FOR PORTION OF v FROM {day(it)} TO {day(it + 1)} SET x = 0 WHERE k = 1;\n" for it in range(size))
    return script + changes + "SELECT SUM(x) AS x FROM p;\n", replies + "UPDATE 1\n" * size + "X\n0\n(1 rows)\n"



def history(size: int) -> tuple[str, str]:
    """So many changes of one row, each a version; and their replies."""
    return "UPDATE h SET x = x + 1 WHERE k = 1;\n" * size, "UPDATE 1\n" * size


def as_of(size: int) -> tuple[str, str]:
    """2,000 SELECTs AS OF by key, of one row with so many versions, each of which begins a microsecond behind the one before it."""
    changes, replies = history(size)
    asked = [it * 7919 % size for it in range(ASKED)]
    return (HOT + changes + "".join(f"SELECT x FROM h FOR SYSTEM_TIME AS OF TIMESTAMP '2011-01-01 00:00:00.{it:06}' WHERE k = 1;\n" for it in asked),
            "CREATE TABLE\nAT\nINSERT 1\n" + replies + "".join(f"X\n{it}\n(1 rows)\n" for it in asked))


def by_reader(size: int) -> tuple[str, str]:
    """2,000 READs by key of a reader, beside so many later versions of the row."""
    changes, replies = history(size)
    return (HOT + "OPEN READER r;\n" + changes + "READ r SELECT x FROM h WHERE k = 1;\n" * ASKED,
            "CREATE TABLE\nAT\nINSERT 1\nOPEN READER\n" + replies + "X\n0\n(1 rows)\n" * ASKED)


def prunes(size: int) -> tuple[str, str]:
    """So many PRUNEs and changes of one row in turn, each PRUNE of the oldest of so many versions."""
    changes, replies = history(size)
    turns = "".join(f"PRUNE HISTORY BEFORE TIMESTAMP '2011-01-01 00:00:00.{it:06}';\n{history(1)[0]}" for it in range(1, size + 1))
    return HOT + changes + turns, "CREATE TABLE\nAT\nINSERT 1\n" + replies + "PRUNE HISTORY\nUPDATE 1\n" * size


def beside(size: int) -> tuple[str, str]:
    """20,000 INSERTs beside so many tables with references to another one."""
    made = "".join(f"CREATE TABLE c{it} (x INTEGER, FOREIGN KEY (x) REFERENCES k (x));\n" for it in range(size))
    return ("CREATE TABLE t (x INTEGER);\nCREATE TABLE k (x INTEGER, PRIMARY KEY (x));\n" + made + "INSERT INTO t VALUES (1);\n" * 20000,
            "CREATE TABLE\n" * (size + 2) + "INSERT 1\n" * 20000)


def keys(size: int) -> tuple[str, str]:
    """So many keys of two columns, and a WHERE that gives these their values on both sides of so many conjuncts."""
    made = "CREATE TABLE t (x INTEGER, y INTEGER, z INTEGER" + ", UNIQUE (x, z)" * size + ");\nINSERT INTO t VALUES (1, 1, 1);\n"
    return made + "SELECT x FROM t WHERE x = 1 AND " + "y = 1 AND " * size + "z = 1;\n", ONE + ROW


def joined(size: int) -> tuple[str, str]:
    """Keys of two columns, of which an ON equates only the first, and as many conjuncts; the last key is the only one whose columns it equates both."""
    made = "CREATE TABLE t (x INTEGER, y INTEGER, z INTEGER"
    made += ", UNIQUE (x, z)" * size + ", UNIQUE (x, y));\nINSERT INTO t VALUES (1, 1, 1);\n"
    return made + "SELECT a.x FROM t a JOIN t b ON a.x = b.x" + " AND a.y = b.y" * size + ";\n", ONE + ROW


def parents(size: int) -> tuple[str, str]:
    """So many keys, and as many references to the last of them."""
    made = "CREATE TABLE p (x INTEGER, y INTEGER" + ", UNIQUE (x)" * size + ", UNIQUE (x, y));\n"
    return made + "CREATE TABLE c (x INTEGER, y INTEGER" + ", FOREIGN KEY (x, y) REFERENCES p (x, y)" * size + ");\n", "CREATE TABLE\n" * 2


def timespans(size: int) -> tuple[str, str]:
    """So many application periods, and as many keys and references, each by another of them: a table has one at most."""
    made = "CREATE TABLE p (x INTEGER, f DATE, u DATE, PERIOD FOR v (f, u), PRIMARY KEY (x, v WITHOUT OVERLAPS));\n"
    lists = "".join(f", PERIOD FOR p{it} (f, u), UNIQUE (x, p{it} WITHOUT OVERLAPS), FOREIGN KEY (x, PERIOD p{it}) REFERENCES p (x, PERIOD v)"
                    for it in range(size))
    return made + f"CREATE TABLE c (x INTEGER, f DATE, u DATE{lists});\n", "CREATE TABLE\n" + refused("E23 form not allowed here")


def chosen(size: int) -> list[int]:
    """Numbers for which a table of groups of any size begins its search at one place."""
    inverse, made = pow(FACTOR, -1, 2**64), []
    for at in range(1, size + 1):
        mixed = at * inverse % 2**64
        made.append(((mixed ^ mixed >> 32) * inverse + 2**63) % 2**64 - 2**63)
    return made


def distinct(size: int) -> tuple[str, str]:
    """DISTINCT of n chosen numbers, each twice."""
    numbers = chosen(size)
    script, replies = packed("t", [f"({it}, 'a')" for it in numbers] * 2)
    return ("CREATE TABLE t (x INTEGER, y VARCHAR(9));\n" + script + "SELECT DISTINCT x FROM t;\n",
            "CREATE TABLE\n" + replies + "X\n" + "".join(f"{it}\n" for it in sorted(numbers)) + f"({size} rows)\n")


def groups(size: int) -> tuple[str, str]:
    """GROUP BY of n chosen numbers, each once."""
    script, replies = packed("t", [f"({it}, 'a')" for it in chosen(size)])
    return ("CREATE TABLE t (x INTEGER, y VARCHAR(9));\n" + script + "SELECT x FROM t GROUP BY x HAVING COUNT(*) > 1;\n",
            "CREATE TABLE\n" + replies + NONE)


def ranges(size: int) -> tuple[str, str]:
    """n SELECTs from a table of n rows, each by a range of five keys."""
    script, replies = packed("t", [f"({it}, {it % 7})" for it in range(size)])
    return ("CREATE TABLE t (x INTEGER, y INTEGER, PRIMARY KEY (x));\n" + script
            + "".join(f"SELECT SUM(x) AS x FROM t WHERE x BETWEEN {it} AND {it + 4};\n" for it in range(size - 4)),
            "CREATE TABLE\n" + replies + "".join(f"X\n{5 * it + 10}\n(1 rows)\n" for it in range(size - 4)))


def range_changes(size: int) -> tuple[str, str]:
    """UPDATEs and DELETEs of a table of n rows, each by a range of five keys, until the table is empty."""
    script, replies = packed("t", [f"({it}, 0)" for it in range(size)])
    return ("CREATE TABLE t (x INTEGER, y INTEGER, PRIMARY KEY (x));\n" + script
            + "".join(f"UPDATE t SET y = 1 WHERE x > {it - 1} AND x < {it + 5};\nDELETE FROM t WHERE x BETWEEN {it} AND {it + 4};\n" for it in range(0, size, 5))
            + "SELECT x FROM t;\n", "CREATE TABLE\n" + replies + "UPDATE 5\nDELETE 5\n" * (size // 5) + NONE)


def misspelt(size: int) -> tuple[str, str]:
    """An unknown column with a name of so many letters, the table's column with all of these but the last two, and so many other names."""
    name = "q" * size
    return (f"CREATE TABLE t (x INTEGER, {name}abc INTEGER);\nSELECT {name}def" + ",t.x" * size + " FROM t;\n",
            "CREATE TABLE\n" + UNKNOWN)


FORMS = (
    ("a text literal, bytes", 125000, literal, TRIPLE), ("a text literal that is too long, bytes", 1250000, literal, TRIPLE),
    ("empty statements", 1250000, empty, TRIPLE), ("a condition, terms", 12500, terms, TRIPLE), ("IN, members", 12500, members, TRIPLE),
    ("a sum, terms", 31250, sums, TRIPLE), ("64 parentheses, statements", 1250, nested, TRIPLE),
    ("a quote that never closes, bytes", 125000, quote, TRIPLE), ("a quote that never closes, too long, bytes", 1250000, quote, TRIPLE),
    ("tables", 125, tables, TRIPLE), ("table references, 2,000 queries", 1, references, TRIPLE),
    ("UPDATEs of one row in a transaction", 2500, updates, TRIPLE), ("a name that is not grouped, items", 25000, loose, TRIPLE),
    ("a key of ORDER BY without a heading, items", 12500, unheaded, TRIPLE),
    ("an INSERT of unknown columns", 12500, filled, DOUBLE), ("an UPDATE of unknown columns", 12500, assigned, DOUBLE),
    ("a key of unknown columns", 12500, keyed, DOUBLE), ("a reference of unknown columns", 12500, referring, DOUBLE),
    ("a reference to unknown columns", 12500, referred, DOUBLE),
    ("keys of two columns, and conjuncts of a WHERE", 2500, keys, DOUBLE),
    ("keys of two columns, and conjuncts of a join", 2500, joined, DOUBLE),
    ("keys, and references to the last", 2500, parents, DOUBLE),
    ("application periods, and keys and references by them", 1000, timespans, DOUBLE),
    ("an unknown column of so many letters, and names of its table", 12500, misspelt, DOUBLE),
    ("keys of ORDER BY, each a heading", 6250, ordered, DOUBLE), ("items of the last column of GROUP BY", 25000, grouped, DOUBLE),
    ("INSERTs of one key value", 2500, one_by_one, DOUBLE), ("DELETE of half of the parents of one key value, beside children", 1250, half, DOUBLE),
    ("INSERTs of children of one key value, each over three parents", 2500, children, DOUBLE),
    ("SELECTs by key and day, periods of one key value", 2500, by_day, DOUBLE),
    ("UPDATEs of a day's portion, periods of one key value", 2500, by_portion, DOUBLE),
    ("SELECTs AS OF by key, versions of one row", 2500, as_of, DOUBLE), ("READs by key, versions of one row", 2500, by_reader, DOUBLE),
    ("PRUNEs of the oldest version of one row, PRUNEs and versions", 300, prunes, DOUBLE),
    ("INSERTs beside tables with references, tables", 110, beside, ALIKE),
    ("DISTINCT of numbers that were chosen to collide", 2500, distinct, DOUBLE),
    ("GROUP BY of numbers that were chosen to collide", 2500, groups, DOUBLE),
    ("SELECTs by a range of five keys, rows", 1250, ranges, DOUBLE),
    ("UPDATEs and DELETEs by a range of five keys, rows", 2500, range_changes, DOUBLE),
)


# The forms of which instructions are counted.
COUNTED = (prunes,) if shutil.which("valgrind") else ()


def spent() -> float:
    """The time of a processor that the programs took which have ended."""
    used = resource.getrusage(resource.RUSAGE_CHILDREN)
    return used.ru_utime + used.ru_stime


def timed(words: list[str], file: Path, times: int) -> tuple[float, str]:
    """The least time of a processor that the program takes on a file, and what it prints."""
    best, text = 1e9, ""
    for _ in range(times):
        begun = spent()
        ran = subprocess.run([*words, str(file)], stdout=subprocess.PIPE, stderr=subprocess.DEVNULL, timeout=PATIENCE, check=False)
        best, text = min(best, spent() - begun), ran.stdout.decode(errors="replace")
    return best, text


def counted(words: list[str], file: Path) -> tuple[float, str]:
    """The instructions of the program on a file, and what it prints."""
    # (what valgrind leaves goes into the file's folder)
    words = ["valgrind", "--tool=callgrind", f"--callgrind-out-file={file.parent}/out", *words, str(file)]
    ran = subprocess.run(words, stdout=subprocess.PIPE, stderr=subprocess.PIPE, timeout=COUNTING, check=False)
    found = COLLECTED.search(ran.stderr)
    if not found:
        sys.exit(f"valgrind: {ran.stderr.decode(errors='replace')[-600:]}")
    return float(found[1]), ran.stdout.decode(errors="replace")


def is_steep(best: list[float], most: float, floor: float) -> bool:
    """Whether the last doubling multiplies the time, or the instructions, by more than that."""
    return len(best) > 1 and max(best[-1], floor) > most * max(best[-2], floor)


def main() -> int:
    if sys.argv[2:] or not all(it.isdigit() and int(it) for it in sys.argv[1:]):
        sys.exit(__doc__)
    times, wrong = int(sys.argv[1]) if sys.argv[1:] else 3, 0
    with tempfile.TemporaryDirectory(prefix="tql-sizes-") as room:
        words, file = [program()], Path(room) / "script.sql"
        print("| Input | Size | times 1 | times 2 | times 4 | times 8 | at most |\n|---|---|---|---|---|---|---|")
        for what, size, form, most in FORMS:
            best, said, is_counted = [], "", form in COUNTED
            for factor in (1, 2, 4, 8):
                script, wanted = form(size * factor)
                file.write_text(script, encoding="utf-8")
                try:
                    taken, text = counted(words, file) if is_counted else timed(words, file, times)
                except subprocess.TimeoutExpired:
                    said += f" TOO SLOW at times {factor}"
                    break
                best.append(taken)
                said += "" if text == wanted else f" WRONG ANSWER at times {factor}"
                if is_steep(best, most, FEWEST if is_counted else FLOOR):
                    said += f" TOO STEEP at times {factor}"
                    break
            wrong += bool(said)
            shown = [f"{it / 1e6:,.0f} M instructions" if is_counted else f"{it * 1000:,.0f} ms" for it in best] + [""] * (4 - len(best))
            print(f"| {what} | {size:,} | {' | '.join(shown)} | {most} |{said}", flush=True)
    print(f"{wrong} wrong")
    return 1 if wrong else 0


if __name__ == "__main__":
    sys.exit(main())
