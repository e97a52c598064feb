#!/usr/bin/env python3
"""Sends 10,000 rows through a file of comma-separated values: makes the file, turns it into INSERTs (tools/tql-csv), has tql run these and
print the table with --format csv, and compares that with the file, byte for byte. Outside the gate.

Usage: tools/round_trip.py [ROWS]        (make try-round-trip)

The file is written here as RFC 4180 has it: a heading, then a line a row, each ended by a carriage return and a line feed; NULL is an empty
field, an empty text two quotes, and a text stands in quotes only where it is empty or holds a comma, a quote or an end of a line. Among the
texts are such, and `'`, blanks, bytes that are no ASCII, and words that look like numbers, NULL or SQL. The replies of one line go to the
standard error with --format csv, so the standard output is the table alone. The program is TQL=path, or ./tql where it is newer than every source, or
else ./tql-quick, which is compiled first where it has to be (make quick). The status is 1 where something differs.
"""
import datetime
import random
import subprocess
import sys
from pathlib import Path

sys.dont_write_bytecode = True

from quick import program

COLUMNS = (("N", "INTEGER"), ("AMOUNT", "INTEGER"), ("WORDS", "VARCHAR"), ("BORN", "DATE"), ("SEEN", "TIMESTAMP"))
TABLE = "CREATE TABLE t (n INTEGER, amount INTEGER, words VARCHAR(60), born DATE, seen TIMESTAMP);\n"
QUERY = "SELECT * FROM t ORDER BY n;\n"
PIECES = ("", "a", " ", ",", '"', '""', "'", "\n", "\r\n", "\r", "\t", ";", "--", "NULL", "0", "-1", "(", "); DROP TABLE t", "\u00e9", "\u6f22", "\U0001f600")
EXTREMES = (0, -1, 2**63 - 1, -(2**63))


def text_field(text: str) -> str:
    """A text as a field."""
    is_quoted = not text or any(it in text for it in ',"\r\n')
    return '"' + text.replace('"', '""') + '"' if is_quoted else text


def words(chance: random.Random) -> str:
    """A text of up to six pieces."""
    return "".join(chance.choice(PIECES) for _ in range(chance.randrange(7)))[:60]


def row(chance: random.Random, number: int) -> list[str]:
    """The fields of a row: its number, and four others, each of which is NULL at times."""
    amount = chance.choice(EXTREMES) if chance.random() < 0.1 else chance.randrange(-(10**6), 10**6)
    day = datetime.date.fromordinal(chance.randint(1, datetime.date.max.toordinal()))
    moment = datetime.datetime.combine(day, datetime.time(chance.randrange(24), chance.randrange(60), chance.randrange(60)))
    micros = chance.choice(("", "", ".000001", ".500000", ".999999"))
    fields = [str(amount), text_field(words(chance)), day.isoformat(), moment.isoformat(sep=" ") + micros]
    return [str(number)] + ["" if chance.random() < 0.15 else it for it in fields]


def file_of(count: int) -> bytes:
    """The file: a heading, and so many rows."""
    chance = random.Random(4180)
    lines = [[name for name, _ in COLUMNS], *(row(chance, number) for number in range(count))]
    return "".join(",".join(fields) + "\r\n" for fields in lines).encode()


def first_difference(made: bytes, printed: bytes) -> str:
    """Where two texts differ first, and what follows there."""
    at = next((at for at, pair in enumerate(zip(made, printed)) if pair[0] != pair[1]), min(len(made), len(printed)))
    return f"from byte {at} on: {printed[at:at + 60]!r}, not {made[at:at + 60]!r}"


def main() -> int:
    count = int(sys.argv[1]) if len(sys.argv) > 1 else 10000
    made = file_of(count)
    turn = [str(Path(__file__).with_name("tql-csv")), "t", "--columns", ",".join(f"{name}:{kind}" for name, kind in COLUMNS)]
    inserts = subprocess.run(turn, input=made, stdout=subprocess.PIPE, check=True).stdout
    run = [program(), "--format", "csv"]
    ran = subprocess.run(run, input=TABLE.encode() + inserts + QUERY.encode(), stdout=subprocess.PIPE, stderr=subprocess.PIPE, check=False)
    if ran.returncode or ran.stdout != made:
        print(f"status {ran.returncode}; {ran.stderr[-300:]!r}; {first_difference(made, ran.stdout)}")
        return 1
    print(f"{count} rows are as they were, {len(made)} bytes")
    return 0


if __name__ == "__main__":
    sys.exit(main())
