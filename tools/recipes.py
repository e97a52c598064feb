#!/usr/bin/env python3
"""Compares the queries of seven recipes with a count of days in Python, over random data. Outside the gate.

Usage: tools/recipes.py [ROUNDS]        (make try-recipes; 40 rounds by default)

The statements are those of the cases in crates/test_cases/data/cases/recipes, with other rows, days and moments. A period is a set of days here, a
table the value of each key on each day, and a history a list of such tables: nothing is shared with the engine. The program is TQL=path, ./tql
or ./tql-quick, as in tools/quick.py. The status is 1 if an answer differs.
"""
import datetime
import json
import random
import re
import subprocess
import sys
from pathlib import Path

sys.dont_write_bytecode = True
import quick  # noqa: E402

CASES = Path(__file__).resolve().parent.parent / "crates" / "test_cases" / "data" / "cases" / "recipes"
FIRST, FOREVER = datetime.date(2024, 1, 1), 10**6
PROGRAM: "list[str]" = []


def run(statements: list) -> list:
    """Returns the rows of each query of some statements, and the numbers of the refusals."""
    words = [*PROGRAM, "-q", "--format", "json", "-"]
    ran = subprocess.run(words, input="".join(f"{it};\n" for it in statements).encode(), stdout=subprocess.PIPE, check=False)
    answers = [json.loads(line) for line in ran.stdout.splitlines()]
    return [it.get("rows", it.get("refused")) for it in answers if "rows" in it or "refused" in it]


def case(name: str) -> list:
    """Returns the statements of a case."""
    text = re.sub(r"--[^\n]*", "", (CASES / f"{name}.sql").read_text(encoding="utf-8"))
    return [it.strip() for it in text.split(";") if it.strip()]


def those(statements: list, *parts: str) -> list:
    """Returns the statements that have all parts."""
    return [it for it in statements if all(part in it for part in parts)]


def day(number: int) -> str:
    return "DATE '9999-12-31'" if number >= FOREVER else f"DATE '{FIRST + datetime.timedelta(number)}'"


def number(text: str) -> int:
    return (datetime.date.fromisoformat(text) - FIRST).days


def days(rows: list) -> dict:
    """Returns the value of each key on each day, of rows (key, value, from, to)."""
    return {(key, at): value for key, value, start, end in rows for at in range(number(start), number(end))}


def pieces(chance: random.Random, top: int, values: list, has_open: bool = False) -> list:
    """Returns random periods (from, to, value) that share no day."""
    at, made = chance.randrange(-20, 20), []
    while at < top:
        end = min(at + chance.randrange(1, 40), top)
        if chance.random() < 0.75:
            made.append((at, end, chance.choice(values)))
        at = end
    if made and has_open and chance.random() < 0.4:
        made[-1] = (made[-1][0], FOREVER, made[-1][2])
    return made


def inserted(table: str, rows: dict) -> str:
    """Returns an INSERT of periods by key."""
    return f"INSERT INTO {table} VALUES " + ", ".join(f"({key}, {value}, {day(a)}, {day(b)})" for key, them in rows.items() for a, b, value in them)


def stretches(covered: set, first: int, end: int, wanted: bool) -> list:
    """Returns the stretches of days in a range that are covered, or those that are not."""
    found = []
    for at in range(first, end):
        if (at in covered) == wanted:
            if found and found[-1][1] == at:
                found[-1] = (found[-1][0], at + 1)
            else:
                found.append((at, at + 1))
    return found


def history(chance: random.Random, employees: int) -> tuple:
    """Returns statements that make a table of rates with its history, and the moment and the table after each commit."""
    rows = {key: pieces(chance, 100, [1, 2, 3]) or [(0, 10, 1)] for key in range(1, employees + 1)}
    now = {(key, at): value for key, them in rows.items() for a, b, value in them for at in range(a, b)}
    moment, statements, after = datetime.datetime(2024, 1, 1, 9), those(case("differing_days"), "CREATE TABLE rate"), []
    for count in range(chance.randrange(2, 7)):
        key, start = chance.randrange(1, employees + 1), chance.randrange(0, 90)
        end, value = start + chance.randrange(1, 40), chance.choice([None, 1, 2, 3])
        portion = f"FOR PORTION OF valid FROM {day(start)} TO {day(end)}"
        change = f"UPDATE rate {portion} SET cents = {value} WHERE employee = {key}" if value else f"DELETE FROM rate {portion} WHERE employee = {key}"
        statements += [f"AT TIMESTAMP '{moment}'", change if count else inserted("rate", rows)]
        if count:
            hit = {it for it in now if it[0] == key and start <= it[1] < end}
            now = {it: value if it in hit else old for it, old in now.items() if value or it not in hit}
        after.append((str(moment), now))
        moment += datetime.timedelta(days=chance.randrange(1, 9))
    return statements, after, moment


def try_months(chance: random.Random) -> tuple:
    """Days and cents of each loan and month, by a table of days and by numbers of days."""
    statements, loans = case("months"), {key: pieces(chance, 110, [50, 100, 250], True) for key in range(1, 4)}
    begin = ("CREATE TABLE month", "CREATE TABLE day", "CREATE TABLE loan", "INSERT INTO month", "INSERT INTO day")
    head = [it for it in statements if it.startswith(begin)]
    queries = those(statements, "JOIN day d ON l.owed CONTAINS d.day")[:1] + those(statements, "part")[:5] + those(statements, "FROM part GROUP BY")
    wanted = []
    for key, rows in loans.items():
        for label, first, end in (("2024-01", 0, 31), ("2024-02", 31, 60), ("2024-03", 60, 91)):
            cents = [value for at in range(first, end) for a, b, value in rows if a <= at < b]
            wanted += [[key, label, len(cents), sum(cents)]] * bool(cents)
    if not any(loans.values()):
        return [], []
    return run([*head, inserted("loan", loans), *queries]), [wanted, wanted]


def try_overlaps(chance: random.Random) -> tuple:
    """Gaps, pairs that overlap, the most contracts at once, and covered stretches."""
    statements, span = case("overlaps"), {1: (0, 120), 2: (10, 90), 3: (0, 120)}
    rows = [(no, chance.randrange(1, 3), a, a + chance.randrange(1, 50)) for no in range(chance.randrange(1, 9)) for a in [chance.randrange(-10, 120)]]
    made = [*those(statements, "CREATE TABLE contract"),
            "INSERT INTO contract VALUES " + ", ".join(f"({no}, {who}, {day(a)}, {day(b)})" for no, who, a, b in rows),
            *those(statements, "CREATE TABLE person"),
            "INSERT INTO person VALUES " + ", ".join(f"({who}, {day(a)}, {day(b)})" for who, (a, b) in span.items())]
    gaps, pairs, most, _, covered = run(made + statements[statements.index(those(statements, "CREATE TABLE gap")[0]):])
    depth = {who: {at: sum(a <= at < b for _, it, a, b in rows if it == who) for at in range(-20, 200)} for who in span}
    days_of = {who: {at for at, count in them.items() if count} for who, them in depth.items()}
    got = (sorted((who, number(a), number(b or c)) for who, a, b, c in gaps), sorted((who, a, b, number(c), number(d)) for who, a, b, c, d in pairs),
           [tuple(it) for it in most], sorted((who, number(a), number(b)) for who, a, b in covered))
    wanted = (sorted((who, *it) for who, (a, b) in span.items() for it in stretches(days_of[who], a, b, False)),
              sorted((p, n, m, max(a, c), min(b, d)) for n, p, a, b in rows for m, q, c, d in rows if p == q and n < m and a < d and c < b),
              [(who, max(them.values())) for who, them in depth.items() if max(them.values())],
              sorted((who, *it) for who in span for it in stretches(days_of[who], -20, 200, True)))
    return got, wanted


def try_differing_days(chance: random.Random) -> tuple:
    """The days on which a moment and now differ, with both values."""
    statements, (made, after, _) = case("differing_days"), history(chance, 3)
    moment, then = chance.choice(after)
    queries = [it.replace("2024-03-31 18:00:00", moment) for it in statements[statements.index(those(statements, "CREATE TABLE point")[0]):]]
    got = {(key, at): (was, became) for key, a, b, was, became in run(made + queries)[-1] for at in range(number(a), number(b))}
    now = after[-1][1]
    return got, {it: (then.get(it), now.get(it)) for it in {*then, *now} if then.get(it) != now.get(it)}


def try_moments(chance: random.Random) -> tuple:
    """What was known at each moment of a list about its day."""
    statements, (made, after, _) = case("moments"), history(chance, 2)
    asked = [(f"s{it}", chance.randrange(0, 110), str(datetime.datetime(2023, 12, 31, 9) + datetime.timedelta(days=chance.randrange(0, 60)))) for it in range(6)]
    made = those(statements, "CREATE TABLE asked") + those(statements, "CREATE TABLE staff") + ["INSERT INTO staff VALUES (1), (2)", *made]
    made.append("INSERT INTO asked VALUES " + ", ".join(f"('{name}', {day(at)}, TIMESTAMP '{moment}')" for name, at, moment in asked))
    wanted = []
    for name, at, moment in asked:
        known = [table for it, table in after if it <= moment]
        wanted += [[str(FIRST + datetime.timedelta(at)), name, key, known[-1].get((key, at)) if known else None] for key in (1, 2)]
    return sorted(run(made + those(statements, "a.day, a.slip, s.employee"))[-1], key=str), sorted(wanted, key=str)


def try_undo(chance: random.Random) -> tuple:
    """The days of a mistake set back to a moment, and no others."""
    statements, (made, after, end) = case("undo"), history(chance, 2)
    first, last = sorted(chance.sample(range(0, 110), 2))
    moment, then = chance.choice(after)
    at = statements.index(those(statements, "DELETE FROM rate FOR PORTION OF")[0])
    others = {"DATE '2024-06-15'": day(first), "DATE '2024-08-15'": day(last), "TIMESTAMP '2024-06-03 08:59:59.999999'": f"TIMESTAMP '{moment}'"}
    undone = [re.sub("|".join(map(re.escape, others)), lambda it: others[it[0]], it) for it in statements[at - 1:at + 6]]
    got = days(run([*made, f"AT TIMESTAMP '{end}'", *undone, "SELECT employee, cents, since, until FROM rate"])[-1])
    wanted = {it: value for it, value in after[-1][1].items() if not (it[0] == 1 and first <= it[1] < last)}
    return got, wanted | {it: value for it, value in then.items() if it[0] == 1 and first <= it[1] < last}


def try_quotients(chance: random.Random) -> tuple:
    """Whole quotients and what is left."""
    divisors = [chance.randrange(1, 1000) for _ in range(4)]
    totals = [(f"t{at}", chance.choice([chance.randrange(0, 10**6), it * chance.randrange(1000)]), it) for at, it in enumerate(divisors)]
    insert = "INSERT INTO total VALUES " + ", ".join(map(str, totals))
    got = run([insert if it.startswith("INSERT INTO total") else it for it in case("quotients")])[-1]
    return got, [[name, cents // people, cents % people] for name, cents, people in totals]


def try_closed_month(chance: random.Random) -> tuple:
    """A change is refused if and only if a day of March would have another value."""
    head = [it for it in case("closed_month") if it.startswith(("CREATE TABLE rate", "CREATE TABLE held", "INSERT INTO held SELECT"))]
    rates, key, start = {it: pieces(chance, 150, [1, 2]) for it in (1, 2)}, chance.choice([1, 2]), chance.randrange(0, 140)
    end, value = start + chance.randrange(1, 60), chance.choice([None, 1, 2])
    portion = f"FOR PORTION OF valid FROM {day(start)} TO {day(end)}"
    change = f"UPDATE rate {portion} SET cents = {value} WHERE employee = {key}" if value else f"DELETE FROM rate {portion} WHERE employee = {key}"
    now = {at: it for a, b, it in rates[key] for at in range(a, b)}
    is_changed = any(it != value for at, it in now.items() if start <= at < end and 60 <= at < 91)
    if not any(rates.values()):
        return [], []
    return run([*head[:2], inserted("rate", rates), *head[2:], change]), [36] * is_changed


def main(words: list) -> int:
    rounds = int(words[0]) if words else 40
    PROGRAM.append(quick.program())
    tries = {name: it for name, it in globals().items() if name.startswith("try_")}
    wrong = []
    for name, it in tries.items():
        for seed in range(rounds):
            got, wanted = it(random.Random(f"{name}{seed}"))
            if got != wanted:
                wrong.append(f"{name} {seed}: {got!r}, not {wanted!r}"[:2000])
                break
    print("".join(f"{it}\n" for it in wrong) + f"{len(tries)} recipes, {rounds} rounds each, {len(wrong)} wrong")
    return 1 if wrong else 0


if __name__ == "__main__":
    sys.exit(main(sys.argv[1:]))
