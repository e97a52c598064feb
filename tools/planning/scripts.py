"""Scripts of tables with keys, references and periods, and of queries and changes with joins of all kinds."""
import random

SLOW = "0 + 0 = 0"
TEXTS = ["'a'", "'b'", "'c'", "''"]
KEYS = ["PRIMARY KEY (k)", "PRIMARY KEY (k, p WITHOUT OVERLAPS)", "UNIQUE (k)", "UNIQUE (g, x)", "UNIQUE (x, k)", "UNIQUE (g, p WITHOUT OVERLAPS)"]


# Select lists, and what follows WHERE; r0 is a reference. Groups, aggregates and DISTINCT are of any rows, also of none.
SHAPES = [
    ("*", ""), ("*", ""), ("COUNT(*)", ""), ("r0.k, r0.x", ""), ("r0.x, r0.k", " ORDER BY 2 DESC"), ("MAX(r0.u), COUNT(r0.g)", ""),
    ("DISTINCT r0.g", ""), ("DISTINCT r0.x, r0.g", ""), ("DISTINCT r0.x", " ORDER BY x DESC"), ("DISTINCT r0.k - r0.k", ""),
    ("COUNT(*) + 1", ""), ("COUNT(*) * 2 - COUNT(r0.x), MIN(r0.x), MAX(r0.x)", ""), ("5", " HAVING COUNT(*) > 2"),
    ("SUM(r0.g), MIN(r0.k), MAX(r0.f), COUNT(r0.x), COUNT(*)", ""), ("MAX(r0.k) - MIN(r0.k)", " HAVING MIN(r0.k) < MAX(r0.k)"),
    ("r0.g, COUNT(*)", " GROUP BY r0.g"), ("COUNT(*)", " GROUP BY r0.g"), ("r0.x, MIN(r0.f), SUM(r0.k)", " GROUP BY r0.x"),
    ("r0.g, r0.x, COUNT(r0.k)", " GROUP BY r0.x, r0.g"), ("COUNT(*) + 1, r0.g * 2", " GROUP BY r0.g, r0.x HAVING COUNT(*) > 1"),
    ("r0.x", " GROUP BY r0.x, r0.g HAVING r0.g IS NOT NULL AND SUM(r0.k) > 2"), ("r0.g, SUM(r0.k) + r0.g", " GROUP BY r0.g HAVING COUNT(r0.k) IN (1, 2)"),
    ("DISTINCT COUNT(*), MAX(r0.x)", " GROUP BY r0.k"), ("r0.g, MAX(r0.u)", " GROUP BY r0.g HAVING MAX(r0.x) = 'b' OR COUNT(*) = 1"),
]


class Script:
    """A script by a counter, twice: as it is, and with the slow conjunct first in each ON and WHERE."""

    STEPS, COLUMNS = 12, "k, f, g, x, u"

    def __init__(self, counter: int) -> None:
        self.dice = random.Random(counter)
        self.is_large = counter % 20 == 19
        self.plain: list[str] = []
        self.slow: list[str] = []
        self.moment = 0
        self.has_key = False
        self.tables = [self.table(number) for number in range(self.dice.randint(1, 3))]
        self.fill()
        for _ in range(self.STEPS):
            self.dice.choice(self.steps())()

    def steps(self) -> list:
        """What follows the first rows, each as often as it is there."""
        return [self.query, self.query, self.query, self.change, self.transaction]

    def say(self, plain: str, where: str | None = None) -> None:
        """A statement, with the condition behind its WHERE, where it has one."""
        behind = f" AND {SLOW}" if where and self.dice.random() < 0.2 else ""
        slow = plain.replace(" ON ", f" ON {SLOW} AND ")
        self.plain.append(plain if where is None else plain.replace("{}", f" WHERE {where}{behind}" if where else ""))
        self.slow.append(slow if where is None else slow.replace("{}", f" WHERE {SLOW} AND {where}" if where else f" WHERE {SLOW}"))

    def on(self, refs: list[tuple[str, bool]], most: int, else_on: str) -> str:
        """An ON of some references. Of every fifth a conjunct calculates, anywhere among the others: the equalities before it find partners."""
        tests = [self.test(refs) for _ in range(self.dice.randint(0, most))] or [else_on]
        if self.dice.random() < 0.2:
            tests.insert(self.dice.randint(0, len(tests)), self.calculated_on(refs))
        return f" ON {' AND '.join(tests)}"

    def calculated_on(self, refs: list[tuple[str, bool]]) -> str:
        """A condition that calculates, out of range for no row."""
        (name, _), (other, _) = refs[0], refs[-1]
        return self.dice.choice([SLOW, f"{name}.k + {other}.k >= 0", f"{name}.k - {other}.g < 3"])

    def table(self, number: int) -> tuple[str, bool, bool]:
        """Creates a table: its name, whether it has days or moments in its period, whether it is versioned."""
        dice = self.dice
        days, versioned = dice.random() < 0.7, dice.random() < 0.5
        kind = "DATE" if days else "TIMESTAMP"
        parts = ["k INTEGER", f"f {kind}", "g INTEGER", "x VARCHAR(3)", f"u {kind}", "PERIOD FOR p (f, u)"]
        if versioned:
            parts.insert(dice.randint(0, 3), "s TIMESTAMP GENERATED ALWAYS AS ROW START")
            parts.insert(dice.randint(1, 5), "e TIMESTAMP GENERATED ALWAYS AS ROW END")
            parts.append("PERIOD FOR SYSTEM_TIME (s, e)")
        keys = dice.sample(KEYS, dice.randint(0, 2))
        parts += keys if sum(key.startswith("PRIMARY") for key in keys) < 2 else keys[:1]
        if number and self.has_key and dice.random() < 0.5:
            parts.append("FOREIGN KEY (g) REFERENCES t0 (k)")
        self.has_key = self.has_key or number == 0 and any(key in ("PRIMARY KEY (k)", "UNIQUE (k)") for key in parts)
        self.say(f"CREATE TABLE t{number} ({', '.join(parts)}){' WITH SYSTEM VERSIONING' if versioned else ''};")
        return f"t{number}", days, versioned

    def point(self, days: bool) -> str:
        day = f"2011-01-{self.dice.randint(1, 9):02}"
        return f"DATE '{day}'" if days else f"TIMESTAMP '{day} 00:00:00'"

    def number(self, none: float) -> str:
        return "NULL" if self.dice.random() < none else str(self.dice.randint(0, 299 if self.is_large else 4))

    def row(self, days: bool) -> str:
        text = "NULL" if self.dice.random() < 0.2 else self.dice.choice(TEXTS)
        first, last = self.point(days), self.point(days)
        if first > last and self.dice.random() < 0.9:
            first, last = last, first
        return f"({self.number(0.1)}, {first}, {self.number(0.2)}, {text}, {last})"

    def tick(self) -> None:
        self.moment += 1
        self.say(f"AT TIMESTAMP '2011-03-01 00:00:{self.moment:02}';")

    def fill(self) -> None:
        """Rows, each by a statement of its own, since some are refused; a few are changed or go later."""
        for name, days, _ in self.tables:
            self.tick()
            for _ in range(self.dice.randint(*((66, 150) if self.is_large else (0, 9)))):
                self.say(f"INSERT INTO {name} ({self.COLUMNS}) VALUES {self.row(days)};")
            self.tick()
            self.say(f"UPDATE {name} SET g = {self.number(0.2)}{{}};", self.condition([(name, days)], 1))
            self.say(f"DELETE FROM {name}{{}};", f"{name}.k = {self.number(0)}")

    def test(self, refs: list[tuple[str, bool]]) -> str:
        """A condition on some references: a key, a point, a period, an equality, or another."""
        dice = self.dice
        (name, days), (other, _) = dice.choice(refs), dice.choice(refs)
        column = dice.choice(["k", "k", "g"])
        literal = self.number(0)
        match dice.randint(0, 9):
            case 0 | 1 | 2:
                return dice.choice([f"{name}.{column} = {literal}", f"{literal} = {name}.{column}"])
            case 3:
                return f"{name}.x = {dice.choice(TEXTS)}"
            case 4:
                return f"{name}.p CONTAINS {self.point(days)}"
            case 5:
                return f"{name}.p OVERLAPS PERIOD ({self.point(days)}, {self.point(days)})"
            case 6 | 7:
                return f"{name}.{column} = {other}.{dice.choice(['k', 'g'])}"
            case 8:
                return dice.choice([f"{name}.g IS NULL", f"{name}.x IS NOT NULL", f"NOT {name}.p CONTAINS {self.point(days)}"])
            case _:
                return f"({name}.{column} < {literal} OR {name}.x = {other}.x)"

    def condition(self, refs: list[tuple[str, bool]], most: int) -> str:
        return " AND ".join(self.test(refs) for _ in range(self.dice.randint(0, most)))

    def reference(self, number: int) -> tuple[str, tuple[str, bool]]:
        """A table reference, and the name and the kind by which its columns are named."""
        name, days, versioned = self.dice.choice(self.tables)
        span = ""
        if versioned and self.dice.random() < 0.4:
            first, last = (f"TIMESTAMP '2011-03-01 00:00:{self.dice.randint(0, 9):02}'" for _ in range(2))
            span = " FOR SYSTEM_TIME " + self.dice.choice([f"AS OF {first}", f"FROM {first} TO {last}", f"BETWEEN {first} AND {last}"])
        return f"{name}{span} AS r{number}", (f"r{number}", days)

    def select(self) -> tuple[str, str]:
        """A query without its WHERE, and the condition of that."""
        chains: list[str] = []
        refs: list[tuple[str, bool]] = []
        for _ in range(self.dice.choice([1, 1, 1, 2, 3])):
            text, ref = self.reference(len(refs))
            near = [ref]
            refs.append(ref)
            for _ in range(self.dice.choice([0, 1][: 3 - len(refs)] if self.is_large else [0, 1, 1, 2])):
                more, ref = self.reference(len(refs))
                near.append(ref)
                refs.append(ref)
                kind = self.dice.choice(["JOIN", "INNER JOIN", "LEFT JOIN", "LEFT JOIN", "CROSS JOIN"])
                on = self.on(near, 2, f"{ref[0]}.k = {ref[0]}.k") if kind != "CROSS JOIN" else ""
                text += f" {kind} {more}{on}"
            chains.append(text)
            if len(refs) > (1 if self.is_large else 4):
                break
        items, end = self.dice.choice(SHAPES)
        return f"SELECT {items} FROM {', '.join(chains)}{{}}{end}", self.condition(refs[:1], 2) if self.dice.random() < 0.4 else self.condition(refs, 4)

    def query(self) -> None:
        text, where = self.select()
        self.say(f"{text};", where)

    def change(self) -> None:
        """A change by a condition, and what it left."""
        name, days, _ = self.dice.choice(self.tables)
        self.tick()
        where = self.condition([(name, days)], 2)
        portion = f" FOR PORTION OF p FROM {self.point(days)} TO {self.point(days)}" if self.dice.random() < 0.4 else ""
        self.say(self.dice.choice([f"UPDATE {name}{portion} SET x = 'z'{{}};", f"DELETE FROM {name}{portion}{{}};"]), where)
        self.say(f"SELECT * FROM {name};")

    def transaction(self) -> None:
        """A query and a change in a transaction that added, changed and took some rows, and the query behind its end."""
        name, days, _ = self.dice.choice(self.tables)
        text, where = self.select()
        self.tick()
        self.say("START TRANSACTION;")
        self.say(f"INSERT INTO {name} ({self.COLUMNS}) VALUES {self.row(days)};")
        self.say(f"UPDATE {name} SET u = {self.point(days)}{{}};", self.condition([(name, days)], 2))
        self.say(f"DELETE FROM {name}{{}};", f"{name}.k = {self.number(0)}")
        self.say(f"{text};", where)
        self.say(self.dice.choice(["COMMIT;", "ROLLBACK;"]))
        self.say(f"{text};", where)
