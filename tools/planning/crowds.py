"""Scripts in which few key values have many rows."""
import random

from planning.scripts import TEXTS, Script


class Crowd(Script):
    """A script in which few key values have many rows: t0 with a key WITHOUT OVERLAPS, t1 that references it with PERIOD, and t2 with hot rows."""

    DAYS = 60

    def __init__(self, counter: int) -> None:
        self.values = random.Random(counter).choice([[1], [1], [1, 2], [0, 1, -1], [9223372036854775807, 9223372036854775806]])
        super().__init__(counter)
        for _ in range(6):
            self.dice.choice([self.query, self.change, self.read])()

    def table(self, number: int) -> tuple[str, bool, bool]:
        """One of the three tables; the others, where there are fewer, are made by `fill`."""
        dice = self.dice
        versioned = number == 2 or dice.random() < 0.7
        parts = ["k INTEGER", "f DATE", "g INTEGER", "x VARCHAR(3)", "u DATE", "PERIOD FOR p (f, u)"]
        if versioned:
            parts += ["s TIMESTAMP GENERATED ALWAYS AS ROW START", "e TIMESTAMP GENERATED ALWAYS AS ROW END", "PERIOD FOR SYSTEM_TIME (s, e)"]
        parts.append(["PRIMARY KEY (k, p WITHOUT OVERLAPS)", "FOREIGN KEY (k, PERIOD p) REFERENCES t0 (k, PERIOD p)", "PRIMARY KEY (k)"][number])
        parts += ["UNIQUE (k, g, p WITHOUT OVERLAPS)"] if number < 2 and dice.random() < 0.3 else []
        self.say(f"CREATE TABLE t{number} ({', '.join(parts)}){' WITH SYSTEM VERSIONING' if versioned else ''};")
        return f"t{number}", True, versioned

    def day(self, at: int) -> str:
        """A day of the sixty, or the one that follows them."""
        at = max(0, min(at, self.DAYS))
        return f"DATE '2011-{1 + at // 31:02}-{1 + at % 31:02}'" if at < 59 else f"DATE '2011-03-{at - 58:02}'"

    def point(self, _days: bool) -> str:
        return self.day(self.dice.randint(0, self.DAYS))

    def period(self) -> tuple[str, str]:
        """A short period, between two days that mostly end others."""
        first = self.dice.randint(0, self.DAYS - 1)
        return self.day(first), self.day(first + self.dice.choice([1, 1, 2, 3, 5, 10]))

    def number(self, none: float) -> str:
        return "NULL" if self.dice.random() < none else str(self.dice.choice([self.values[0], self.dice.choice(self.values)]))

    def row(self, _days: bool) -> str:
        first, last = self.period()
        return f"({self.number(0.03)}, {first}, {self.dice.randint(0, 4)}, {self.dice.choice(TEXTS)}, {last})"

    def fill(self) -> None:
        """Periods of each value that meet, by several statements in any order; rows that reference them; and versions of a few rows."""
        self.tables += [self.table(number) for number in range(len(self.tables), 3)]
        dice, rows = self.dice, []
        for value in self.values:
            at, many = dice.randint(0, 3), dice.choice([dice.randint(20, 60) // len(self.values), self.DAYS])
            while many > 0 and at < self.DAYS:
                length = dice.choice([1, 1, 1, 2, 3])
                rows.append(f"({value}, {self.day(at)}, {dice.randint(0, 4)}, {dice.choice(TEXTS)}, {self.day(at + length)})")
                at, many = at + length + (dice.random() < 0.1), many - 1
        dice.shuffle(rows)
        while rows:
            many = dice.randint(1, 20)
            self.tick()
            self.say(f"INSERT INTO t0 (k, f, g, x, u) VALUES {', '.join(rows[:many])};")
            rows = rows[many:]
        for _ in range(dice.randint(10, 30)):
            self.say(f"INSERT INTO t{1 - (dice.random() < 0.1)} (k, f, g, x, u) VALUES {self.row(True)};")
        self.say(f"INSERT INTO t2 (k, f, g, x, u) VALUES {', '.join(f'({it}, {self.day(0)}, 0, NULL, {self.day(self.DAYS)})' for it in self.values)};")
        for _ in range(dice.randint(5, 30)):
            if dice.random() < 0.5:
                self.tick()
            self.say("UPDATE t2 SET g = g + 1{};", f"k = {self.number(0)}")

    def when(self) -> str:
        """A moment at a commit or next to one."""
        return f"TIMESTAMP '2011-03-01 00:00:{self.dice.randint(0, self.moment):02}.{self.dice.randint(0, 3):06}'"

    def test(self, refs: list[tuple[str, bool]]) -> str:
        """A condition on some references: a key value, a point, a period, or how two rows meet."""
        dice = self.dice
        (name, _), (other, _) = dice.choice(refs), dice.choice(refs)
        match dice.randint(0, 11):
            case 0 | 1 | 2:
                return f"{name}.k = {self.number(0)}"
            case 3 | 4:
                return f"{name}.p CONTAINS {self.point(True)}"
            case 5:
                return f"{name}.p {dice.choice(['OVERLAPS', 'OVERLAPS', 'EQUALS', 'IMMEDIATELY SUCCEEDS'])} PERIOD ({', '.join(self.period())})"
            case 6 | 7:
                return f"{name}.k = {other}.k"
            case 8:
                return f"{name}.p {dice.choice(['OVERLAPS', 'OVERLAPS', 'CONTAINS', 'IMMEDIATELY PRECEDES'])} {other}.p"
            case 9:
                return f"{name}.p CONTAINS {other}.f"
            case 10:
                return f"{name}.f {dice.choice(['=', '<', '>='])} {self.point(True)}"
            case _:
                return f"{name}.x = {dice.choice(TEXTS)}"

    def condition(self, refs: list[tuple[str, bool]], most: int) -> str:
        """Mostly a key value, or one key value of two references, with other conditions."""
        first = f"{refs[-1][0]}.k = {self.number(0) if len(refs) == 1 else refs[0][0] + '.k'}"
        more = super().condition(refs, most)
        return " AND ".join(it for it in (first, more) if it) if most and self.dice.random() < 0.7 else more

    def reference(self, number: int) -> tuple[str, tuple[str, bool]]:
        name, _, versioned = self.dice.choice(self.tables)
        span = ""
        if versioned and self.dice.random() < 0.6:
            first, last = self.when(), self.when()
            first, last = (first, last) if self.dice.random() < 0.2 else (min(first, last), max(first, last))
            span = " FOR SYSTEM_TIME " + self.dice.choice([f"AS OF {first}", f"FROM {first} TO {last}", f"BETWEEN {first} AND {last}"])
        return f"{name}{span} AS r{number}", (f"r{number}", True)

    def select(self) -> tuple[str, str]:
        """A query of one table or of two that are joined, without its WHERE, and the condition of that."""
        text, ref = self.reference(0)
        refs = [ref]
        if self.dice.random() < 0.5:
            more, ref = self.reference(1)
            refs.append(ref)
            text += self.dice.choice([f", {more}", *[f" {kind} {more} ON {self.condition(refs, 2) or 'r0.k = r1.k'}" for kind in ("JOIN", "LEFT JOIN")]])
        items = self.dice.choice(["*", "COUNT(*)", "r0.k, r0.f, r0.x", "MAX(r0.u), COUNT(r0.g)"])
        return f"SELECT {items} FROM {text}{{}}", self.condition(refs, 3)

    def read(self) -> None:
        """A query of a reader, which a change does not reach."""
        text, where = self.select()
        self.say("OPEN READER r;")
        self.change()
        self.say(f"READ r {text};", where)
        self.say("CLOSE READER r;")

    def change(self) -> None:
        """A change of a portion, or of whole rows, and what it left."""
        name, _, _ = self.dice.choice(self.tables[:2])
        self.tick()
        portion = f" FOR PORTION OF p FROM {' TO '.join(self.period())}" if self.dice.random() < 0.6 else ""
        sets = self.dice.choice(["x = 'z'", "g = g + 1", f"k = {self.number(0)}"])
        self.say(self.dice.choice([f"UPDATE {name}{portion} SET {sets}{{}};", f"DELETE FROM {name}{portion}{{}};"]), self.condition([(name, True)], 2))
        self.say(f"SELECT * FROM {name};")
