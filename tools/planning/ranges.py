"""Scripts of tables that are read by ranges of a key, by several values and by one, and of calculations on either side of what is looked up."""
from datetime import date, timedelta

from planning.scripts import SHAPES, TEXTS, Script

LEAST, MOST = -(2**63), 2**63 - 1
FIRST = date(2011, 1, 1)
# Of one column each key and reference is read by ranges and by values; the others are not.
KEYS = ["PRIMARY KEY (k)", "PRIMARY KEY (k)", "UNIQUE (k)", "UNIQUE (k)", "PRIMARY KEY (f)", "UNIQUE (f)", "UNIQUE (u)", "UNIQUE (x, k)", "UNIQUE (k, f)",
        "PRIMARY KEY (k, p WITHOUT OVERLAPS)", "UNIQUE (f, p WITHOUT OVERLAPS)"]
SIGNS = {"<": ">", "<=": ">=", ">": "<", ">=": "<="}
# Select lists in which v may be out of range, in an item, in an aggregate, or in HAVING on either side of what drops the group.
CALCULATED = [
    ("r0.k, r0.v + 1", ""), ("DISTINCT r0.v + 1", ""), ("DISTINCT r0.v - r0.v", ""), ("SUM(r0.v)", ""), ("SUM(r0.v + 1), COUNT(*)", ""),
    ("MAX(r0.v) + 1", ""), ("SUM(r0.v) + SUM(r0.g)", " HAVING COUNT(*) > 3"), ("r0.g, SUM(r0.v)", " GROUP BY r0.g"),
    ("r0.g, SUM(r0.v)", " GROUP BY r0.g HAVING COUNT(*) > 2"), ("r0.x", " GROUP BY r0.x HAVING COUNT(*) > 3 AND SUM(r0.v) > 9"),
    ("r0.x", " GROUP BY r0.x HAVING SUM(r0.v) > 9 AND COUNT(*) > 3"), ("r0.g", " GROUP BY r0.g, r0.x HAVING SUM(r0.v) > 0 OR COUNT(*) = 1"),
    ("r0.g + MAX(r0.v)", " GROUP BY r0.g HAVING r0.g < 4"),
]


class Ranges(Script):
    """A script of one to three tables of up to 120 rows: numbers, days and moments under keys of one column, NULLs, and a column v that holds the
    highest number now and then, so that a calculation with it is out of range."""

    SIZES, STEPS, MOST_PAIRS, COLUMNS = (0, 6, 25, 60, 120), 14, 100_000, "k, f, g, x, u, v"

    def __init__(self, counter: int) -> None:
        self.sizes: dict[str, int] = {}
        # Of each table, and each reference of a query, the columns that alone are a key or a reference.
        self.singles: dict[str, str] = {}
        super().__init__(counter)

    def steps(self) -> list:
        more = [self.read] if all(versioned for _, _, versioned in self.tables) else []
        return [self.query, self.query, self.query, self.query, self.query, self.change, self.change, self.copy, self.transaction, *more]

    # ---- tables and rows

    def table(self, number: int) -> tuple[str, bool, bool]:
        dice = self.dice
        days, versioned = dice.random() < 0.6, dice.random() < 0.5
        kind = "DATE" if days else "TIMESTAMP"
        parts = ["k INTEGER", f"f {kind}", "g INTEGER", "x VARCHAR(3)", f"u {kind}", "v INTEGER", "PERIOD FOR p (f, u)"]
        if versioned:
            parts.insert(dice.randint(0, 3), "s TIMESTAMP GENERATED ALWAYS AS ROW START")
            parts.insert(dice.randint(1, 5), "e TIMESTAMP GENERATED ALWAYS AS ROW END")
            parts.append("PERIOD FOR SYSTEM_TIME (s, e)")
        keys = dice.sample(KEYS, dice.choice([0, 1, 2, 2, 3, 3]))
        primary = [it for it in keys if it.startswith("PRIMARY")]
        parts += [it for it in keys if it not in primary[1:]]
        if number and self.has_key and dice.random() < 0.6:
            parts.append("FOREIGN KEY (g) REFERENCES t0 (k)")
        self.has_key = self.has_key or number == 0 and any(it in ("PRIMARY KEY (k)", "UNIQUE (k)") for it in parts)
        self.say(f"CREATE TABLE t{number} ({', '.join(parts)}){' WITH SYSTEM VERSIONING' if versioned else ''};")
        self.sizes[f"t{number}"] = dice.choice(self.SIZES)
        self.singles[f"t{number}"] = "".join(it for it in "kfgu" if any(f"KEY ({it})" in part or f"UNIQUE ({it})" in part or f"({it}, p W" in part
                                                                     for part in parts))
        return f"t{number}", days, versioned

    def written(self, value: int, column: str, days: bool) -> str:
        """A number as a literal of a column: of f and u the days since the first one, or hours."""
        if column not in "fu":
            return str(value)
        if days:
            return f"DATE '{FIRST + timedelta(days=value)}'"
        return f"TIMESTAMP '{FIRST + timedelta(days=value // 24)} {value % 24:02}:00:00'"

    def point(self, days: bool) -> str:
        return self.written(self.dice.randint(0, self.high), "f", days)

    @property
    def high(self) -> int:
        """The highest number under a key of the largest table, or a little more."""
        return 2 * max([6, *self.sizes.values()])

    def cells(self, k: int, f: int, days: bool) -> str:
        """A row with a number and a point; of some rows one of them is NULL or at an end of its type."""
        dice = self.dice
        k = dice.choice([LEAST, LEAST + 1, MOST, MOST - 1, -1]) if dice.random() < 0.02 else k
        cells = ["NULL" if dice.random() < 0.04 else str(k), self.written(f, "f", days), self.number(0.15),
                 "NULL" if dice.random() < 0.15 else dice.choice(TEXTS), self.written(f + dice.choice([1, 2, 3, 10, 30]), "u", days),
                 "NULL" if dice.random() < 0.1 else str(MOST if dice.random() < 0.03 else dice.randint(-3, 9))]
        return f"({', '.join(cells)})"

    def rows(self, size: int, days: bool) -> list[str]:
        """Rows, most of which have a key of their own; not each number is there."""
        return [self.cells(k, f, days) for k, f in zip(self.dice.sample(range(2 * size), size), self.dice.sample(range(2 * size), size))]

    def row(self, days: bool) -> str:
        return self.cells(self.dice.randint(0, self.high), self.dice.randint(0, self.high), days)

    def number(self, none: float) -> str:
        return "NULL" if self.dice.random() < none else str(self.dice.randint(0, 7))

    def fill(self) -> None:
        for name, days, _ in self.tables:
            self.tick()
            rows = self.rows(self.sizes[name], days)
            while rows:
                many = self.dice.randint(1, 4)
                self.say(f"INSERT INTO {name} ({self.COLUMNS}) VALUES {', '.join(rows[:many])};")
                rows = rows[many:]
            self.tick()
            self.say(f"UPDATE {name} SET g = {self.number(0.2)}, v = v - 1{{}};", f"{name}.k < {self.literal('k', days)}")
            self.say(f"DELETE FROM {name}{{}};", f"{name}.k = {self.literal('k', days)}")

    # ---- conditions

    def column(self, name: str, columns: str) -> str:
        """One of some columns of a table or a reference, mostly one that is a key."""
        singles = self.singles[name]
        return self.dice.choice(singles if singles and self.dice.random() < 0.6 else columns)

    def value(self) -> int:
        return self.dice.randint(-2, self.dice.choice([self.high, self.high, 12]))

    def literal(self, column: str, days: bool) -> str:
        """A literal of a column, mostly near its values, now and then at an end of its type."""
        dice = self.dice
        if column == "x":
            return dice.choice(TEXTS)
        if dice.random() < 0.06:
            ends = [str(it) for it in (LEAST, LEAST + 1, MOST - 1, MOST)] if column not in "fu" else [
                "DATE '0001-01-01'", "DATE '9999-12-31'"] if days else ["TIMESTAMP '0001-01-01 00:00:00'", "TIMESTAMP '9999-12-31 23:59:59.999999'"]
            return dice.choice(ends)
        return self.written(dice.randint(0, 7) if column in "gv" else self.value(), column, days)

    def bound(self, name: str, sign: str, literal: str) -> str:
        """A comparison, either way round."""
        return f"{name} {sign} {literal}" if self.dice.random() < 0.7 else f"{literal} {SIGNS[sign]} {name}"

    def range(self, name: str, days: bool) -> list[str]:
        """The conjuncts of a range of a column: of both bounds, of one, reversed, of one value, empty, negated, or with bounds that are no literals."""
        dice, column = self.dice, self.column(name, "kkkffug")
        one, width = dice.randint(-1, 8) if column == "g" else self.value(), dice.choice([0, 0, 1, 1, 2, 5, 20, 60, -1, -5])
        low, high = (self.written(it, column, days) for it in (one, one + width))
        low, high = (it if dice.random() < 0.94 else self.literal(column, days) for it in (low, high))
        name = f"{name}.{column}"
        match dice.randint(0, 11):
            case 0 | 1 | 2 | 3:
                return [f"{name} BETWEEN {low} AND {high}"]
            case 4 | 5 | 6:
                return [self.bound(name, dice.choice([">", ">="]), low), self.bound(name, dice.choice(["<", "<="]), high)]
            case 7:
                return [self.bound(name, dice.choice([*SIGNS]), low)]
            case 8:
                return [f"{name} {dice.choice([*SIGNS])} {it}" for it in (low, high, self.literal(column, days))]
            case 9:
                return [f"({name} > {low} AND {name} <= {high})" if dice.random() < 0.5 else f"{name} = {low}", f"{name} >= {low}"]
            case 10:
                return [dice.choice([f"{name} NOT BETWEEN {low} AND {high}", f"NOT {name} BETWEEN {low} AND {high}", f"NOT {name} > {low}"])]
            case _:
                other = f"{name.split('.')[0]}.{column if column in 'fu' else dice.choice('gv')}"
                return [dice.choice([f"{name} BETWEEN {low} AND {other}", f"{other} <= {name} AND {name} < {high}", f"{high} BETWEEN {other} AND {name}"])]

    def among(self, name: str, days: bool) -> str:
        """IN: of repeats, of columns that may be NULL, of one value or of many; now and then NOT IN."""
        dice, column = self.dice, self.column(name, "kkffgx")
        listed = [self.literal(column, days) for _ in range(dice.choice([1, 2, 2, 3, 5, 5, 9, 60]))]
        listed += dice.sample(listed, dice.randint(0, min(2, len(listed))))
        if dice.random() < 0.15:
            listed.insert(dice.randint(0, len(listed)), f"{name}.{column if column in 'fux' else dice.choice('gv')}")
        return f"{name}.{column}{' NOT' if dice.random() < 0.1 else ''} IN ({', '.join(listed)})"

    def either(self, name: str, days: bool) -> str:
        """OR: of equalities of one column, or with a condition on another, a range or a calculation; in parentheses."""
        dice, column = self.dice, self.column(name, "kkffgx")
        members = []
        for _ in range(dice.choice([2, 2, 3, 4])):
            literal = self.literal(column, days)
            members.append(f"{name}.{column} = {literal}" if dice.random() < 0.7 else f"{literal} = {name}.{column}")
        if dice.random() < 0.35:
            more = [self.test_of(name, days), " AND ".join(self.range(name, days)), f"{name}.k IN ({self.value()}, {self.value()})", self.calculated(name)]
            members.insert(dice.randint(0, len(members)), dice.choice(more))
        if len(members) > 2 and dice.random() < 0.3:
            members = [f"({members[0]} OR {members[1]})", *members[2:]]
        return f"({' OR '.join(members)})"

    def calculated(self, name: str) -> str:
        """A condition that calculates, which may be out of range for some rows."""
        return self.dice.choice([f"{name}.v + 1 > 0", f"{name}.v + 1 > 0", f"{name}.v * 2 < 12", f"{name}.k + 1 > {self.value()}", f"{name}.g - 1 = 2",
                                 f"{name}.k = {self.value()} + 1", f"{name}.v + {name}.g <> 4"])

    def test_of(self, name: str, days: bool) -> str:
        """A condition that is neither a range nor of several values."""
        dice, column = self.dice, self.dice.choice("kkfgxv")
        return dice.choice([f"{name}.{column} = {self.literal(column, days)}", f"{self.literal(column, days)} = {name}.{column}",
                            f"{name}.{column} <> {self.literal(column, days)}", f"{name}.{column} IS NOT NULL", f"{name}.g IS NULL",
                            f"{name}.p CONTAINS {self.point(days)}", f"{name}.p OVERLAPS PERIOD ({self.point(days)}, {self.point(days)})",
                            f"{name}.x > {dice.choice(TEXTS)}", f"NOT {name}.k = {self.value()}", f"{name}.k < {name}.v"])

    def members(self, refs: list[tuple[str, bool]]) -> list[str]:
        """The next conjuncts of a condition."""
        dice = self.dice
        (name, days), (other, _) = dice.choice(refs), dice.choice(refs)
        match dice.randint(0, 19):
            case 0 | 1 | 2 | 3 | 4 | 5 | 6:
                return self.range(name, days)
            case 7 | 8 | 9 | 10:
                return [self.among(name, days)]
            case 11 | 12 | 13:
                return [self.either(name, days)]
            case 14:
                return [self.calculated(name)]
            case 15 | 16 if other != name:
                return [f"{name}.{dice.choice('kg')} = {other}.{dice.choice('kg')}"]
            case _:
                return [self.test_of(name, days)]

    def condition(self, refs: list[tuple[str, bool]], most: int) -> str:
        found = [it for _ in range(self.dice.randint(min(most, 1), most)) for it in self.members(refs)]
        if self.dice.random() < 0.5:
            self.dice.shuffle(found)
        if len(found) == 1 and found[0].startswith("(") and self.dice.random() < 0.5:
            return found[0][1:-1]
        return " AND ".join(found)

    # ---- queries and changes

    def reference(self, number: int) -> tuple[str, tuple[str, bool]]:
        """A table reference; a range of moments mostly rises, and ends by now."""
        name, days, versioned = self.dice.choice(self.tables)
        self.singles[f"r{number}"], span = self.singles[name], ""
        if versioned and self.dice.random() < 0.35:
            moments = [self.dice.randint(0, self.moment) for _ in range(2)]
            first, last = (f"TIMESTAMP '2011-03-01 00:00:{it:02}'" for it in (sorted(moments) if self.dice.random() < 0.9 else moments))
            span = " FOR SYSTEM_TIME " + self.dice.choice([f"AS OF {last}", f"FROM {first} TO {last}", f"BETWEEN {first} AND {last}"])
        return f"{name}{span} AS r{number}", (f"r{number}", days)

    def select(self) -> tuple[str, str]:
        """A query of one table, of two, or of a product of three that is small enough, without its WHERE, and the condition of that."""
        dice, pairs = self.dice, 1
        text, refs, near = "", [], 0
        for number in range(dice.choice([1, 1, 1, 1, 1, 2, 2, 3])):
            more, ref = self.reference(number)
            pairs *= max(1, self.sizes[more.split()[0]])
            if number and pairs > self.MOST_PAIRS:
                break
            refs.append(ref)
            join = dice.choice([", ", ", ", " CROSS JOIN ", " JOIN ", " LEFT JOIN "]) if number else ""
            near = number if join == ", " else near
            text += join + more + (f" ON {self.condition(refs[near:], 2)}" if join in (" JOIN ", " LEFT JOIN ") else "")
        items, end = dice.choice(SHAPES if dice.random() < 0.65 else CALCULATED)
        return f"SELECT {items} FROM {text}{{}}{end}", self.condition(refs, 2 if len(refs) == 1 else 3) if dice.random() < 0.95 else ""

    def change(self) -> None:
        """An UPDATE or a DELETE by a range, by values or by another condition, and what it left."""
        dice = self.dice
        name, days, _ = dice.choice(self.tables)
        self.tick()
        portion = f" FOR PORTION OF p FROM {self.point(days)} TO {self.point(days)}" if dice.random() < 0.25 else ""
        sets = ["v = v + 1", "x = 'z'", "g = NULL", "v = 7", "k = k + 1", f"k = {self.value()}", "g = g + 1, v = g"]
        text = f"UPDATE {name}{portion} SET {dice.choice(sets)}{{}};" if dice.random() < 0.6 else f"DELETE FROM {name}{portion}{{}};"
        self.say(text, self.condition([(name, days)], 2) or f"{name}.k = 0")
        self.say(f"SELECT * FROM {name};")

    def copy(self) -> None:
        """Rows of a table that are put into one, by a query with a range."""
        (name, _, _), (source, days, _) = self.dice.choice(self.tables), self.dice.choice(self.tables)
        self.tick()
        self.say(f"INSERT INTO {name} (k, f, g, x, u, v) SELECT k + 1000, f, g, x, u, v FROM {source}{{}};", self.condition([(source, days)], 2))
        self.say(f"SELECT COUNT(*), MAX(k) FROM {name};")

    def read(self) -> None:
        """A query of a reader, which a change does not reach."""
        text, where = self.select()
        self.say("OPEN READER q;")
        self.change()
        self.say(f"READ q {text};", where)
        self.say("CLOSE READER q;")


class Large(Ranges):
    """A script of a table of thousands of rows, and mostly one of few: each query reads one of them or joins both."""

    STEPS, MOST_PAIRS = 8, 200_000

    def table(self, number: int) -> tuple[str, bool, bool]:
        made = super().table(number)
        self.sizes[made[0]] = self.dice.randint(2_000, 6_000) if number == 0 else 20
        return made

    def fill(self) -> None:
        """Rows by INSERTs of some hundreds, in which no key stands twice."""
        for name, days, _ in self.tables:
            self.tick()
            size, texts = self.sizes[name], [it for it in self.plain if it.startswith(f"CREATE TABLE {name} ")]
            takes_null, rows = "PRIMARY KEY (k" not in texts[0], []
            for at in self.dice.sample(range(size), size):
                k, v = "NULL" if takes_null and at % 97 == 0 else 2 * at, MOST if at % 501 == 7 else at % 10 - 3
                first, last = (self.written(it, "f", days) for it in (2 * at, 2 * at + 1))
                rows.append(f"({k}, {first}, {self.number(0.15)}, {self.dice.choice(TEXTS)}, {last}, {v})")
            for at in range(0, size, 500):
                self.say(f"INSERT INTO {name} ({self.COLUMNS}) VALUES {', '.join(rows[at:at + 500])};")
            self.tick()
            self.say(f"UPDATE {name} SET v = v - 1{{}};", f"{name}.k BETWEEN {size // 2} AND {size}")

    def steps(self) -> list:
        return [self.query, self.query, self.query, self.query, self.query, self.query, self.change]
