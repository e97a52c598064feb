"""The tables and the statements of scripts in which one key value, or two, have a row on most of the forty days."""
from days.machines import DAYS, Database, Insert, Modify, Table
from days.makers import LETTERS, Maker, both, clock, plus, same, written


class Crowd(Maker):
    """A parent with a key WITHOUT OVERLAPS of its first column, and one child or two with a reference to it."""

    def __init__(self, seed: int, database: Database, prunes: bool = False) -> None:
        super().__init__(seed, database, prunes)
        self.crowds = self.any_of(((1,), (1, 2), (0, 1), (-1, 0, 1)))

    # ---- definitions

    def keys(self, table: Table) -> list:
        if table.name != "dept" and self.below(4):
            return []
        table.keys.append((0,))
        is_primary = self.one_in(2)
        table.required[0] |= is_primary
        return [f"{'PRIMARY KEY' if is_primary else 'UNIQUE'} (k, {table.period} WITHOUT OVERLAPS)"]

    def references(self, table: Table, before: list) -> list:
        for parent in before[:1]:
            table.references.append(((0,), parent, (0,)))
        return [f"FOREIGN KEY (k, PERIOD {table.period}) REFERENCES {parent.name} (k, PERIOD {parent.period})" for parent in before[:1]]

    def checks(self, table: Table) -> list:
        if not self.one_in(8):
            return []
        texts = super().checks(table)[:1]
        del table.checks[1:]
        return texts

    # ---- rows

    def key(self) -> int:
        return self.crowds[0] if self.one_in(2) else self.any_of(self.crowds)

    def days(self) -> tuple:
        """A few days; now and then all up to the end."""
        first = self.below(DAYS)
        return first, min(DAYS, first + self.any_of((1, 1, 2, 3, 5, 8, DAYS)))

    def held(self, table: Table, key: int) -> list:
        """The days on which a table has a row of a key value."""
        return [at for at, machine in enumerate(self.database.days) if any(row[0] == key for row in machine.copy(None).get(table, []))]

    def stretch(self, days: list, most: int) -> tuple:
        """Some days of a list that follow each other, now and then one more on either side."""
        if not days:
            return self.days()
        first = last = self.any_of(days)
        while last + 1 in days and last - first < most:
            last += 1
        first, last = first - self.one_in(10), last + 1 + self.one_in(10)
        return max(0, first), min(DAYS, last)

    def row(self, table: Table, odd: bool) -> tuple:
        """A row and its days: of the parent mostly where it has none of the key, of a child mostly where the parent has one."""
        row, key = [self.value(table, it, odd) for it in range(len(table.columns))], self.key()
        row[0] = None if self.one_in(20) and not table.required[0] else key
        if table.references:
            return tuple(row), *self.stretch(self.held(table.references[0][1], key), self.below(9))
        held = self.held(table, key)
        return tuple(row), *self.stretch([at for at in range(DAYS) if at not in held] if self.below(5) else held, self.below(3))

    def first_rows(self) -> list:
        """INSERTs of a row of the parent for most days and each key value, some at a time and in any order."""
        table = self.database.tables[0]
        days = [(key, at) for key in self.crowds for at in range(DAYS) if self.below(12)]
        left, made = [days.pop(self.below(len(days))) for _ in range(len(days))], []
        while left:
            many = 4 + self.below(16)
            rows = []
            for key, at in left[:many]:
                row = [self.value(table, it, False) for it in range(len(table.columns))]
                rows.append(((key, *(self.fit(table, it, value) for it, value in enumerate(row) if it)), at, at + 1))
            made, left = made + [self.insertion(table, rows)], left[many:]
        return made

    def fit(self, table: Table, at: int, value):
        """A value that a column takes."""
        return value if value is not None or not table.required[at] else 1 if table.limits[at] is None else "A"

    def insertion(self, table: Table, rows: list) -> tuple:
        tuples = ", ".join(f"({self.points(first)}, {', '.join(map(written, row))}, {self.points(last)})" for row, first, last in rows)
        return f"INSERT INTO {table.name} (f, {', '.join(table.columns)}, u) VALUES {tuples}", ("change", "INSERT", Insert(table, rows))

    def insert(self) -> tuple:
        """Rows of one table, of which the second often follows the first."""
        table, odd = self.any_of(self.database.tables), self.one_in(12)
        rows = [self.row(table, odd)]
        for _ in range(self.below(3)):
            values, _, last = rows[-1]
            rows.append((values, last, last + 1) if last < DAYS and self.one_in(3) else self.row(table, odd))
        return self.insertion(table, rows)

    # ---- changes

    def condition(self, table: Table) -> tuple:
        """Mostly one key value, with a condition on a text now and then."""
        if self.one_in(8):
            return super().condition(table)
        key, letter, at = self.key(), self.any_of(LETTERS), len(table.columns) - 1
        if self.one_in(4):
            return f" WHERE {table.columns[at]} = '{letter}' AND k = {key}", lambda row: both(same(row[at], letter), same(row[0], key))
        return f" WHERE {table.name}.k = {key}", lambda row: same(row[0], key)

    def modify(self) -> tuple:
        """As of others, and now and then all rows of two key values get each other's."""
        table = self.any_of(self.database.tables)
        if self.crowds == (1, 2) and self.one_in(6):
            sets = [lambda row: plus(3, -row[0]) if row[0] is not None else None, *(lambda row, at=at: row[at] for at in range(1, len(table.columns)))]
            return f"UPDATE {table.name} SET k = 3 - k", ("change", "UPDATE", Modify(table, sets, None, lambda row: True))
        return super().modify()

    # ---- questions

    def ask(self) -> tuple:
        """What holds of a key value on a day, now or as of a moment at a commit or beside it."""
        tables = self.database.tables
        table, at, key = self.any_of([tables[0], *tables]), self.below(DAYS), self.key()
        moment = self.moment() if table.is_versioned and self.below(4) else None
        clause = "" if moment is None else f" FOR SYSTEM_TIME AS OF {clock(moment)}"
        text = f"SELECT {', '.join(table.columns)} FROM {table.name}{clause} WHERE k = {key} AND {table.period} CONTAINS {self.points(at)}"
        return text, ("ask", table, at, moment, lambda row: row[0] == key)

    def last_questions(self) -> list:
        """As of others, some of a key value on a day, and on each day the rows of a child with those of the parent, joined by key and period."""
        parent, child = self.database.tables[:2]
        listed = ", ".join([*(f"e.{it}" for it in child.columns), *(f"d.{it} AS d_{it}" for it in parent.columns)])
        joined = (f"SELECT day, {listed} FROM calendar c, emp e JOIN dept d ON e.k = d.k AND e.{child.period} OVERLAPS d.{parent.period} "
                  f"WHERE e.{child.period} CONTAINS c.f AND d.{parent.period} CONTAINS c.f")
        return [*(self.ask() for _ in range(12)), (joined, ("ask_joined", child, parent)), *super().last_questions()]

    def picked(self) -> tuple:
        """A statement; of some that are tried mostly one that does something."""
        for _ in range(4):
            line, statement = self.statement()
            if not self.below(4) or not self.is_dull(statement):
                break
        return line, statement
