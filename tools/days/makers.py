"""The tables and the statements that a counter makes, as they are written and as each day sees them."""
from days.machines import BEGIN, DAYS, MOST, Database, Insert, Modify, Refused, Table, number

HEAD = "-- Made by a counter (tools/points.py). What holds on a day comes from a machine of that day alone, which knows no period.\n"
LETTERS = ("A", "B", "Cd")


def day(at: int) -> str:
    """A day of the forty, of which the first is a Monday in January; and the one behind them."""
    month, rest = (1, at) if at < 29 else (2, at - 29)
    return f"2011-{month:02}-{rest + 3 if month == 1 else rest + 1:02}"


POINTS = {"DATE": lambda at: f"DATE '{day(at)}'", "TIMESTAMP": lambda at: f"TIMESTAMP '{day(at)} 00:00:00'"}


def clock(moment: int) -> str:
    seconds, rest = divmod(moment, 1_000_000)
    return f"TIMESTAMP '2011-01-01 00:{seconds // 60:02}:{seconds % 60:02}" + (f".{rest:06}'" if rest else "'")


def written(value: "int | str | None") -> str:
    return "NULL" if value is None else f"'{value}'" if isinstance(value, str) else str(value)


# ---- conditions of one row, in three-valued logic

def both(first: "bool | None", second: "bool | None") -> "bool | None":
    return False if first is False or second is False else None if first is None or second is None else True


def either(first: "bool | None", second: "bool | None") -> "bool | None":
    return True if first is True or second is True else None if first is None or second is None else False


def less(first: "int | str | None", second: "int | str | None") -> "bool | None":
    return None if first is None or second is None else first < second


def same(first: "int | str | None", second: "int | str | None") -> "bool | None":
    return None if first is None or second is None else first == second


def other(first: "int | str | None", second: "int | str | None") -> "bool | None":
    return None if first is None or second is None else first != second


def plus(value: "int | None", more: int) -> "int | None":
    return None if value is None else number(value + more)


def times(value: "int | None", by: int) -> "int | None":
    return None if value is None else number(value * by)


def calendar(points) -> tuple:
    """A table of all days, which the last questions ask beside another one."""
    rows = ", ".join(f"({at}, {points(at)}, {points(at + 1)})" for at in range(DAYS))
    return f"INSERT INTO calendar VALUES {rows}", ("quiet", f"INSERT {DAYS}\n")


class Maker:
    """Numbers that look like chance, and are the same in every run; and what they make, PRUNE HISTORY too where that is wanted."""

    def __init__(self, seed: int, database: Database, prunes: bool = False) -> None:
        self.state, self.database, self.prunes = seed, database, prunes
        for _ in range(3):
            self.below(2)
        self.kind = self.any_of(("DATE", "DATE", "TIMESTAMP"))
        self.points = POINTS[self.kind]

    def below(self, limit: int) -> int:
        self.state = (self.state * 6_364_136_223_846_793_005 + 1_442_695_040_888_963_407) % 2**64
        return (self.state >> 33) % limit

    def any_of(self, some):
        return some[self.below(len(some))]

    def one_in(self, many: int) -> bool:
        return self.below(many) == 0

    # ---- definitions

    def beginning(self) -> tuple:
        return f"AT {clock(BEGIN)}", ("at", BEGIN)

    def definitions(self) -> list:
        """Two tables or three, each with references to those before it; and the calendar."""
        made: list = []
        for name in ("dept", "emp", "pay")[:2 + self.below(2)]:
            made.append(self.definition(name, [it for _, (_, it) in made]))
        days = f"CREATE TABLE calendar (day INTEGER, f {self.kind}, u {self.kind}, PERIOD FOR p (f, u), PRIMARY KEY (day, p WITHOUT OVERLAPS))"
        return [*made, (days, ("quiet", "CREATE TABLE\n"))]

    def definition(self, name: str, before: list) -> tuple:
        """A table of numbers and texts, which all CHECKs leave some rows."""
        sorts = ["number", *(self.any_of(("number", "text")) for _ in range(1 + self.below(2))), "text"]
        columns = [{"number": ("k", "n", "m", "j"), "text": ("w", "v", "x", "y")}[sort][at] for at, sort in enumerate(sorts)]
        limits = [None if sort == "number" else self.any_of((2, 2, 3)) for sort in sorts]
        table = Table(name, columns, [self.one_in(5) for _ in columns], limits, self.any_of(("p", "stay", '"to"')), self.below(3) > 0)
        parts = [f"{column} {'BIGINT' if limit is None else f'VARCHAR({limit})'}{' NOT NULL' if required else ''}"
                 for column, limit, required in zip(columns, limits, table.required)]
        parts += [f"f {self.kind}", f"u {self.kind}", f"PERIOD FOR {table.period} (f, u)"]
        if table.is_versioned:
            parts += ["s TIMESTAMP GENERATED ALWAYS AS ROW START", "e TIMESTAMP GENERATED ALWAYS AS ROW END", "PERIOD FOR SYSTEM_TIME (s, e)"]
        parts += [*self.keys(table), *self.references(table, before), *self.checks(table)]
        versioning = " WITH SYSTEM VERSIONING" if table.is_versioned else ""
        return f"CREATE TABLE {name} ({', '.join(parts)}){versioning}", ("create", table)

    def places(self, table: Table, most: int) -> tuple:
        left = [*range(len(table.columns))]
        return tuple(left.pop(self.below(len(left))) for _ in range(1 + self.below(most)))

    def keys(self, table: Table) -> list:
        parts = []
        for at in range(1 + self.one_in(3)):
            key = (0,) if at == 0 and self.below(3) else self.places(table, 2)
            is_primary = at == 0 and self.one_in(2)
            for place in key if is_primary else ():
                table.required[place] = True
            table.keys.append(key)
            listed = ", ".join(table.columns[it] for it in key)
            parts.append(f"{'PRIMARY KEY' if is_primary else 'UNIQUE'} ({listed}, {table.period} WITHOUT OVERLAPS)")
        return parts

    def references(self, table: Table, before: list) -> list:
        """References to keys of tables before, whose columns have the sorts that they need."""
        parts = []
        for parent in before:
            key = self.any_of(parent.keys)
            places: list = []
            for it in key:
                fit = [at for at, limit in enumerate(table.limits) if (limit is None) == (parent.limits[it] is None) and at not in places]
                places += [self.any_of(fit)] if fit else []
            if len(places) == len(key) and self.below(5):
                table.references.append((tuple(places), parent, key))
                child, owner = (", ".join(it.columns[at] for at in some) for it, some in ((table, places), (parent, key)))
                parts.append(f"FOREIGN KEY ({child}, PERIOD {table.period}) REFERENCES {parent.name} ({owner}, PERIOD {parent.period})")
        return parts

    def checks(self, table: Table) -> list:
        for _ in range(self.below(3)):
            table.checks.append(self.check(table))
        return [f"CHECK ({text})" for text, _ in table.checks]

    def check(self, table: Table) -> tuple:
        """A CHECK, as it is written and as it is of a row; some are out of range on great numbers, whatever the other side says."""
        numbers, texts = ([at for at, limit in enumerate(table.limits) if (limit is None) == is_number] for is_number in (True, False))
        n, w = self.any_of(numbers), self.any_of(texts)
        name, text, limit, letter = table.columns[n], table.columns[w], self.below(3) + 1, self.any_of(LETTERS)
        return [(f"{name} <> {limit} OR {text} = '{letter}'", lambda row: either(other(row[n], limit), same(row[w], letter))),
                (f"{name} < {limit + 3}", lambda row: less(row[n], limit + 3)),
                (f"NOT {text} = '{letter}'", lambda row: other(row[w], letter)),
                (f"{table.name}.{text} < 'Cd' OR {name} > {limit}", lambda row: either(less(row[w], "Cd"), less(limit, row[n]))),
                (f"{name} < 5 OR {name} + 3 < 9", lambda row: either(less(row[n], 5), less(plus(row[n], 3), 9))),
                (f"{name} * 3 > -1 AND {text} <> '{letter}'", lambda row: both(less(-1, times(row[n], 3)), other(row[w], letter))),
                (f"{name} IS NOT NULL", lambda row: row[n] is not None),
                ][self.below(7)]

    # ---- rows

    def days(self) -> tuple:
        """A first day, and a later one or the end; mostly among a few."""
        if self.one_in(3):
            first = self.below(DAYS)
            return first, first + 1 + self.below(DAYS - first)
        first = self.below(7) * 5
        return first, first + 5 * (1 + self.below(8 - first // 5))

    def value(self, table: Table, place: int, odd: bool) -> "int | str | None":
        if self.one_in(4 if odd else 12):
            return None
        if table.limits[place] is not None:
            return "four" if odd and self.one_in(4) else self.any_of(LETTERS)
        return MOST - self.below(4) if self.one_in(20) else self.below(4)

    def row(self, table: Table, odd: bool) -> tuple:
        """A row and its days: mostly what the references need."""
        row, days = [self.value(table, it, odd) for it in range(len(table.columns))], self.days()
        for places, parent, parents in table.references:
            held = self.database.held.get(parent, [])
            if held and self.below(6):
                values, some = self.any_of(held)
                for place, at in zip(places, parents):
                    row[place] = values[at]
                days = self.inside(some) if self.below(4) else days
        return tuple(row), *days

    def inside(self, some: frozenset) -> tuple:
        first, last = min(some), max(some) + 1
        begin = first + self.below(last - first) if self.one_in(2) else first
        return begin, begin + 1 + self.below(last - begin) if self.one_in(2) else last

    def insert(self) -> tuple:
        table, odd = self.any_of(self.database.tables), self.one_in(8)
        rows = [self.row(table, odd) for _ in range(1 + self.below(3))]
        tuples = ", ".join(f"({self.points(first)}, {', '.join(map(written, row))}, {self.points(last)})" for row, first, last in rows)
        text = f"INSERT INTO {table.name} (f, {', '.join(table.columns)}, u) VALUES {tuples}"
        return text, ("change", "INSERT", Insert(table, rows))

    # ---- changes

    def condition(self, table: Table) -> tuple:
        """A WHERE, or none; some are out of range on great numbers."""
        numbers, texts = ([at for at, limit in enumerate(table.limits) if (limit is None) == is_number] for is_number in (True, False))
        n, w = self.any_of(numbers), self.any_of(texts)
        name, text, limit, letter = table.columns[n], table.columns[w], self.below(4), self.any_of(LETTERS)
        great = MOST - 4 + limit % 2
        return [("", lambda row: True),
                (f" WHERE {name} = {limit}", lambda row: same(row[n], limit)),
                (f" WHERE {name} <= {limit} AND {text} = '{letter}'", lambda row: both(less(row[n], limit + 1), same(row[w], letter))),
                (f" WHERE NOT {text} = '{letter}'", lambda row: other(row[w], letter)),
                (f" WHERE {text} IS NULL OR {name} = {limit}", lambda row: either(row[w] is None, same(row[n], limit))),
                (f" WHERE {name} + {limit} < 5", lambda row: less(plus(row[n], limit), 5)),
                (f" WHERE {name} < 5 AND {name} + {great} < {MOST}",
                 lambda row: less(row[n], 5) if less(row[n], 5) is not True else less(plus(row[n], great), MOST)),
                ][self.below(7)]

    def portion(self, table: Table) -> tuple:
        """A portion, or none: how it is written, its days, and whether it rises."""
        if self.one_in(4):
            return "", None, True
        first, last = self.days()
        rises = self.below(20) > 0
        ends = (first, last) if rises else (last, first if self.below(2) else last)
        return f" FOR PORTION OF {table.period} FROM {self.points(ends[0])} TO {self.points(ends[1])}", (first, last), rises

    def setting(self, table: Table) -> tuple:
        """A SET of a column or two: to a value, to more than it is, or to what a reference needs."""
        sets = [lambda row, at=at: row[at] for at in range(len(table.columns))]
        parts = []
        for place in self.places(table, 2):
            name, value = table.columns[place], self.value(table, place, self.one_in(6))
            for places, parent, parents in table.references:
                held = self.database.held.get(parent, [])
                if place in places and held and self.below(4):
                    value = self.any_of(held)[0][parents[places.index(place)]]
            if table.limits[place] is None and self.one_in(3):
                more = MOST - 6 if self.one_in(8) else 1 + self.below(3)
                parts.append(f"{name} = {name} + {more}")
                sets[place] = lambda row, at=place, more=more: plus(row[at], more)
            else:
                parts.append(f"{name} = {written(value)}")
                sets[place] = lambda row, value=value: value
        return ", ".join(parts), sets

    def modify(self) -> tuple:
        table, is_update = self.any_of(self.database.tables), self.below(3) > 0
        where, test = self.condition(table)
        written_, days, rises = self.portion(table)
        setting, sets = self.setting(table) if is_update else ("", None)
        text = f"UPDATE {table.name}{written_} SET {setting}{where}" if is_update else f"DELETE FROM {table.name}{written_}{where}"
        if not rises:
            return text, ("falling",)
        return text, ("change", "UPDATE" if is_update else "DELETE", Modify(table, sets, days, test))

    # ---- the rest

    def moment(self) -> int:
        commits = self.database.days[0].commits
        return (self.any_of(commits)[0] if commits else BEGIN) + self.below(3) - 1

    def ask(self) -> tuple:
        """What holds on a day, now or as of a moment at a commit or beside it."""
        table, at = self.any_of(self.database.tables), self.below(DAYS)
        moment = self.moment() if table.is_versioned and self.below(2) else None
        clause = "" if moment is None else f" FOR SYSTEM_TIME AS OF {clock(moment)}"
        text = f"SELECT {', '.join(table.columns)} FROM {table.name}{clause} WHERE {table.period} CONTAINS {self.points(at)}"
        return text, ("ask", table, at, moment)

    def last_questions(self) -> list:
        """What each table holds on each day, now and as of some moments."""
        made = []
        for table in self.database.tables:
            for moment in [None, *(self.moment() for _ in range(2 if table.is_versioned else 0))]:
                clause = "" if moment is None else f" FOR SYSTEM_TIME AS OF {clock(moment)}"
                listed = ", ".join(f"t.{it}" for it in table.columns)
                text = f"SELECT day, {listed} FROM calendar c, {table.name}{clause} t WHERE t.{table.period} CONTAINS c.f"
                made.append((text, ("ask_all", table, moment)))
        return made

    def turn(self) -> tuple:
        is_open, which = self.database.saved is not None, self.below(12)
        word = "start" if which == 0 or not is_open and which < 11 else "commit" if which < 8 else "rollback"
        return {"start": "START TRANSACTION"}.get(word, word.upper()), (word,)

    def at(self) -> tuple:
        moment = self.moment() if self.one_in(4) else self.database.next + self.below(2_000_000)
        return f"AT {clock(moment)}", ("at", moment)

    def prune(self) -> tuple:
        """A horizon at a commit or beside it."""
        moment = self.moment()
        return f"PRUNE HISTORY BEFORE {clock(moment)}", ("prune", moment)

    def drop(self) -> tuple:
        """Of a table that another one refers to."""
        parents = [parent for table in self.database.tables for _, parent, _ in table.references]
        if not parents:
            return self.at()
        return f"DROP TABLE {parents[0].name}", ("drop", parents[0])

    def statement(self) -> tuple:
        if self.prunes and self.one_in(12):
            return self.prune()
        which = self.below(40)
        if which < 15:
            return self.insert()
        if which < 31:
            return self.modify()
        if which < 35:
            return self.turn()
        return self.at() if which < 37 else self.ask() if which < 39 or self.below(3) else self.drop()

    def picked(self) -> tuple:
        """A statement; of some that are tried mostly one that does something."""
        for _ in range(12):
            line, statement = self.statement()
            if not self.below(4) or not self.is_dull(statement):
                break
        return line, statement

    def is_dull(self, statement: tuple) -> bool:
        """Whether it is refused, or touches no row."""
        if statement[0] != "change":
            return statement[0] == "falling" or statement[0] in ("at", "drop", "prune") and self.database.saved is not None
        try:
            self.database.afters(statement[2])
            return self.database.touched(statement[2]) == 0
        except Refused:
            return True
