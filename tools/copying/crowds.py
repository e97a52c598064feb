"""Statements for tables in which few key values have many rows each, now and in the past.

Periods meet, overlap by a point and leave gaps of a point. Portions begin and end at the ends of periods, next to them and between them. References with
PERIOD span several rows of the parent, and one row has a deep history. The key values include neighbours, the ends of the range, and values for which
a polynomial is one number, so that an index which keeps the rows of all values in one order is tried where they lie next to each other."""
from copying.changes import Change, Insert, Portion
from copying.conditions import Aggregate, All, Chain, Compare, Contains, IsNull, Made, Name, Null, Relation
from copying.counter import BEGIN, LEAP, RELATIONS
from copying.machine import At, Close, Drop, Open, Read
from copying.makers import Maker
from copying.queries import From, Select, Span
from copying.tables import SYSTEM, Column, Definition, NewColumn, NewKey, NewPeriod, NewReference, Table
from copying.values import DAY, LEAST, MOMENT, MOST, NUMBER, TEXT, Refused, day_of

# A polynomial that mixes the values of a key into one number of 64 bits.
FACTOR, WIDTH = 1_099_511_628_211, 2**64
# How many rows a table has at most, how many lines an answer, and how many pairs a join looks at.
ROWS, LINES, PAIRS = 90, 30, 2_500


def chosen(text: str) -> int:
    """Returns the number that the polynomial mixes with a text into the same number for every text."""
    mixed = 1
    for byte in text.encode():
        mixed = (mixed * FACTOR + byte) % WIDTH
    number = (4711 - mixed) * pow(FACTOR, -len(text.encode()) - 1, WIDTH) % WIDTH
    return number - WIDTH if number > MOST else number


# Lists of key values: of one number, of one text, and of a number and a text.
VALUES = {
    (NUMBER,): (((1,), (2,), (3,)), ((1,),), ((2,), (1,)), ((MOST,), (MOST - 1,), (MOST - 2,)), ((LEAST,), (0,), (-1,))),
    (TEXT,): ((("a",), ("b",), ("",)), (("a",),), (("Aa",), ("AB",))),
    (NUMBER, TEXT): (((1, "a"), (1, "b"), (2, "a")), tuple((chosen(it), it) for it in ("a", "b", "")), ((chosen("b"), "b"), (chosen("a"), "a"))),
}


class Crowd(Maker):
    """Statements for a parent RATE, a child USE of it with PERIOD, and a table LOG of hot rows."""

    def __init__(self, seed: int, machine, prunes: bool = False, reads: bool = False) -> None:
        super().__init__(seed, machine, prunes, reads)
        self.odds, self.sort = 0, self.any_of((DAY, DAY, MOMENT))
        self.sorts = self.any_of(((NUMBER,), (NUMBER,), (TEXT,), (NUMBER, TEXT)))
        self.crowds = self.any_of(VALUES[self.sorts])
        self.many = 20 + self.below(41)
        ends = {DAY: (0, day_of(2012, 2, 1), day_of(9999, 12, 31) - 140), MOMENT: (0, LEAP, LEAP)}[self.sort]
        self.begin, self.end = (low := self.any_of(ends)), low + 140
        self.versioned = [self.below(4) > 0, self.one_in(2)]

    # ---- definitions

    def definition(self, name: str) -> Definition:
        """The definition of one of the three tables."""
        it = self.definitions
        if name == "LOG":
            elements, others, is_versioned = [it.column("K", NUMBER), it.column("X", NUMBER)], [NewKey(True, ["K"], None)], True
        else:
            is_parent = name == "RATE"
            keys, ends, period = (["K", "G"], ["F", "U"], "P") if is_parent else (["R", "T"], ["A", "to"], "Q")
            keys = keys[:len(self.sorts)]
            elements = [it.column(key, sort) for key, sort in zip(keys, self.sorts)]
            elements += [it.column(one, self.sort) for one in ends] + [it.column("X", NUMBER)]
            is_versioned = self.versioned[not is_parent]
            others = [NewPeriod(period, *ends)]
            if is_parent or self.one_in(4):
                others.append(NewKey(is_parent and self.below(3) > 0, keys, period))
            if not is_parent:
                others.append(NewReference(keys, "Q", "RATE", ["K", "G"][:len(keys)], "P", "", ""))
        if is_versioned:
            elements += [it.generated("S", "start"), it.generated("E", "end")]
            others.append(NewPeriod(SYSTEM, "S", "E"))
        return Definition(name, it.mixed(self.shuffled(elements), others), is_versioned)

    def missing(self) -> list:
        """The tables that are not there and can be made."""
        return [it for it in ("RATE", "USE", "LOG") if it not in self.machine.tables and (it != "USE" or "RATE" in self.machine.tables)]

    # ---- rows and their periods

    def columns(self, table: Table) -> list:
        """The positions of the columns of a table's key, or of its reference."""
        return [table.column(it) for it in ("K", "G", "R", "T") if table.column(it) is not None]

    def spans(self, table: Table, value: tuple) -> list:
        """The periods of the current rows of a key value, in order."""
        places = self.columns(table)
        return sorted(table.span(row) for row in self.machine.values(table.name) if tuple(row[it] for it in places) == value)

    def borders(self, table: Table, value: tuple) -> list:
        """All ends of these periods, and of those of the parent."""
        tables = {table.name: table, "RATE": self.machine.tables["RATE"]}.values()
        return sorted({point for it in tables for span in self.spans(it, value) for point in span} or {self.begin + 60, self.begin + 64})

    def near(self, table: Table, value: tuple) -> int:
        """A point at an end of a period, mostly, or next to one."""
        point = self.any_of(self.borders(table, value)) + self.any_of((0, 0, 0, 0, -1, 1))
        return min(max(point, self.begin), self.end)

    def stretch(self, table: Table, value: tuple, most: int) -> tuple:
        """A period from an end of a period to a later one, each mostly exact."""
        borders = self.borders(table, value)
        low = self.below(len(borders) - 1)
        high = min(len(borders) - 1, low + 1 + self.below(most))
        start, end = (min(max(borders[it] + self.any_of((0, 0, 0, -1, 1)), self.begin), self.end) for it in (low, high))
        start = min(start, self.end - 1)
        return start, max(end, start + 1)

    def gaps(self, table: Table, value: tuple) -> list:
        """The periods between those of a key value, and what is free before and after them."""
        free, at = [], self.begin
        for start, end in self.spans(table, value):
            free += [(at, start)] * (at < start)
            at = max(at, end)
        return free + [(at, self.end)] * (at < self.end)

    def fitting(self, table: Table, value: tuple) -> tuple:
        """A period that meets others and overlaps none: a gap, or its beginning or its end."""
        free = self.gaps(table, value)
        if not free:
            return self.stretch(table, value, 1)
        start, end = self.any_of(free)
        length = min(end - start, 1 + self.below(3))
        return self.any_of(((start, start + length), (end - length, end), (start, min(end, start + 6))))

    def period(self, table: Table, value: tuple) -> tuple:
        """A period of a new row: of the parent mostly free, of the child mostly covered."""
        if table.name == "RATE":
            return self.fitting(table, value) if self.below(3) else self.stretch(table, value, 3)
        return self.stretch(table, value, 6)

    def value(self) -> tuple:
        """A key value, mostly the first."""
        return self.crowds[0] if self.one_in(2) else self.any_of(self.crowds)

    def tuple_of(self, table: Table, value: tuple, span: tuple) -> list:
        """The cells of a row in the order of the columns."""
        cells = dict(zip(self.columns(table), (self.written(sort, it) for sort, it in zip(self.sorts, value))))
        if self.one_in(20) and not all(table.columns[it].is_required for it in cells):
            cells[[*cells][-1]] = Null()
        cells.update(zip(table.ends(), (self.written(self.sort, it) for it in span)))
        return [cells.get(it) or self.literal(NUMBER) for it in table.open_places()]

    def filled(self) -> list:
        """INSERTs of the first rows of the parent, of several key values in each, in any order; and of some of the child and of LOG."""
        table, rows = self.machine.tables["RATE"], []
        for value in self.crowds:
            at = self.begin + 10
            for _ in range(self.many // len(self.crowds)):
                at += self.one_in(8)
                length = self.any_of((1, 1, 1, 2, 3))
                rows.append((value, (at, at + length)))
                at += length
        tuples, made = [self.tuple_of(table, value, span) for value, span in self.shuffled(rows)], []
        while tuples:
            many = 1 + self.below(20)
            made, tuples = made + [Insert("RATE", [], tuples[:many])], tuples[many:]
        return made + [self.hot()]

    def insert(self, table: "Table | None" = None) -> Insert:
        """A few rows, often next to each other; they may overlap each other or rows that are there."""
        table = table or self.machine.tables[self.any_of(("RATE", "USE", "USE") if "USE" in self.machine.tables else ("RATE",))]
        value, tuples = self.value(), []
        for _ in range(self.any_of((1, 1, 2, 3))):
            start, end = span = self.period(table, value)
            tuples.append(self.tuple_of(table, value, span))
            if self.one_in(6) and end < self.end:
                tuples.append(self.tuple_of(table, value, (end - self.one_in(3) * (start + 1 < end), end + 1)))
            value = value if self.below(3) else self.value()
        return Insert(table.name, [], self.shuffled(tuples))

    def copied(self) -> Insert:
        """Rows of the parent under another key value, or as rows of the child."""
        source = self.machine.tables["RATE"]
        table = self.machine.tables[self.any_of([it for it in ("RATE", "USE") if it in self.machine.tables])]
        value, other, references = self.value(), self.any_of(self.crowds), [("RATE", source)]
        cells = {}
        for place, known, sort, one in zip(self.columns(table), self.columns(source), self.sorts, other):
            cells[place] = self.name(references, "RATE", source.columns[known].name) if table.name == "USE" else self.written(sort, one)
        cells.update(zip(table.ends(), (self.name(references, "RATE", source.columns[it].name) for it in source.ends())))
        items = [(cells.get(it) or self.name(references, "RATE", "X"), None) for it in table.open_places()]
        where = All([*self.keyed(references, "RATE", value), self.timed(references, "RATE", value)])
        return Insert(table.name, [], None, Select(items, [From("RATE", None, None)], where))

    # ---- conditions

    def keyed(self, references: list, known: str, value: tuple) -> list:
        """Equalities that give the columns of a key, or of a reference, a value."""
        table = dict(references)[known]
        return [Compare(self.name(references, known, table.columns[place].name), "=", self.written(sort, one))
                for place, sort, one in zip(self.columns(table), self.sorts, value)]

    def timed(self, references: list, known: str, value: tuple):
        """A condition on the period: a point of it, or how it lies to a period."""
        table = dict(references)[known]
        start, which = self.name(references, known, table.columns[table.ends()[0]].name), self.below(8)
        if which < 3:
            return Contains(self.name(references, known, table.period[0]), self.written(self.sort, self.near(table, value)))
        if which == 3:
            return Compare(start, self.any_of(("=", "<", ">=")), self.written(self.sort, self.near(table, value)))
        made = Made(*(self.written(self.sort, it) for it in self.stretch(table, value, 4)))
        name = self.name(references, known, table.period[0])
        if which == 4:
            return self.any_of((Contains(name, made), Contains(made, name)))
        return Relation(name, self.any_of(("OVERLAPS",) * 6 + RELATIONS), made)

    def where(self, table: Table, value: tuple):
        """Which rows a change touches, mostly few of one key value."""
        references = [(table.name, table)]
        which = self.below(12)
        if which == 0:
            return None
        if which == 1:
            return self.timed(references, table.name, value)
        tests = self.keyed(references, table.name, value)
        tests += [self.timed(references, table.name, value)] * (which > 3)
        return All(self.shuffled(tests)) if len(tests) > 1 else tests[0]

    # ---- changes

    def portion_of(self, table: Table, value: tuple) -> "Portion | None":
        if self.one_in(2):
            return None
        return Portion(table.period[0], *(self.written(self.sort, it) for it in self.stretch(table, value, 4)))

    def moved(self, table: Table, value: tuple) -> list:
        """A SET of the key: to another value, or of all rows of two values to each other's."""
        places = self.columns(table)
        if self.sorts == (NUMBER,) and self.crowds[0] in ((1,), (2,)) and self.one_in(2):
            name, three = self.name([(table.name, table)], table.name, table.columns[places[0]].name), self.written(NUMBER, 3)
            return [(table.columns[places[0]].name, Chain(three, [("-", name)]) if self.below(3) else Chain(name, [("+", self.written(NUMBER, 1))]))]
        other = self.any_of(self.crowds) if self.below(4) else value
        return [(table.columns[place].name, self.written(sort, one)) for place, sort, one in zip(places, self.sorts, other)]

    def sets_of(self, table: Table, value: tuple, portion: "Portion | None") -> list:
        """What is set: a number, the key, or ends of the period."""
        which = self.below(6)
        if which < 3 or which > 4 and portion:
            return [("X", Chain(Name(None, "X", "x"), [("+", self.written(NUMBER, 1 + self.below(3)))]))]
        if which == 3:
            return self.moved(table, value)
        start, end = table.ends()
        low, high = self.period(table, value)
        sets = [(table.columns[start].name, self.written(self.sort, low)), (table.columns[end].name, self.written(self.sort, high))]
        if which == 4 and not portion:
            # (each row moves to where it ended)
            name = self.name([(table.name, table)], table.name, table.columns[end].name)
            return [(table.columns[start].name, name), sets[1]]
        return sets if which == 5 else [("X", self.literal(NUMBER))]

    def change(self) -> Change:
        table = self.machine.tables[self.any_of(("RATE", "RATE", "USE") if "USE" in self.machine.tables else ("RATE",))]
        value = self.value()
        portion, where = self.portion_of(table, value), self.where(table, value)
        if self.one_in(3):
            return Change("DELETE", table.name, portion, [], where or All(self.keyed([(table.name, table)], table.name, value) * 2))
        return Change("UPDATE", table.name, portion, self.sets_of(table, value, portion), where)

    def hot(self) -> "Insert | Change":
        """One more version of a hot row, mostly of the first one; both rows where there are none."""
        if not self.machine.rows("LOG"):
            return Insert("LOG", ["K", "X"], [[self.written(NUMBER, it), self.written(NUMBER, 0)] for it in (1, 2)])
        where = Compare(Name(None, "K", "k"), "=", self.written(NUMBER, 2 if self.one_in(6) else 1))
        if self.one_in(12):
            return Change("UPDATE", "LOG", None, [("K", Chain(self.written(NUMBER, 3), [("-", Name(None, "K", "k"))]))], None)
        return Change("UPDATE", "LOG", None, [("X", Chain(Name(None, "X", "x"), [("+", self.written(NUMBER, 1))]))], where)

    # ---- questions

    def changed(self, name: str) -> list:
        """The moments at which a table changed: there versions of its rows end and begin."""
        copies = [(moment, [*copy.get(name, [])]) for moment, copy in self.machine.commits]
        return [moment for (_, before), (moment, after) in zip([(0, []), *copies], copies) if before != after]

    def past(self, table: Table, one_in: int) -> "Span | None":
        """No clause, or one whose moments are mostly those at which the table changed, or one beside such."""
        if not table.system or not self.below(one_in):
            return None
        moments = self.changed(table.name) or [self.moment()]
        first = self.below(len(moments))
        second = min(len(moments) - 1, first + self.any_of((0, 1, 1, 2, 5)))
        first, second = (max(0, moments[it] + self.any_of((0, 0, 0, -1, 1))) for it in (first, second))
        word = self.any_of(("as of", "as of", "from", "between", "between"))
        return Span(word, [self.clock(it) for it in ((first,) if word == "as of" else (first, second))])

    def of_log(self) -> Select:
        """A hot row, mostly at a moment at which one of its versions ends and another begins, or between two such."""
        references = [("LOG", self.machine.tables["LOG"])]
        where = Compare(self.name(references, "LOG", "K"), "=", self.written(NUMBER, 1 + self.one_in(4)))
        return Select(None, [From("LOG", self.past(references[0][1], 16), None)], where)

    def last_questions(self) -> list:
        """Hot rows and crowds in the past, some more."""
        return [self.of_log() if "LOG" in self.machine.tables and at % 2 else self.of_crowd() for at in range(16)]

    def of_crowd(self) -> Select:
        """Rows of a key value at a point or in a period, now or in the past, or how many they are."""
        name, value = self.any_of([it for it in ("RATE", "RATE", "USE") if it in self.machine.tables]), self.value()
        references = [(name, self.machine.tables[name])]
        tests = self.keyed(references, name, value) + [self.timed(references, name, value)] * (self.below(5) > 0)
        items = None if self.below(5) else [(Aggregate("COUNT", None), None), (Aggregate("SUM", self.name(references, name, "X")), None)]
        where = All(self.shuffled(tests)) if len(tests) > 1 else tests[0]
        return Select(items, [From(name, self.past(references[0][1], 2), None)], where)

    def of_both(self) -> Select:
        """Rows of the child with those of the parent by key and period, often from one row or a few on."""
        tables, value = self.machine.tables, self.value()
        references = [("C", tables["USE"]), ("D", tables["RATE"])]
        if self.one_in(3):
            references = [(known, table) for known, (_, table) in zip("CD", reversed(references))]
        (left, one), (right, other) = references
        meets = [Compare(self.name(references, left, one.columns[a].name), "=", self.name(references, right, other.columns[b].name))
                 for a, b in zip(self.columns(one), self.columns(other))]
        periods = [self.name(references, known, table.period[0]) for known, table in references]
        point = self.name(references, left, one.columns[one.ends()[0]].name)
        meets.append(self.any_of((Relation(periods[0], "OVERLAPS", periods[1]), Relation(periods[0], self.any_of(RELATIONS), periods[1]),
                                  Contains(periods[1], point), Contains(periods[0], periods[1]))))
        places = [(known, table, at) for known, table in references for at in (*table.ends(), table.column("X")) if at is not None]
        names = [(self.name(references, known, table.columns[at].name), None) for known, table, at in places]
        where = All([*self.keyed(references, left, value), self.timed(references, left, value)])
        join = self.any_of(("JOIN", "LEFT JOIN", ","))
        chains = [From(one.name, self.past(one, 2), left)]
        if join == ",":
            return Select(names, [*chains, From(other.name, self.past(other, 2), right)], All(self.shuffled([*meets, *where.members])))
        return Select(names, [*chains, From(other.name, self.past(other, 2), right, join, All(self.shuffled(meets)))], where)

    def question(self) -> Select:
        which = self.below(6)
        if which < 2 and "LOG" in self.machine.tables:
            return self.of_log()
        return self.of_both() if which == 2 and "USE" in self.machine.tables else self.of_crowd()

    def lost(self) -> Select:
        """Rows whose key holds NULL."""
        table = self.machine.tables["RATE"]
        return Select(None, [From("RATE", None, None)], IsNull(self.name([("RATE", table)], "RATE", "K"), False))

    # ---- the rest

    def at(self) -> At:
        """A moment that is mostly later than all commits; never the highest, at which nothing could change any more."""
        base = self.machine.commits[-1][0] if self.machine.commits else BEGIN
        return At(self.clock(self.moment() if self.one_in(8) else base + 1 + self.below(self.any_of((1, 3, 3_000_000)))))

    def reader(self):
        """A reader opened, asked or closed."""
        opened, which = [*self.machine.readers], self.below(8)
        if not opened or which == 0 and len(opened) < 2:
            return Open("R", "r") if "R" not in opened else Open("S", "s")
        name = self.any_of(opened)
        return Close(name, name.lower()) if which == 1 else Read(name, name.lower(), self.question())

    def dropped(self) -> Drop:
        name = self.any_of(("USE", "USE", "RATE", "LOG"))
        return Drop(name, f"DROP TABLE {name.lower()}")

    def statement(self):
        missing = self.missing()
        if "RATE" in missing or missing and self.one_in(3):
            return self.turn() if self.machine.is_open else self.definition(missing[0])
        if self.prunes and self.one_in(16):
            return self.prune()
        if self.reads and self.one_in(4):
            return self.reader()
        which = self.below(60)
        if which < 13:
            return self.insert()
        if which < 15:
            return self.copied()
        if which < 31:
            return self.change()
        if which < 37:
            return self.hot() if "LOG" in self.machine.tables else self.insert()
        if which < 51:
            return self.question()
        if which < 56:
            return self.turn()
        return self.at() if which < 58 else self.lost() if which == 58 else self.dropped()

    def picked(self):
        """A statement whose reply is short, and of some that are tried often one that does something."""
        for tries in range(20):
            made = self.statement()
            if self.is_short(made) and (tries > 4 or not self.below(4) or not self.is_dull(made)):
                return made
        return self.turn()

    def is_short(self, statement) -> bool:
        """Whether the reply is short, and few rows are left."""
        if not isinstance(statement, (Select, Read)):
            return not isinstance(statement, (Insert, Change)) or self.is_narrow(statement)
        query, product = statement.query if isinstance(statement, Read) else statement, 1
        for it in query.chains:
            product *= max(1, len(self.machine.rows(it.table))) * (2 if it.span else 1)
        return product <= PAIRS and self.machine.answer(statement).count("\n") <= LINES

    def is_narrow(self, change) -> bool:
        if change.bind(self.machine.tables):
            return True
        try:
            stay, come, _, _ = change.rows(self.machine.tables[change.table], self.machine.rows(change.table), self.machine.asked)
        except Refused:
            return True
        return len(stay) + len(come) <= ROWS
