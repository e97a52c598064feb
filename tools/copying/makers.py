"""The statements that a counter makes, in view of what a machine holds."""
from copying.changes import Change, Insert, Portion
from copying.conditions import Aggregate, All, Compare, Literal, Null
from copying.counter import BEGIN, NONE, SOME, Counter, alone
from copying.definitions import Definitions
from copying.machine import At, Close, Drop, Machine, Odd, Open, Prune, Read, Turn
from copying.queries import From, Select, Span
from copying.tables import SYSTEM, Definition, Table
from copying.values import DAY, E10, E14, HIGH, MOMENT, NUMBER, SORTS, Refused, named

ODD = ("SELECT x FROM log WHERE", "INSERT INTO t", "CREATE TABLE t (x INTEGER PRIMARY KEY)", "UPDATE t SET", "DELETE t",
       "CREATE TABLE t (x INTEGER, FOREIGN KEY (x) REFERENCES t (x) ON DELETE CASCADE)", "SELECT * FROM t LIMIT 1", "COMMIT TRANSACTION",
       "CREATE TABLE t (x INTEGER, UNIQUE (p WITHOUT OVERLAPS))", "CREATE TABLE t (x INTEGER, CHECK x > 0)", "DROP TABLE t CASCADE")

READERS = ("R", "MORNING", "a b")


class Maker(Counter):
    """Statements, and PRUNE HISTORY and those of readers among them where they are wanted."""

    def __init__(self, seed: int, machine: Machine, prunes: bool = False, reads: bool = False) -> None:
        super().__init__(seed)
        self.machine, self.definitions, self.prunes, self.reads = machine, Definitions(self, machine), prunes, reads

    def table(self, takes=None) -> Table:
        """A table that is there, mostly one of the wanted sort."""
        tables = [*self.machine.tables.values()]
        wanted = [it for it in tables if takes is None or takes(it)]
        return self.any_of(wanted if wanted and self.below(8) else tables)

    # ---- rows

    def cell(self, table: Table, at: int):
        """A cell for a column."""
        column = table.columns[at]
        if self.one_in(30 if column.is_required else 7):
            return Null()
        if at in table.ends() and not self.is_odd():
            return self.any_of(self.rising(column.sort))
        if column.sort == NUMBER and self.one_in(12):
            return self.sum([], 0)
        return self.literal(column.sort)

    def row(self, table: Table) -> dict:
        """The cells of a row by their places: mostly a period that rises, and mostly what the references need."""
        cells = {at: self.cell(table, at) for at in table.open_places()}
        if table.period and self.below(12):
            cells.update(zip(table.ends(), self.rising(table.columns[table.ends()[0]].sort)))
        for reference in table.references:
            parents = self.machine.values(reference.parent.name)
            if parents and self.below(8):
                parent = self.any_of(parents)
                for place, other in zip(reference.places, reference.parents):
                    cells[place] = self.known(table, place, parent[other])
                if reference.has_period and self.below(5):
                    self.cover(table, cells, reference.parent.span(parent))
        return cells

    def known(self, table: Table, at: int, value):
        return Null() if value is None else self.written(table.columns[at].sort, value)

    def cover(self, table: Table, cells: dict, span: tuple) -> None:
        """A period inside another one, or the same."""
        low, high = span
        start = low + (self.below(high - low) if self.one_in(2) else 0)
        end = start + 1 + self.below(high - start) if self.one_in(2) else high
        for place, value in zip(table.ends(), (start, end)):
            cells[place] = self.written(table.columns[place].sort, value)

    def listed(self, table: Table) -> list:
        """The places of an INSERT's list, or none: all that a user may fill, in any order, with some left out."""
        if self.below(2):
            return []
        places = [it for it in self.shuffled(table.open_places()) if table.columns[it].is_required or self.below(4)]
        if self.is_odd():
            places = self.shuffled(range(len(table.columns)))[:3]
        return places

    def insert(self, table: "Table | None" = None) -> Insert:
        table = table or self.table()
        places = self.listed(table)
        rows = [self.row(table) for _ in range(1 + self.below(3))]
        fill = places or table.open_places()
        tuples = [[row.get(it) or self.literal(self.any_of(SORTS)) for it in fill] for row in rows]
        if self.is_odd():
            tuples[-1].append(self.literal(NUMBER))
        names = [table.columns[it].name for it in places]
        if self.is_odd():
            names = [*names, self.any_of([*names, "NOSUCH"])]
        return Insert(table.name, names, tuples)

    def insert_query(self) -> Insert:
        """Rows of one table, now and then of two that meet, in the columns of another or of the same; the ends of periods come from periods."""
        table = self.table()
        source = self.table(lambda it: table.period is None or it.period is not None)
        places, items = self.listed(table), []
        chains = [From(source.name, None, None)]
        references = [(source.name, source)]
        ends = dict(zip(table.ends(), source.ends()))
        for at in places or table.open_places():
            sort = table.columns[at].sort
            if at in ends:
                made = self.name(references, source.name, source.columns[ends[at]].name)
            elif at in table.ends():
                made = self.rising(sort)[table.ends().index(at)]
            else:
                made = self.expression(references, sort)
            items.append((made, None))
        where = self.condition(references) if self.below(2) else None
        if self.one_in(8):
            return Insert(table.name, [], None, Select(None, [From(table.name, None, None)], self.condition(alone(table))))
        made = Select(items, chains, where, word=self.any_of(("", "", "DISTINCT")))
        return Insert(table.name, [table.columns[it].name for it in places], None, made)

    # ---- changes

    def portion(self, table: Table) -> "Portion | None":
        """A portion of the table's period, now and then an odd one."""
        if not table.period and not self.is_odd() or self.one_in(4):
            return None
        sort = table.columns[table.period[1]].sort if table.period else MOMENT
        start, end = self.beside(table) if table.period and self.below(3) else self.rising(sort)
        if self.is_odd():
            start, end = end, self.any_of((start, end))
        start, end = (self.odd_point() if self.is_odd() else it for it in (start, end))
        name = table.period[0] if table.period else "NOSUCH"
        if self.is_odd():
            name = self.any_of((SYSTEM, table.columns[0].name, "SYSTEM_TIME"))
        return Portion(name, start, end)

    def odd_point(self) -> Literal:
        sort = self.any_of((DAY, MOMENT))
        text, value = (self.any_of(NONE[sort]), None) if self.one_in(3) else self.any_of(SOME[sort])
        return Literal(text, sort, value)

    def beside(self, table: Table) -> tuple:
        """A portion that shares a point with some row, if there is one."""
        rows, sort = self.machine.values(table.name), table.columns[table.period[1]].sort
        if not rows:
            return self.rising(sort)
        low, high = table.span(self.any_of(rows))
        start = low + self.below(high - low + 1) - 1
        return self.written(sort, start), self.written(sort, start + 1 + self.below(high - start))

    def true_of_some(self, table: Table):
        """A condition that is true of some row, if one of those that are tried is."""
        for _ in range(6):
            made = self.condition(alone(table))
            statement = Change("DELETE", table.name, None, [], made)
            try:
                if statement.bind(self.machine.tables) or statement.rows(table, self.machine.rows(table.name), None)[2]:
                    return made
            except Refused:
                return made
        return made

    def set_to(self, table: Table, at: int):
        """What a column is set to: mostly what a reference needs, where it has one."""
        column = table.columns[at]
        for reference in table.references:
            parents = self.machine.values(reference.parent.name)
            if at in reference.places and parents and self.below(4):
                return self.known(table, at, self.any_of(parents)[reference.parents[reference.places.index(at)]])
        if at in table.ends():
            return self.any_of(self.rising(column.sort))
        if column.sort == NUMBER and self.one_in(2):
            return self.sum(alone(table), 0)
        return self.cell(table, at) if self.below(3) else self.expression(alone(table), column.sort)

    def sets(self, table: Table, portion: "Portion | None") -> list:
        places = [it for it in table.open_places() if not (portion and it in table.ends())] or [0]
        places = self.shuffled(places)[:1 + self.one_in(3)]
        if self.is_odd():
            places.append(self.below(len(table.columns)))
        sets = [(table.columns[it].name, self.set_to(table, it)) for it in places]
        return sets + ([("NOSUCH", Null())] if self.is_odd() else [])

    def change(self) -> Change:
        """An UPDATE or a DELETE, mostly of a table with an application period, and of a portion; often of one that rows of another refer to."""
        parents = {it.parent.name for table in self.machine.tables.values() if self.machine.rows(table.name) for it in table.references}
        of_parents = bool(parents) and self.one_in(2)
        table = self.table(lambda it: it.name in parents if of_parents else it.period is not None)
        portion, verb = self.portion(table), "UPDATE" if self.below(4) else "DELETE"
        where = self.true_of_some(table) if self.below(5) < (3 if verb == "UPDATE" else 4) else None
        return Change(verb, table.name, portion, self.sets(table, portion) if verb == "UPDATE" else [], where)

    # ---- questions

    def moment(self) -> int:
        """A moment at a commit, at the next one, or one microsecond beside it."""
        moments = [it for it, _ in self.machine.commits] + [self.machine.next] * (self.machine.next < HIGH)
        return max(0, self.any_of(moments or [BEGIN]) + self.below(3) - 1)

    def span(self, table: Table) -> "Span | None":
        if self.below(5) < 2 if table.system else not self.is_odd():
            return None
        first, second = self.moment(), self.moment()
        if self.below(4):
            first, second = sorted((first, second))
        word = self.any_of(("as of", "as of", "from", "between"))
        return Span(word, [self.clock(it) for it in ((first,) if word == "as of" else (first, second))])

    def meeting(self, references: list, table: Table, known: str):
        """An ON: mostly two columns that are equal, or periods that overlap."""
        joined = [*references, (known, table)]
        pairs = [(left, right) for right in table.columns for _, other in references for left in other.columns if left.sort == right.sort]
        if not pairs or self.one_in(4):
            return self.condition(joined, 0)
        left, right = self.any_of(pairs)
        owner = next(it for it, other in references if any(column is left for column in other.columns))
        made = Compare(self.name(joined, owner, left.name), "=", self.name(joined, known, right.name))
        return All([made, self.factor(joined, 0)]) if self.one_in(3) else made

    def chains(self) -> tuple:
        """The references of a query, each with its alias and how it is joined; and what they are known by."""
        chains, references, begin = [], [], 0
        for at in range(self.any_of((1, 1, 1, 2, 2, 2, 3))):
            table = self.table()
            alias = self.any_of((None, "C", "Z z")) if at == 0 or self.is_odd() else f"T{at}"
            join = "," if at == 0 else self.any_of((",", "JOIN", "INNER JOIN", "LEFT JOIN", "LEFT OUTER JOIN", "CROSS JOIN"))
            begin = at if join == "," else begin
            known = alias or table.name
            on = self.meeting(references[begin:], table, known) if "JOIN" in join and "CROSS" not in join else None
            chains.append(From(table.name, self.span(table), alias, join, on))
            references.append((known, table))
        return chains, references

    def item(self, references: list):
        sort = self.any_of([it.sort for _, table in references for it in table.columns])
        return self.expression(references, sort)

    def aggregate(self, references: list):
        if self.one_in(3):
            return Aggregate("COUNT", None)
        verb = self.any_of(("COUNT", "SUM", "MIN", "MAX"))
        return Aggregate(verb, self.expression(references, NUMBER) if verb == "SUM" else self.item(references))

    def grouped(self, chains: list, references: list, where) -> Select:
        groups = [it for it in (self.column(references, None) for _ in range(self.below(3))) if it]
        items = [(it, None) for it in groups if self.below(4)] + [(self.aggregate(references), self.alias()) for _ in range(1 + self.below(2))]
        having = None
        if self.one_in(3):
            having = Compare(self.aggregate(references), ">", self.literal(NUMBER)) if self.below(4) else self.condition(references, 0)
        return Select(self.shuffled(items), chains, where, groups, having)

    def alias(self) -> "str | None":
        return self.any_of((None, None, "N", "a b"))

    def question(self) -> Select:
        chains, references = self.chains()
        where = self.condition(references) if self.one_in(2) else None
        which = self.below(6)
        if which == 0:
            return self.grouped(chains, references, where)
        items = None if which < 3 else [(self.item(references), self.alias()) for _ in range(1 + self.below(3))]
        made = Select(items, chains, where, word=self.any_of(("", "", "DISTINCT", "ALL")))
        if items is not None and self.below(3) == 0:
            made.orders = [self.order(len(items)) for _ in range(1 + self.below(2))]
        return made

    def order(self, many: int) -> tuple:
        """A key of ORDER BY, and whether it falls."""
        return self.below(many) + 1 if self.below(6) else self.any_of(("N", "C1", "X")), self.one_in(2)

    # ---- the rest

    def turn(self) -> Turn:
        """A beginning or an end of a transaction, mostly in its turn."""
        is_open, which = self.machine.is_open, self.below(12)
        if which == 0 if is_open else which >= 2:
            return Turn("START TRANSACTION")
        verb = "ROLLBACK" if (which < 5 if is_open else which == 0) else "COMMIT"
        return Turn(verb, self.any_of(("", " WORK")))

    def at(self) -> At:
        """A moment that is mostly later than all commits."""
        step, which = self.below(3_000_000), self.below(24)
        if which == 0:
            return At(self.clock(HIGH))
        base = self.machine.commits[-1][0] if self.machine.commits else BEGIN
        return At(self.clock(self.moment() if which < 5 else base + (1 if which < 9 else step)))

    def prune(self) -> Prune:
        """A horizon at a commit or beside it, seldom at the highest moment."""
        return Prune(self.clock(HIGH if self.one_in(24) else self.moment()))

    def reader(self):
        """A reader opened, asked or closed, mostly where that can be."""
        which, is_odd = self.below(12), self.one_in(12)
        opened = [*self.machine.readers]
        wanted = [it for it in READERS if it not in opened] if which < 2 or not opened else opened
        name = self.any_of(READERS if is_odd or not wanted else wanted)
        text = named(name, self.below(3))
        if which < 2 or not opened:
            return Open(name, text)
        return Close(name, text) if which == 2 else self.asked(name, text)

    def asked(self, name: str, text: str) -> Read:
        """A question to a reader, mostly one that is answered by rows."""
        tries = 1 if self.one_in(8) else 30
        made = Read(name, text, self.question())
        while tries > 1 and (not self.is_short(made) or self.is_dull(made)):
            tries, made = tries - 1, Read(name, text, self.question())
        return made

    def drop(self) -> Drop:
        name = self.any_of([*self.machine.tables, "NOSUCH"])
        return Drop(name, f"DROP TABLE {named(name)}{self.any_of(('', ' RESTRICT'))}")

    def odd(self) -> Odd:
        if self.one_in(6):
            return Odd(f"SELECT {'(' * 65}1{')' * 65} FROM t", E14)
        return Odd(self.any_of(ODD), E10)

    def statement(self):
        if self.prunes and self.one_in(12):
            return self.prune()
        if self.reads and self.one_in(3):
            return self.reader()
        which = self.below(60)
        if which < 20:
            return self.insert()
        if which < 23:
            return self.insert_query()
        if which < 37:
            return self.change()
        if which < 47:
            return self.question()
        if which < 52:
            return self.turn()
        if which < 55:
            return self.at()
        if which < 58:
            return self.definitions.definition()
        return self.drop() if which == 58 else self.odd()

    def picked(self):
        """A statement that is short, and of some that are tried mostly one that does something."""
        for tries in range(40):
            made = self.statement()
            if self.is_short(made) and (tries > 6 or not self.below(3) or not self.is_dull(made)):
                return made
        return self.turn()

    def is_dull(self, statement) -> bool:
        """Whether it is refused in an open transaction, touches no row, or answers none."""
        if isinstance(statement, (At, Drop, Definition)):
            return self.machine.is_open
        if isinstance(statement, Prune):
            return self.machine.is_open or (statement.moment.value or 0) < self.machine.horizon
        try:
            if isinstance(statement, (Insert, Change)):
                return self.machine.changed(statement)[1] == 0
            if isinstance(statement, Read):
                return "(0 rows)" in self.machine.read(statement)
            return isinstance(statement, Select) and "(0 rows)" in self.machine.select(statement)
        except Refused:
            return True

    def is_short(self, statement) -> bool:
        """Whether the reply is not too long, nor what it leaves, nor its periods."""
        if isinstance(statement, (Select, Read)):
            product = 1
            for it in (statement.query if isinstance(statement, Read) else statement).chains:
                product *= max(1, len(self.machine.rows(it.table)))
            return product <= 400 and self.machine.answer(statement).count("\n") <= 24
        return not isinstance(statement, (Insert, Change)) or self.is_narrow(statement)

    def is_narrow(self, change) -> bool:
        if change.bind(self.machine.tables):
            return True
        table = self.machine.tables[change.table]
        try:
            stay, come, _, _ = change.rows(table, self.machine.rows(change.table), self.machine.asked)
        except Refused:
            return True
        spans = [it for it in map(table.span, come) if it and None not in it]
        return len(stay) + len(come) <= 14 and all(end - start <= 40 for start, end in spans)
