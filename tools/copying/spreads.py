"""Statements for a table whose rows are found by ranges of a key, by one of several values, and in groups.

Its keys have one column, of numbers, days or moments. Bounds lie at its values, next to them, at the ends of a type, and the wrong way round. IN has
repeats and columns that are NULL, and OR has conditions on other columns. A few rows hold the highest number, so that a calculation is out of range to
the right or to the left of what drops them. What is found is listed, made distinct, grouped, summed, changed and copied."""
from copying.changes import Change, Insert
from copying.conditions import Aggregate, All, Among, Any, Between, Chain, Compare, Inside, IsNull, Name, Not, Null
from copying.counter import BEGIN, LEAP
from copying.machine import At, Close, Open, Read
from copying.makers import Maker
from copying.queries import From, Select, Span
from copying.tables import SYSTEM, Definition, NewKey, NewPeriod, NewReference, Table
from copying.values import DAY, LEAST, MICROS, MOMENT, MOST, NUMBER, TEXT, Refused, day_of

# How many rows a table has at most, how many lines an answer, and how many combinations of rows a query looks at.
ROWS, LINES, PAIRS = 90, 40, 4_000
SIGNS = {"<": ">", "<=": ">=", ">": "<", ">=": "<=", "=": "=", "<>": "<>"}
KEYS = (["K"], ["K"], ["D"], ["K", "T"], ["T", "D"])
WORDS = ("a", "b", "A", "", "é")


class Spread(Maker):
    """Statements for a table LIST of some 60 rows, which may refer to PART, a table of six."""

    def __init__(self, seed: int, machine, prunes: bool = False, reads: bool = False) -> None:
        super().__init__(seed, machine, prunes, reads)
        self.odds, self.sort, self.many = 0, self.any_of((DAY, DAY, MOMENT)), 24 + self.below(41)
        self.begin = {DAY: day_of(2012, 2, 1), MOMENT: LEAP}[self.sort]
        self.references: list = []

    # ---- tables and rows

    def definition(self, name: str) -> Definition:
        it = self.definitions
        if name == "PART":
            return Definition(name, [it.column("N", NUMBER), it.column("W", TEXT), NewKey(True, ["N"], None)], False)
        elements = self.shuffled([it.column(*one) for one in (("K", NUMBER), ("D", self.sort), ("G", NUMBER), ("T", TEXT), ("V", NUMBER))])
        others, is_versioned = [], self.reads or self.one_in(2)
        for at, names in enumerate(self.shuffled(KEYS)[:self.any_of((0, 1, 1, 2))]):
            others.append(NewKey(at == 0 and self.one_in(2), names, None))
        others += [NewReference(["G"], None, "PART", ["N"], None, "", "")] * self.one_in(2)
        if is_versioned:
            elements += [it.generated("S", "start"), it.generated("E", "end")]
            others.append(NewPeriod(SYSTEM, "S", "E"))
        return Definition(name, it.mixed(self.shuffled(elements), others), is_versioned)

    @property
    def table(self) -> Table:
        return self.machine.tables["LIST"]

    def value(self, sort: str) -> int:
        """A value of a key's column, or one between two."""
        at = self.below(2 * self.many + 6) - 3
        return at if sort == NUMBER else self.begin + at * (1 if sort == DAY else 1 + MICROS * self.below(2))

    def cells(self, key: int, point: int) -> list:
        """A row with a number and a point: some values NULL, a few at the ends of their type."""
        key = self.any_of((LEAST, LEAST + 1, MOST - 1, MOST)) if self.one_in(40) else key
        cells = {"K": self.written(NUMBER, key), "D": self.written(self.sort, point), "G": self.written(NUMBER, self.below(6)),
                 "T": self.written(TEXT, self.any_of(WORDS)), "V": self.written(NUMBER, MOST if self.one_in(30) else self.below(12) - 4)}
        for name in ("G", "T", "V", *("KD" if self.one_in(4) else "")):
            at = self.table.column(name)
            if self.one_in(8) and not self.table.columns[at].is_required:
                cells[name] = Null()
        return [cells[self.table.columns[at].name] for at in self.table.open_places()]

    def filled(self) -> list:
        """INSERTs of the first rows of both tables."""
        step = 1 if self.sort == DAY else MICROS
        points = self.shuffled(range(2 * self.many))[:self.many]
        rows = [self.cells(key, self.begin + at * step) for key, at in zip(self.shuffled(range(2 * self.many)), points)]
        made = [Insert("PART", [], [[self.written(NUMBER, it), self.written(TEXT, self.any_of(WORDS))] for it in range(6)])]
        while rows:
            many = 1 + self.below(24)
            made, rows = made + [Insert("LIST", [], rows[:many])], rows[many:]
        return made

    # ---- conditions; `known` is by what the reference is named

    def among_references(self, *known: str) -> None:
        """Sets what the names of a statement may refer to: LIST under its own name or another, and PART as P and Q."""
        self.references = [(it, self.machine.tables["PART"] if it in "PQ" else self.table) for it in known]

    def column_of(self, known: str, name: str):
        return self.name(self.references, known, name)

    def literal_of(self, name: str):
        """A literal of a column, mostly near its values."""
        if name == "T":
            return self.written(TEXT, self.any_of((*WORDS, "a ")))
        if name in "GV":
            return self.written(NUMBER, self.below(7) - 1)
        sort = NUMBER if name == "K" else self.sort
        if sort == NUMBER and self.one_in(12):
            return self.written(NUMBER, self.any_of((LEAST, LEAST + 1, MOST - 1, MOST)))
        return self.written(sort, self.value(sort))

    def compare(self, known: str, name: str, sign: str, other) -> Compare:
        """A comparison, either way round."""
        column = self.column_of(known, name)
        return Compare(column, sign, other) if self.below(3) else Compare(other, SIGNS[sign], column)

    def range(self, known: str) -> list:
        """The conjuncts of a range: of both bounds or of one, of one value, reversed, negated, or with a bound that is no literal."""
        name, which = self.any_of("KKKKDDDG"), self.below(12)
        low, high = self.literal_of(name), self.literal_of(name)
        if low.value > high.value and self.below(6):
            low, high = high, low
        column = self.column_of(known, name)
        if which < 4:
            return [Between(column, low, high, False)]
        if which < 7:
            return [self.compare(known, name, self.any_of((">", ">=")), low), self.compare(known, name, self.any_of(("<", "<=")), high)]
        if which == 7:
            return [self.compare(known, name, self.any_of(("<", "<=", ">", ">=")), low)]
        if which == 8:
            return [Between(column, low, low, False), self.compare(known, name, "<=", high)]
        if which == 9:
            return [self.any_of((Between(column, low, high, True), Not(Between(column, low, high, False)), Not(Compare(column, ">", high))))]
        if which == 10:
            return [Inside(All([self.compare(known, name, ">", low), self.compare(known, name, "<", high)]))]
        other = self.column_of(known, self.any_of("GV") if name in "KG" else name)
        return [self.any_of((Between(column, low, other, False), Between(high, low, column, False)))]

    def among(self, known: str) -> Among:
        """IN, now and then of many, with repeats and with a column among the members."""
        name = self.any_of("KKKDGT")
        listed = [self.literal_of(name) for _ in range(self.any_of((1, 2, 2, 3, 5, 20)))]
        listed += [self.any_of(listed)] * self.one_in(2)
        if self.one_in(5):
            listed.append(self.column_of(known, self.any_of("GV") if name in "KG" else name))
        return Among(self.column_of(known, name), self.shuffled(listed), self.one_in(10))

    def either(self, known: str) -> Inside:
        """OR of equalities of one column, or with another condition among them."""
        name = self.any_of("KKKDGT")
        members = [self.compare(known, name, "=", self.literal_of(name)) for _ in range(2 + self.below(2))]
        if self.one_in(3):
            members.append(self.any_of((self.other, self.among, self.calculated))(known))
        if self.one_in(5):
            members.append(All(self.range(known) * 2))
        return Inside(Any(self.shuffled(members)))

    def calculated(self, known: str) -> Compare:
        """A condition that calculates, which may be out of range on some rows."""
        column = self.column_of(known, self.any_of("VVVGK"))
        sum_of = Chain(column, [(self.any_of("+-*"), self.written(NUMBER, 1 + self.below(3)))])
        return Compare(sum_of, self.any_of((*SIGNS, ">", ">")), self.written(NUMBER, self.below(9) - 1))

    def other(self, known: str):
        """A condition that no range and no list is."""
        name, which = self.any_of("KDGTV"), self.below(5)
        if which < 2:
            return self.compare(known, name, self.any_of([*SIGNS]), self.literal_of(name))
        if which == 2:
            return IsNull(self.column_of(known, self.any_of("GTV")), self.one_in(2))
        if which == 3 and self.table.system:
            first = self.written(MOMENT, self.moment())
            return self.compare(known, self.any_of("SE"), self.any_of([*SIGNS]), first)
        return Compare(self.column_of(known, "K"), self.any_of([*SIGNS]), self.column_of(known, self.any_of("GV")))

    def conjuncts(self, known: str, most: int) -> list:
        found = []
        for _ in range(1 + self.below(most)):
            which = self.below(12)
            if which < 6:
                found += self.range(known)
            else:
                found.append(self.any_of((self.among, self.among, self.either, self.calculated, self.other))(known))
        return self.shuffled(found) if self.one_in(2) else found

    def where_of(self, conjuncts: list):
        if len(conjuncts) > 1:
            return All(conjuncts)
        only = conjuncts[0] if conjuncts else None
        return only.what if isinstance(only, Inside) and self.one_in(2) else only

    # ---- questions

    def past(self) -> "Span | None":
        if not self.table.system or self.below(3):
            return None
        first, second = sorted((self.moment(), self.moment()))
        word = self.any_of(("as of", "as of", "from", "between"))
        return Span(word, [self.clock(it) for it in ((first,) if word == "as of" else (first, second))])

    def summed(self, known: str, is_number: bool = False):
        """An aggregate, or a calculation with one or two."""
        which = self.below(8)
        if which < 2:
            return Aggregate("COUNT", None)
        if which == 2:
            verb = "COUNT" if is_number else self.any_of(("MIN", "MAX", "COUNT"))
            return Aggregate(verb, self.column_of(known, self.any_of("TD")))
        if which == 3:
            return Aggregate("SUM", Chain(self.column_of(known, "V"), [("+", self.written(NUMBER, 1))]))
        made = Aggregate(self.any_of(("COUNT", "SUM", "MIN", "MAX")), self.column_of(known, self.any_of("KGV")))
        if which == 4:
            return Chain(made, [(self.any_of("+-"), Aggregate("COUNT", None))])
        return Chain(made, [("*", self.written(NUMBER, 2))]) if which == 5 else made

    def member(self, known: str, groups: list):
        """A member of HAVING."""
        if groups and self.one_in(3):
            name = self.any_of(groups)
            column = self.column_of(known, name)
            return self.any_of((IsNull(column, self.one_in(2)), Compare(column, self.any_of([*SIGNS]), self.literal_of(name))))
        if self.one_in(5):
            return Among(Aggregate("COUNT", None), [self.written(NUMBER, 1 + self.below(3)) for _ in range(2)], False)
        left = Aggregate("COUNT", None) if self.one_in(2) else self.summed(known, True)
        return Compare(left, self.any_of([*SIGNS]), self.written(NUMBER, self.below(5)))

    def grouped(self, known: str, chains: list, where) -> Select:
        """A query of groups, or of one group."""
        groups = self.shuffled("GTKD")[:self.any_of((0, 0, 1, 1, 1, 2, 3))]
        items = [(self.column_of(known, it), None) for it in groups if self.below(4)] + [(self.summed(known), None) for _ in range(1 + self.below(3))]
        members = [self.member(known, groups) for _ in range(self.any_of((0, 0, 1, 1, 2, 3)))]
        having = None if not members else All(members) if len(members) > 1 else members[0]
        if len(members) == 2 and self.one_in(3):
            having = Any(members)
        made = Select(self.shuffled(items), chains, where, [self.column_of(known, it) for it in groups], having, self.any_of(("", "", "DISTINCT")))
        made.orders = [(1 + self.below(len(items)), self.one_in(2))] * self.one_in(3)
        return made

    def question(self) -> Select:
        """A query of LIST, now and then with PART or with LIST again, and of three."""
        known, which = self.any_of(("LIST", "C")), self.below(12)
        more = ["P"] if which == 9 else ["L"] if which == 10 else ["P", "Q"] if which == 11 else []
        self.among_references(known, *more)
        chains = [From("LIST", self.past(), None if known == "LIST" else known)]
        chains += [From("LIST" if it == "L" else "PART", self.past() if it == "L" else None, it) for it in more]
        if which == 9:
            self.references.reverse()
            chains.reverse()
        conjuncts = self.conjuncts(known, 2) if self.below(12) else []
        if which == 10:
            equal = Compare(self.column_of(known, self.any_of("KG")), "=", self.column_of("L", "G"))
            if self.one_in(2):
                chains[1].join, chains[1].on = self.any_of((("JOIN", equal), ("LEFT JOIN", All([equal, *self.conjuncts("L", 1)]))))
            else:
                conjuncts += [equal, *self.conjuncts("L", 1)]
        where = self.where_of(conjuncts)
        return self.grouped(known, chains, where) if self.below(5) < 2 else self.listed_of(known, chains, where)

    def listed_of(self, known: str, chains: list, where) -> Select:
        """The rows themselves, or items of them."""
        items = None if self.one_in(3) else [(self.item_of(known), None) for _ in range(1 + self.below(3))]
        made = Select(items, chains, where, word=self.any_of(("", "DISTINCT", "DISTINCT", "ALL")))
        if items is not None and self.one_in(3):
            made.orders = [(1 + self.below(len(items)), self.one_in(2))]
        return made

    def item_of(self, known: str):
        column = self.column_of(known, self.any_of("KDGGTTV"))
        if self.below(4):
            return column
        return Chain(self.column_of(known, self.any_of("VVGK")), [(self.any_of("+-*"), self.written(NUMBER, 1 + self.below(2)))])

    # ---- changes

    def insert(self, _table: "Table | None" = None) -> Insert:
        rows = [self.cells(self.value(NUMBER), self.value(self.sort)) for _ in range(1 + self.below(3))]
        return Insert("LIST", [], rows)

    def copied(self) -> Insert:
        """Rows of a range, with other keys."""
        self.among_references("LIST")
        names = [self.table.columns[at].name for at in self.table.open_places()]
        items = {it: self.column_of("LIST", it) for it in names}
        items["K"] = Chain(items["K"], [("+", self.written(NUMBER, 3 * self.many))])
        items["D"] = self.written(self.sort, self.value(self.sort)) if self.one_in(2) else items["D"]
        return Insert("LIST", [], None, Select([(items[it], None) for it in names], [From("LIST", None, None)], self.where_of(self.conjuncts("LIST", 2))))

    def change(self) -> Change:
        self.among_references("LIST")
        where = self.where_of(self.conjuncts("LIST", 2))
        if self.one_in(3):
            return Change("DELETE", "LIST", None, [], where)
        number = Chain(Name(None, "V", "v"), [(self.any_of("+-"), self.written(NUMBER, 1))])
        moved = Chain(Name(None, "K", "k"), [(self.any_of("+-"), self.written(NUMBER, self.any_of((1, 2, 100))))])
        sets = (("V", number), ("V", number), ("K", moved), ("G", self.literal_of("G")), ("T", self.literal_of("T")))
        return Change("UPDATE", "LIST", None, [self.any_of(sets)], where)

    # ---- the rest

    def at(self) -> At:
        base = self.machine.commits[-1][0] if self.machine.commits else BEGIN
        return At(self.clock(base + 1 + self.below(3_000_000)))

    def reader(self):
        opened = [*self.machine.readers]
        if not opened:
            return Open("R", "r")
        return Close("R", "r") if self.one_in(8) else Read("R", "r", self.question())

    def statement(self):
        if self.prunes and self.one_in(20):
            return self.prune()
        if self.reads and self.one_in(5):
            return self.reader()
        which = self.below(60)
        if which < 4:
            return self.insert()
        if which < 6:
            return self.copied()
        if which < 18:
            return self.change()
        if which < 56:
            return self.question()
        return self.turn() if which < 58 else self.at()

    def is_short(self, statement) -> bool:
        """Whether the reply is short, and few rows are left."""
        if not isinstance(statement, (Select, Read)):
            return not isinstance(statement, (Insert, Change)) or self.is_narrow(statement)
        query, product = statement.query if isinstance(statement, Read) else statement, 1
        for it in query.chains:
            product *= max(1, len(self.machine.rows(it.table))) * (2 if it.span else 1)
        return product <= PAIRS and self.machine.answer(statement).count("\n") <= LINES

    def is_narrow(self, change) -> bool:
        if change.bind(self.machine.tables):
            return True
        try:
            stay, come, _, _ = change.rows(self.machine.tables[change.table], self.machine.rows(change.table), self.machine.asked)
        except Refused:
            return True
        return len(stay) + len(come) <= ROWS
