"""Definitions of tables that a counter makes: columns, periods, keys, references to tables that are there, and checks; and faulty ones."""
from copying.conditions import All, Among, Any, Between, Chain, Compare, IsNull, Literal, Made, Name, Not, Place, Relation
from copying.tables import (SYSTEM, Column, Definition, NewCheck, NewColumn, NewKey, NewPeriod, NewReference, Table, check_faults,
                            table_of)
from copying.values import DAY, MOMENT, NUMBER, TEXT, Refused, named

NAMES = ("LOG", "Pay", "sale", "NOTE", "TERM", "A B", "USE", "DEPT")
COLUMNS = ("X", "K", "a b", "D", "M", "W", "q", '"', "N_1")
PERIODS = (("P", "F", "U"), ("f to g", "F", "G"), ("EP", "to", "A"))
ACTIONS = ("", "", " ON DELETE NO ACTION", " ON UPDATE NO ACTION ON DELETE NO ACTION")
STAMPS = ("TIMESTAMP", "TIMESTAMP(6)", "TIMESTAMP (12) WITHOUT TIME ZONE", "TIMESTAMP WITHOUT TIME ZONE")
BEFORE = ("", "", "CONSTRAINT c ", 'CONSTRAINT "a b" ')


def user(column: Column) -> bool:
    return column.is_open


class Definitions:
    """Definitions; `maker` counts, and has literals and conditions."""

    def __init__(self, maker, machine) -> None:
        self.maker, self.machine = maker, machine

    def column(self, name: str, sort: str, is_required: bool = False, limit: int = 3) -> NewColumn:
        it = self.maker
        if sort == NUMBER:
            text = it.any_of(("INTEGER", "INT", "BIGINT"))
        elif sort == TEXT:
            text = it.any_of((f"VARCHAR({limit})", f"VARCHAR ({limit:04})"))
        else:
            text = "DATE" if sort == DAY else it.any_of(STAMPS)
        text = f"{named(name, it.below(3))} {text}{' NOT NULL' if is_required else ''}"
        return NewColumn(Column(name, sort, limit, is_required), text)

    def generated(self, name: str, which: str) -> NewColumn:
        before, after = ("", " NOT NULL")[self.maker.below(2)], ("", " NOT NULL")[self.maker.below(2)]
        return NewColumn(Column(name, MOMENT, filling=which), f"{named(name)} TIMESTAMP{before} GENERATED ALWAYS AS ROW {which.upper()}{after}")

    def columns(self) -> list:
        it = self.maker
        names = it.shuffled(COLUMNS)
        sorts = [NUMBER] + [it.any_of((NUMBER, TEXT, TEXT, DAY, MOMENT)) for _ in range(1 + it.below(2))]
        return [self.column(name, sort, it.one_in(4), it.any_of((3, 3, 4))) for name, sort in zip(names, sorts)]

    def name(self) -> str:
        free = [it for it in NAMES if it not in self.machine.tables]
        return self.maker.any_of(free if free and self.maker.below(10) else NAMES)

    def key(self, table: Table, columns: list, is_primary: bool) -> NewKey:
        it = self.maker
        has_period = table.period is not None and it.below(4) > 0
        names = [one.column.name for one in columns if one.column.is_open and not (has_period and one.column.name in self.ends(table))]
        names = it.shuffled(names)[:1 + it.one_in(3)]
        return NewKey(is_primary, names, table.period[0] if has_period else None, it.any_of(BEFORE))

    def ends(self, table: Table) -> list:
        return [table.columns[at].name for at in table.ends()]

    def reference(self, table: Table, elements: list, parent: Table) -> "NewReference | None":
        """A reference to a key of a table, whose columns are found here or come with it."""
        it, key = self.maker, self.maker.any_of(parent.keys)
        has_period = key.has_period
        if has_period and (not table.period or table.columns[table.period[1]].sort != parent.columns[parent.period[1]].sort):
            return None
        names: list = []
        for at in key.places:
            column = parent.columns[at]
            found = [one.column.name for one in elements if isinstance(one, NewColumn) and one.column.sort == column.sort and one.column.is_open
                     and one.column.name not in names and not (has_period and one.column.name in self.ends(table))]
            if not found or it.one_in(4):
                used = [one.column.name for one in elements if isinstance(one, NewColumn)]
                names.append(next(one for one in ("R", "r", "Ref", "R_2", "R_3", "R_4", "R_5", "R_6") if one not in used))
                elements.append(self.column(names[-1], column.sort, False, column.limit))
            else:
                names.append(it.any_of(found))
        parents = [parent.columns[at].name for at in key.places]
        periods = (table.period[0], parent.period[0]) if has_period else (None, None)
        return NewReference(names, periods[0], parent.name, parents, periods[1], it.any_of(BEFORE), it.any_of(ACTIONS))

    # ---- checks

    def check(self, table: Table) -> "NewCheck | None":
        """A CHECK that most rows pass, of some that are tried."""
        it = self.maker
        for _ in range(6):
            condition = self.condition(table)
            if self.passes(table, condition):
                return NewCheck(condition, it.any_of(BEFORE))
        return None

    def condition(self, table: Table):
        it, references = self.maker, [(table.name, table)]
        column = it.column(references, None, user) or Name(None, "NOSUCH", "nosuch")
        sort = next((one.sort for one in table.columns if one.name == column.name), NUMBER)
        which = it.below(8)
        if which == 0 and table.period:
            period, other = it.name(references, table.name, table.period[0]), Made(*it.rising(table.columns[table.period[1]].sort))
            return Any([Relation(period, it.any_of(("OVERLAPS", "PRECEDES")), other), IsNull(column, False)])
        if which == 1 and sort == NUMBER:
            return Compare(Chain(column, [("*", it.name(references, table.name, column.name))]), "<", Literal("100", NUMBER, 100))
        if which == 2 and sort == NUMBER:
            high = Literal("9223372036854775800", NUMBER, 9_223_372_036_854_775_800)
            return Any([Compare(column, ">", it.literal(NUMBER)), Compare(Chain(column, [("+", high)]), ">", it.literal(NUMBER))])
        if which == 3:
            return Not(Compare(column, "=", it.literal(sort)))
        if which == 4:
            return Among(column, [it.literal(sort) for _ in range(3)], True)
        if which == 5:
            between = Between(column, it.literal(sort), it.literal(sort), it.one_in(2))
            return Any([between, Compare(column, it.any_of(("<>", ">=")), it.literal(sort))])
        if which == 6:
            return All([Compare(column, "<>", it.literal(sort)), it.factor([(table.name, self.open_table(table))], 0)])
        return it.condition([(table.name, self.open_table(table))])

    def open_table(self, table: Table) -> Table:
        """A table as a CHECK may name it: without what the machine fills."""
        columns = [it for it in table.columns if it.is_open]
        ends = tuple(columns.index(table.columns[it]) for it in table.ends())
        return Table(table.name, columns, (table.period[0], *ends) if ends else None, None)

    def passes(self, table: Table, condition) -> bool:
        """Whether most rows of some that are tried pass a CHECK, and not all do."""
        failed = 0
        if check_faults(table, condition):
            return self.maker.one_in(12)
        odds, self.maker.odds = self.maker.odds, 0
        for _ in range(12):
            cells = self.maker.row(table)
            try:
                row = tuple(None if at not in cells else cells[at].on(Place(())) for at in range(len(table.columns)))
                failed += condition.on(Place((row,))) is False
            except Refused:
                failed += 1
        self.maker.odds = odds
        return 1 <= failed <= 5

    # ---- whole definitions

    def elements(self) -> tuple:
        """The elements of a sound definition, and whether it is versioned."""
        it = self.maker
        elements, is_versioned = self.columns(), it.one_in(2)
        if is_versioned:
            elements += [self.generated("S", "start"), self.generated("E", "end")]
        others: list = [NewPeriod(SYSTEM, "S", "E")] if is_versioned else []
        if it.below(5):
            name, start, end = it.any_of(PERIODS)
            sort = it.any_of((DAY, DAY, MOMENT))
            elements += [self.column(one, sort, it.one_in(5)) for one in it.shuffled((start, end))]
            others.append(NewPeriod(name, start, end))
        elements = it.shuffled(elements)
        name = self.name()
        self.constrain(name, elements, others)
        return name, self.mixed(elements, others), is_versioned

    def mixed(self, elements: list, others: list) -> list:
        """Columns in their order, and what is no column anywhere between them."""
        elements = list(elements)
        for one in others:
            elements.insert(self.maker.below(len(elements) + 1), one)
        return elements

    def constrain(self, name: str, elements: list, others: list) -> None:
        """Gives a definition keys, references and checks."""
        it = self.maker
        table = table_of(Definition(name, elements + others, False))
        has_primary = False
        for _ in range(it.any_of((0, 1, 1, 1, 2, 3))):
            is_primary = not has_primary and it.one_in(2)
            has_primary = has_primary or is_primary
            others.append(self.key(table, elements, is_primary))
        parents = [one for one in self.machine.tables.values() if one.keys and one.name != name]
        for _ in range(it.any_of((0, 1, 1, 2)) if parents else 0):
            made = self.reference(table, elements, it.any_of(parents))
            others += [made] if made else []
        table = table_of(Definition(name, elements + others, False))
        for _ in range(it.any_of((0, 0, 1, 2))):
            made = self.check(table)
            others += [made] if made else []

    def definition(self) -> Definition:
        name, elements, is_versioned = self.elements()
        if self.maker.one_in(3):
            elements, is_versioned = self.spoiled(name, elements, is_versioned)
        return Definition(name, elements, is_versioned)

    def spoiled(self, name: str, elements: list, is_versioned: bool) -> tuple:
        """A definition with an element left out, doubled, or put beside one that does not fit."""
        it, which = self.maker, self.maker.below(12)
        at = it.below(len(elements))
        table = table_of(Definition(name, elements, is_versioned))
        if which == 0 and len(elements) > 1:
            return elements[:at] + elements[at + 1:], is_versioned
        if which == 1:
            return elements + [elements[at]], is_versioned
        if which == 2:
            return elements, not is_versioned
        if which == 3:
            return elements + [NewColumn(Column("V", TEXT, 9), "v VARCHAR(0)", False)], is_versioned
        if which == 4:
            return elements + [NewColumn(Column("V", MOMENT), "v TIMESTAMP(13)", False)], is_versioned
        names = [column.name for column in table.columns]
        period = table.period[0] if table.period else "NOSUCH"
        if which == 5:
            return elements + [NewKey(it.one_in(2), it.shuffled(names)[:1 + it.below(2)], it.any_of((period, None)))], is_versioned
        if which == 6:
            return elements + [NewKey(False, [it.any_of([*names, period, "NOSUCH"]), it.any_of(names)], None)], is_versioned
        if which == 7:
            return elements + [NewCheck(it.condition([(name, table)], 0))], is_versioned
        if which == 8:
            return elements + [NewCheck(it.condition([("NOSUCH", table)], 0))], is_versioned
        return elements + [self.odd_reference(name, names, period)], is_versioned

    def odd_reference(self, name: str, names: list, period: str) -> NewReference:
        """A reference of any columns to any of a table that is there, to this one, or to none."""
        it = self.maker
        parent = it.any_of([*self.machine.tables, name, "NOSUCH"])
        table = self.machine.tables.get(parent)
        others = [column.name for column in table.columns] if table else names
        other, many = table.period[0] if table and table.period else period, 1 + it.below(2)
        names, others = it.shuffled(names)[:many], it.shuffled(others)[:many]
        return NewReference(names, it.any_of((period, None)), parent, others, it.any_of((other, None)), "", "")
