"""Tables, and definitions of them: what is wrong with one, and the table that it makes."""
from copying.conditions import Place, Scope
from copying.values import DAY, E20, E21, E22, E23, E30, E32, E33, E34, MOMENT, TEXT, Refused, named

SYSTEM = None  # in the place of a period's name


class Column:
    """A column: its name and what it takes; 'start' and 'end' are filled by the machine."""

    def __init__(self, name: str, sort: str, limit: int = 0, is_required: bool = False, filling: str = "user") -> None:
        self.name, self.sort, self.limit, self.is_required, self.filling = name, sort, limit, is_required, filling
        self.is_open = filling == "user"


class Key:
    """A key: the places of its columns; whether it is WITHOUT OVERLAPS."""

    def __init__(self, places: tuple, has_period: bool) -> None:
        self.places, self.has_period = places, has_period


class Reference:
    """A reference: the places of its columns, the parent, and the places there; whether it has PERIOD."""

    def __init__(self, places: tuple, parent: "Table", parents: tuple, has_period: bool) -> None:
        self.places, self.parent, self.parents, self.has_period = places, parent, parents, has_period


class Table:
    """A table: its columns, the name and the ends of its application period, the ends of its system period, and its constraints."""

    def __init__(self, name: str, columns: list, period: "tuple | None", system: "tuple | None") -> None:
        self.name, self.columns, self.period, self.system = name, columns, period, system
        self.keys, self.references, self.checks = [], [], []

    def places(self, name: str) -> list:
        """The places of the columns of a name, and the ends of the period where it has the name."""
        found: list = [at for at, it in enumerate(self.columns) if it.name == name]
        return found + ([self.period[1:]] if self.period and self.period[0] == name else [])

    def column(self, name: str) -> "int | None":
        """The place of the column of a name, where there is one and no period of it."""
        found = self.places(name)
        return found[0] if len(found) == 1 and not isinstance(found[0], tuple) else None

    def ends(self) -> tuple:
        return self.period[1:] if self.period else ()

    def span(self, row: tuple) -> tuple:
        """The ends of a row's application period."""
        return tuple(row[it] for it in self.ends())

    def points(self, row: tuple) -> range:
        """The points of a row's application period."""
        return range(*self.span(row))

    def open_places(self) -> list:
        return [at for at, it in enumerate(self.columns) if it.is_open]

    def row_faults(self, row: tuple) -> list:
        """What a new row is refused for."""
        faults = [E30 for column, value in zip(self.columns, row) if column.sort == TEXT and value is not None and len(value) > column.limit]
        faults += [E32 for column, value in zip(self.columns, row) if value is None and column.is_required]
        ends = self.span(row)
        faults += [E33] * (None not in ends and len(ends) == 2 and ends[0] >= ends[1])
        for check in self.checks:
            try:
                faults += [E34] * (check.on(Place((row,))) is False)
            except Refused as why:
                faults.append(str(why))
        return faults


# ---- definitions

class NewColumn:
    """A column as it is written; `is_sound` tells whether its length or precision is allowed."""

    def __init__(self, column: Column, text: str, is_sound: bool = True) -> None:
        self.column, self.text, self.is_sound = column, text, is_sound


class NewPeriod:
    def __init__(self, name: "str | None", start: str, end: str) -> None:
        self.name, self.start, self.end = name, start, end
        self.text = f"PERIOD FOR {'SYSTEM_TIME' if name is SYSTEM else named(name)} ({named(start)}, {named(end, 2)})"


class NewKey:
    def __init__(self, is_primary: bool, names: list, period: "str | None", before: str = "") -> None:
        self.is_primary, self.names, self.period = is_primary, names, period
        listed = [named(it, at) for at, it in enumerate(names)] + ([f"{named(period)} WITHOUT OVERLAPS"] if period else [])
        self.text = f"{before}{'PRIMARY KEY' if is_primary else 'UNIQUE'} ({', '.join(listed)})"


class NewReference:
    def __init__(self, names: list, period: "str | None", parent: str, parents: list, parent_period: "str | None", before: str, after: str) -> None:
        self.names, self.period, self.parent, self.parents, self.parent_period = names, period, parent, parents, parent_period
        lists = [", ".join([named(it) for it in some] + ([f"PERIOD {named(other)}"] if other else []))
                 for some, other in ((names, period), (parents, parent_period))]
        self.text = f"{before}FOREIGN KEY ({lists[0]}) REFERENCES {named(parent)} ({lists[1]}){after}"


class NewCheck:
    def __init__(self, condition, before: str = "") -> None:
        self.condition, self.text = condition, f"{before}CHECK ({condition.text})"


class Definition:
    """A CREATE TABLE."""

    def __init__(self, name: str, elements: list, is_versioned: bool) -> None:
        self.name, self.elements, self.is_versioned = name, elements, is_versioned

    @property
    def text(self) -> str:
        versioning = " WITH SYSTEM VERSIONING" if self.is_versioned else ""
        return f"CREATE TABLE {named(self.name)} ({', '.join(it.text for it in self.elements)}){versioning}"

    def some(self, kind: type) -> list:
        return [it for it in self.elements if isinstance(it, kind)]


def period_ends(columns: list, made: "NewPeriod | None") -> "tuple | None":
    """The places of a period's columns, where they are there."""
    names = [it.name for it in columns]
    if made is None or made.start not in names or made.end not in names:
        return None
    return names.index(made.start), names.index(made.end)


def table_of(definition: Definition) -> Table:
    """The table of a definition without its constraints, as far as there is one."""
    columns = [it.column for it in definition.some(NewColumn)]
    spans = [it for it in definition.some(NewPeriod) if it.name is not SYSTEM]
    systems = [it for it in definition.some(NewPeriod) if it.name is SYSTEM]
    ends = period_ends(columns, spans[0]) if spans else None
    system = period_ends(columns, systems[0]) if systems else None
    return Table(definition.name, columns, (spans[0].name, *ends) if ends else None, system)


def name_faults(definition: Definition) -> list:
    """Names that stand twice, and columns of periods that are not there."""
    names = [it.column.name for it in definition.some(NewColumn)]
    periods = definition.some(NewPeriod)
    every = names + [it.name for it in periods if it.name is not SYSTEM]
    faults = [E21] * (len({*every}) < len(every))
    return faults + [E21 for it in periods if it.start not in names or it.end not in names]


def period_faults(table: Table, definition: Definition) -> list:
    """What is wrong with the periods and the generated columns."""
    columns, periods = table.columns, definition.some(NewPeriod)
    systems = [it for it in periods if it.name is SYSTEM]
    faults = [E23] * (len(systems) > 1 or len(periods) - len(systems) > 1 or bool(systems) != definition.is_versioned)
    faults += [E23] * (not any(it.is_open for it in columns))
    fillings = sorted(it.filling for it in columns if not it.is_open)
    faults += [E23] * (fillings != (["end", "start"] if systems else []))
    for it in periods:
        ends = period_ends(columns, it)
        faults += [E23] * (it.start == it.end)
        if ends:
            start, end = (columns[at] for at in ends)
            wanted = (MOMENT,) if it.name is SYSTEM else (DAY, MOMENT)
            faults += [E22] * (start.sort != end.sort or start.sort not in wanted)
            is_filled = (start.filling, end.filling)
            faults += [E23] * (is_filled != (("start", "end") if it.name is SYSTEM else ("user", "user")))
    return faults


def list_faults(table: Table, names: list, period: "str | None") -> list:
    """What is wrong with the columns and the period of a key, or of one side of a reference."""
    places = [table.column(it) for it in names]
    faults = [E21] * (None in places or len({*names}) < len(names))
    has_period = table.period is not None and table.period[0] == period
    faults += [E21] * (period is not None and not has_period)
    faults += [E23 for it in places if it is not None and not table.columns[it].is_open]
    return faults + [E23] * (has_period and any(it in table.ends() for it in places))


def reference_faults(table: Table, parent: Table, made: NewReference) -> list:
    """What is wrong with a reference to a table that is there."""
    faults = list_faults(table, made.names, made.period) + list_faults(parent, made.parents, made.parent_period)
    faults += [E22] * (len(made.names) != len(made.parents)) + [E23] * ((made.period is None) != (made.parent_period is None))
    places, parents = [table.column(it) for it in made.names], [parent.column(it) for it in made.parents]
    for place, other in zip(places, parents):
        faults += [E22] * (None not in (place, other) and table.columns[place].sort != parent.columns[other].sort)
    if made.period and made.parent_period and table.period and parent.period:
        faults += [E22] * (table.columns[table.period[1]].sort != parent.columns[parent.period[1]].sort)
    is_key = any(it.places == tuple(parents) and it.has_period == bool(made.parent_period) for it in parent.keys)
    return faults + [E23] * (not is_key)


def check_faults(table: Table, condition) -> list:
    scope = Scope([(table.name, table)])
    condition.bind(scope)
    return scope.faults + [E23 for _, it in scope.used if not table.columns[it].is_open]


def define(tables: dict, definition: Definition) -> tuple:
    """What is wrong with a definition, and its table."""
    references = definition.some(NewReference)
    if definition.name in tables or any(it.parent not in tables for it in references):
        return [E20], None
    table = table_of(definition)
    faults = name_faults(definition) + period_faults(table, definition)
    faults += [E22 for it in definition.some(NewColumn) if not it.is_sound]
    keys = definition.some(NewKey)
    faults += [E23] * (sum(it.is_primary for it in keys) > 1)
    for it in keys:
        faults += list_faults(table, it.names, it.period)
    for it in references:
        faults += reference_faults(table, tables[it.parent], it)
    for it in definition.some(NewCheck):
        faults += check_faults(table, it.condition)
    if not faults:
        constrain(tables, table, definition)
    return faults, table


def constrain(tables: dict, table: Table, definition: Definition) -> None:
    """Gives a table its constraints, and the columns of its period and of its PRIMARY KEY NOT NULL."""
    for it in definition.some(NewKey):
        places = tuple(table.column(name) for name in it.names)
        table.keys.append(Key(places, it.period is not None))
        for at in places if it.is_primary else ():
            table.columns[at].is_required = True
    for at in table.ends():
        table.columns[at].is_required = True
    for it in definition.some(NewReference):
        parent = tables[it.parent]
        places, parents = tuple(table.column(name) for name in it.names), tuple(parent.column(name) for name in it.parents)
        table.references.append(Reference(places, parent, parents, it.period is not None))
    table.checks = [it.condition for it in definition.some(NewCheck)]
