"""Changes: INSERT, UPDATE and DELETE, and portions. A portion is done point by point, with no thought of the ends of periods."""
from itertools import groupby

from copying.conditions import Literal, Null, Place, Scope, is_kept
from copying.queries import Select
from copying.tables import SYSTEM, Table
from copying.values import E20, E21, E22, E23, E30, E31, HIGH, MOMENT, Refused, named


class Portion:
    """FOR PORTION OF a period's name, or of SYSTEM_TIME, from a point to another."""

    def __init__(self, name: "str | None", start: Literal, end: Literal) -> None:
        self.name, self.start, self.end = name, start, end
        self.text = f" FOR PORTION OF {'SYSTEM_TIME' if name is SYSTEM else named(name)} FROM {start.text} TO {end.text}"

    def faults(self, table: Table) -> list:
        points, is_known = [self.start, self.end], table.period is not None and self.name == table.period[0]
        sort = table.columns[table.period[1]].sort if is_known else MOMENT if self.name is SYSTEM and table.system else None
        faults = [E30 for it in points if it.value is None] + [E22 for it in points if sort not in (None, it.sort)]
        if self.name is SYSTEM:
            return [*faults, E23]
        if not is_known:
            return [*faults, E21]
        return faults or [E31] * (self.start.value >= self.end.value)

    def where(self, point: int) -> int:
        """Whether a point lies before it (-1), in it (0), or after it (1)."""
        return -1 if point < self.start.value else int(point >= self.end.value)


def cell_faults(cell, sort: "str | None", scope: Scope) -> None:
    """A cell of another kind than its column, where both are known."""
    if not isinstance(cell, Null):
        scope.want(cell.bind(scope), sort)


class Insert:
    """INSERT of tuples or of a query; its list has the names as they are meant, or is empty."""

    verb = "INSERT"

    def __init__(self, table: str, listed: list, tuples: "list | None", select: "Select | None" = None) -> None:
        self.table, self.listed, self.tuples, self.select = table, listed, tuples, select

    @property
    def text(self) -> str:
        names = f" ({', '.join(named(it, at) for at, it in enumerate(self.listed))})" if self.listed else ""
        if self.select:
            return f"INSERT INTO {named(self.table)}{names} {self.select.text}"
        rows = ", ".join("(" + ", ".join(it.text for it in row) + ")" for row in self.tuples)
        return f"INSERT INTO {named(self.table)}{names} VALUES {rows}"

    def bind(self, tables: dict) -> list:
        if self.table not in tables:
            return [E20]
        if self.select and any(it.table not in tables for it in self.select.chains):
            return [E20]
        table = tables[self.table]
        self.places = [table.column(it) for it in self.listed] if self.listed else table.open_places()
        faults = [E21] * (None in self.places or len({*self.listed}) < len(self.listed))
        faults += [E23 for it in self.places if it is not None and not table.columns[it].is_open]
        sorts = [None if it is None else table.columns[it].sort for it in self.places]
        return faults + (self.select_faults(tables, sorts) if self.select else self.tuple_faults(sorts))

    def select_faults(self, tables: dict, sorts: list) -> list:
        faults, made = self.select.bind(tables), self.select.sorts
        faults += [E22] * (len(made) != len(sorts))
        return faults + [E22] * any(None not in (sort, other) and sort != other for sort, other in zip(sorts, made))

    def tuple_faults(self, sorts: list) -> list:
        scope = Scope([])
        for row in self.tuples:
            scope.faults += [E22] * (len(row) != len(sorts))
            for at, cell in enumerate(row):
                cell_faults(cell, sorts[at] if at < len(sorts) else None, scope)
        return scope.faults

    def rows(self, table: Table, current: list, asked) -> tuple:
        """The rows that stay, those that come, how many were touched, and what is refused on the way."""
        faults, made = [], []
        if self.select:
            made = self.select.rows(asked)
        else:
            for row in self.tuples:
                try:
                    made.append([it.on(Place(())) for it in row])
                except Refused as why:
                    faults.append(str(why))
        come = []
        for values in made:
            row = [None] * len(table.columns)
            for place, value in zip(self.places, values):
                row[place] = value
            come.append(tuple(row))
        return current, come, len(come), faults


class Change:
    """UPDATE and DELETE. A SET is (the column's name, a cell)."""

    select = None

    def __init__(self, verb: str, table: str, portion: "Portion | None", sets: list, where) -> None:
        self.verb, self.table, self.portion, self.sets, self.where = verb, table, portion, sets, where

    @property
    def text(self) -> str:
        text = f"UPDATE {named(self.table, 1)}" if self.verb == "UPDATE" else f"DELETE FROM {named(self.table, 1)}"
        text += self.portion.text if self.portion else ""
        if self.sets:
            text += " SET " + ", ".join(f"{named(name, at)} = {it.text}" for at, (name, it) in enumerate(self.sets))
        return text + (f" WHERE {self.where.text}" if self.where else "")

    def bind(self, tables: dict) -> list:
        if self.table not in tables:
            return [E20]
        table = tables[self.table]
        scope, names = Scope([(self.table, table)]), [name for name, _ in self.sets]
        self.places = [table.column(it) for it in names]
        faults = [E21] * (None in self.places or len({*names}) < len(names))
        for place, (_, cell) in zip(self.places, self.sets):
            cell_faults(cell, None if place is None else table.columns[place].sort, scope)
            if place is not None:
                faults += [E23] * (not table.columns[place].is_open or self.portion is not None and place in table.ends())
        if self.where:
            self.where.bind(scope)
        return faults + scope.faults + (self.portion.faults(table) if self.portion else [])

    def rows(self, table: Table, current: list, _asked) -> tuple:
        """As of an INSERT. Only rows with a point in the portion are looked at, and only those of which WHERE is true are set."""
        faults, count, stay, come = [], 0, [], []
        for row, start in current:
            place = Place((completed(table, row, start),))
            try:
                if not self.is_seen(table, row) or not is_kept(self.where, place):
                    stay.append((row, start))
                    continue
                count += 1
                new = self.made(row, place)
                come += cut(table, self.portion, row, new) if self.portion else [] if new is None else [new]
            except Refused as why:
                faults.append(str(why))
        return stay, come, count, faults

    def is_seen(self, table: Table, row: tuple) -> bool:
        return self.portion is None or any(self.portion.where(it) == 0 for it in table.points(row))

    def made(self, row: tuple, place: Place) -> "tuple | None":
        """What SET makes of a row; none for a DELETE."""
        if self.verb == "DELETE":
            return None
        new = list(row)
        for at, (_, cell) in zip(self.places, self.sets):
            new[at] = cell.on(place)
        return tuple(new)


def completed(table: Table, row: tuple, start: int, end: "int | None" = None) -> tuple:
    """A row with what the machine fills: of a row that is changed, the highest moment as its end."""
    filled = {"start": start, "end": HIGH if end is None else end}
    return tuple(filled.get(column.filling, value) for column, value in zip(table.columns, row))


def cut(table: Table, portion: Portion, row: tuple, new: "tuple | None") -> list:
    """What replaces a touched row: each of its points has the old values or, in the portion, the new ones or none; then neighbours that lie on
    one side of the portion are one row again."""
    start, end = table.ends()
    rows = []
    for side, points in groupby(table.points(row), portion.where):
        values, points = row if side else new, [*points]
        if values is not None:
            made = list(values)
            made[start], made[end] = points[0], points[-1] + 1
            rows.append(tuple(made))
    return rows
