"""A machine that copies all of its tables at every commit, and tests every key and every reference of every copy, point by point. PRUNE HISTORY
lets go of the copies before the horizon. A reader has the copies that were committed when it was opened."""
from copying.changes import completed
from copying.queries import Select
from copying.tables import Key, Reference, Table, define
from copying.values import E16, E20, E24, E30, E35, E36, E40, E41, E45, E46, E47, HIGH, Refused, first

MOST_READERS = 256


def held(rows: list, places: tuple) -> list:
    """The values of some columns of each row, without those that have a NULL among them."""
    return [it for it in (tuple(row[at] for at in places) for row in rows) if None not in it]


def on_point(table: Table, rows: list, point: int) -> list:
    """The rows whose application period has a point."""
    return [it for it in rows if point in table.points(it)]


def is_key(table: Table, key: Key, rows: list) -> bool:
    """Whether a key holds of rows: of a key without overlaps, at each point."""
    bags = [rows]
    if key.has_period:
        bags = [on_point(table, rows, it) for it in {point for row in rows for point in table.points(row)}]
    return all(len({*values}) == len(values) for values in (held(it, key.places) for it in bags))


def is_met(table: Table, reference: Reference, rows: list, parents: list) -> bool:
    """Whether each row of a child finds what it refers to: with PERIOD, at each point of its period."""
    parent = reference.parent
    for row in rows:
        wanted = held([row], reference.places)
        for point in table.points(row) if reference.has_period else (None,):
            bag = parents if point is None else on_point(parent, parents, point)
            if wanted and wanted[0] not in held(bag, reference.parents):
                return False
    return True


def until(commits: list, at: int) -> int:
    """Until when one of some copies is the last."""
    return commits[at + 1][0] if at + 1 < len(commits) else HIGH


def end_of(commits: list, name: str, at: int, row: tuple) -> int:
    """Where a row of a copy ends: at the first later copy that lacks it."""
    return next((moment for moment, copy in commits[at:] if row not in copy.get(name, [])), HIGH)


class Machine:
    """The copies of all commits, the oldest first, with their moments; the tables; the moment of the next commit. An open transaction counts as
    the last commit. A row of a copy is its values, of which the generated ones are empty, with the moment of its commit. No question is asked
    of what lies before the horizon. Of each open reader, by its name, the copies that it set aside."""

    def __init__(self) -> None:
        self.commits: list = []
        self.tables: dict = {}
        self.is_open, self.next, self.horizon = False, 0, 0
        self.readers: dict = {}

    # ---- what is there

    def rows(self, name: str) -> list:
        """The rows of a table now."""
        return self.commits[-1][1].get(name, []) if self.commits else []

    def values(self, name: str) -> list:
        return [row for row, _ in self.rows(name)]

    def asked(self, reference) -> list:
        """The rows of a reference of FROM, of all copies."""
        return self.found(reference, self.commits)

    def found(self, reference, commits: list) -> list:
        """The rows of a reference of FROM: of the last of some copies, or of those that its clause asks for, each once."""
        name, span, found, seen = reference.table, reference.span, [], set()
        for at, (moment, copy) in enumerate(commits):
            if span.holds(moment, until(commits, at)) if span else at + 1 == len(commits):
                found += [(row, end_of(commits, name, at, row)) for row in copy.get(name, []) if row not in seen]
                seen = {row for row, _ in found}
        return [completed(self.tables[name], row, start, end) for (row, start), end in found]

    def committed(self) -> list:
        """The copies without that of an open transaction."""
        return self.commits[:-1] if self.is_open else self.commits

    # ---- steps

    def answer(self, statement) -> str:
        """The reply to a statement."""
        try:
            return getattr(self, type(statement).__name__.lower())(statement)
        except Refused as why:
            return f"REFUSED {why}\n"

    def stop(self, faults: list) -> None:
        if faults:
            raise Refused(first(faults))

    def horizon_faults(self, query: "Select | None") -> list:
        return [E45] if query and query.asks_before(self.horizon) else []

    def select(self, query: Select) -> str:
        self.stop(query.bind(self.tables) + self.horizon_faults(query))
        return query.printed(self.asked)

    def insert(self, change) -> str:
        return self.change(change)

    def change(self, change) -> str:
        rows, count = self.changed(change)
        self.copied()[change.table] = rows
        self.end()
        return f"{change.verb} {count}\n"

    def changed(self, change) -> tuple:
        """The rows of the table after a change, and how many it inserts or touches."""
        if not self.is_open and self.next == HIGH:
            raise Refused(E41)
        self.stop(change.bind(self.tables) + self.horizon_faults(change.select))
        table = self.tables[change.table]
        stay, come, count, faults = change.rows(table, self.rows(change.table), self.asked)
        self.stop(faults + [it for row in come for it in table.row_faults(row)])
        rows = stay + [(row, self.next) for row in come]
        self.hold(change.table, [row for row, _ in rows])
        return rows, count

    def hold(self, name: str, rows: list) -> None:
        """Tests all keys and all references, with these rows in a table."""
        after = {it: rows if it == name else self.values(it) for it in self.tables}
        faults = [E35 for it, table in self.tables.items() for key in table.keys if not is_key(table, key, after[it])]
        faults += [E36 for it, table in self.tables.items() for reference in table.references
                   if not is_met(table, reference, after[it], after[reference.parent.name])]
        self.stop(faults)

    def copied(self) -> dict:
        """A new copy of the tables, or the one of the open transaction."""
        if not self.is_open:
            last = self.commits[-1][1] if self.commits else {}
            self.commits.append((self.next, {table: [*rows] for table, rows in last.items()}))
        return self.commits[-1][1]

    def end(self) -> None:
        """Goes on to the next moment, where no transaction is open."""
        self.next += not self.is_open

    def turn(self, turn) -> str:
        if self.is_open == (turn.verb == "START TRANSACTION"):
            raise Refused(E40)
        if turn.verb == "START TRANSACTION":
            if self.next == HIGH:
                raise Refused(E41)
            self.copied()
        self.is_open = turn.verb == "START TRANSACTION"
        if turn.verb == "ROLLBACK":
            self.commits.pop()
        if turn.verb == "COMMIT":
            self.end()
        return f"{turn.verb}\n"

    def rest(self) -> None:
        if self.is_open:
            raise Refused(E40)

    def unread(self) -> None:
        if self.readers:
            raise Refused(E47)

    def definition(self, definition) -> str:
        self.rest()
        self.unread()
        faults, table = define(self.tables, definition)
        self.stop(faults)
        self.tables[table.name] = table
        return "CREATE TABLE\n"

    def drop(self, drop) -> str:
        self.rest()
        self.unread()
        if drop.table not in self.tables:
            raise Refused(E20)
        if any(it.parent.name == drop.table for table in self.tables.values() for it in table.references):
            raise Refused(E24)
        del self.tables[drop.table]
        for _, copy in self.commits:
            copy.pop(drop.table, None)
        return "DROP TABLE\n"

    def at(self, at) -> str:
        self.rest()
        if at.moment.value is None:
            raise Refused(E30)
        if self.commits and at.moment.value <= self.commits[-1][0]:
            raise Refused(E41)
        self.next = at.moment.value
        return "AT\n"

    def prune(self, prune) -> str:
        self.rest()
        moment = prune.moment.value
        if moment is None:
            raise Refused(E30)
        if any(not pinned or pinned[-1][0] < moment for pinned in self.readers.values()):
            raise Refused(E47)
        if moment < self.horizon:
            raise Refused(E45)
        kept = max((at for at, (it, _) in enumerate(self.commits) if it <= moment), default=0)
        self.commits, self.horizon = self.commits[kept:], moment
        return "PRUNE HISTORY\n"

    def open(self, opened) -> str:
        if len(self.readers) >= MOST_READERS:
            raise Refused(E16)
        if opened.name in self.readers:
            raise Refused(E46)
        self.readers[opened.name] = [*self.committed()]
        return "OPEN READER\n"

    def read(self, read) -> str:
        faults = read.query.bind(self.tables) + self.horizon_faults(read.query)
        plain = [it for it in read.query.chains if it.table in self.tables and self.tables[it.table].system is None]
        self.stop(faults + [E46] * (read.name not in self.readers or bool(plain)))
        return read.query.printed(lambda reference: self.found(reference, self.readers[read.name]))

    def close(self, closed) -> str:
        if closed.name not in self.readers:
            raise Refused(E46)
        del self.readers[closed.name]
        return "CLOSE READER\n"

    def odd(self, odd) -> str:
        raise Refused(odd.why)


class Turn:
    """START TRANSACTION, COMMIT or ROLLBACK."""

    def __init__(self, verb: str, after: str = "") -> None:
        self.verb, self.text = verb, verb + after


class Drop:
    def __init__(self, table: str, text: str) -> None:
        self.table, self.text = table, text


class At:
    def __init__(self, moment) -> None:
        self.moment, self.text = moment, f"AT {moment.text}"


class Prune:
    def __init__(self, moment) -> None:
        self.moment, self.text = moment, f"PRUNE HISTORY BEFORE {moment.text}"


class Open:
    def __init__(self, name: str, text: str) -> None:
        self.name, self.text = name, f"OPEN READER {text}"


class Read:
    def __init__(self, name: str, text: str, query: Select) -> None:
        self.name, self.query, self.text = name, query, f"READ {text} {query.text}"


class Close:
    def __init__(self, name: str, text: str) -> None:
        self.name, self.text = name, f"CLOSE READER {text}"


class Odd:
    """A text that is no statement."""

    def __init__(self, text: str, why: str) -> None:
        self.text, self.why = text, why
