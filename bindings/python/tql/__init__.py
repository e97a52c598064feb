"""DB-API 2.0 (PEP 249) for tql, an in-memory SQL engine for bitemporal tables.

    import datetime, tql
    with tql.connect() as pay:
        pay.execute("CREATE TABLE pay (name VARCHAR(20), cents INTEGER, since DATE)")
        pay.executemany("INSERT INTO pay VALUES (?, ?, ?)", [("Ada", 300000, datetime.date(2011, 3, 1))])
        for name, cents, since in pay.execute("SELECT * FROM pay WHERE cents > :least", {"least": 1000}):
            print(name, cents, since)

A parameter is `?` or `:name`, where a literal may be. Its value is None, an int, a str, a datetime.date, or a datetime.datetime without a time zone.
It is passed as one literal, so no value is ever read as SQL. Cells are returned as these types too.

Each statement is a transaction of its own, unless one is open: `with connection.transaction():` opens one, and ends it by COMMIT, or by ROLLBACK
if the block raises. `commit` and `rollback` end an open transaction, and do nothing where none is open. `with connection:` closes the connection.

A connection is an engine with its own tables, and two connections share nothing. It stays on the thread that opened it (threadsafety 1); another
thread may only close it.
"""
from __future__ import annotations

import contextlib
import ctypes
import datetime
import weakref
from itertools import islice
from threading import get_ident
from typing import TYPE_CHECKING, Any, Iterable, Iterator, Mapping, Sequence, Union

from . import _library
from ._errors import (DatabaseError, DataError, Error, IntegrityError, InterfaceError, InternalError, NotSupportedError, OperationalError,
                      ProgrammingError, Warning, class_of)
from ._library import library as _c, string_at as _string_at
from ._values import column_of as _column_of, packed as _packed, placed as _placed, row_of as _row_of, shown as _shown

if TYPE_CHECKING:
    import pandas

__all__ = ["apilevel", "threadsafety", "paramstyle", "connect", "Connection", "Cursor", "Warning", "Error", "InterfaceError", "DatabaseError",
           "DataError", "OperationalError", "IntegrityError", "InternalError", "ProgrammingError", "NotSupportedError", "Date", "Time", "Timestamp",
           "DateFromTicks", "TimeFromTicks", "TimestampFromTicks", "Binary", "STRING", "BINARY", "NUMBER", "DATETIME", "ROWID", "to_frame", "version"]
__version__ = "0.1.0"
apilevel = "2.0"
threadsafety = 1
paramstyle = "qmark"

Parameters = Union[Sequence[Any], Mapping[str, Any]]
Row = tuple


class _Type:
    """A type object of PEP 249: equal to the type codes of its kinds."""

    def __init__(self, name: str, *codes: str) -> None:
        self.name, self.codes = name, codes

    def __eq__(self, other: object) -> bool:
        return other is self or other in self.codes

    def __hash__(self) -> int:
        return hash(self.name)

    def __repr__(self) -> str:
        return f"tql.{self.name}"


STRING, NUMBER, DATETIME = _Type("STRING", "VARCHAR"), _Type("NUMBER", "INTEGER"), _Type("DATETIME", "DATE", "TIMESTAMP")
BINARY, ROWID = _Type("BINARY"), _Type("ROWID")
_CODES = (None, "INTEGER", "VARCHAR", "DATE", "TIMESTAMP")
Date, Timestamp, Time = datetime.date, datetime.datetime, datetime.time
DateFromTicks = datetime.date.fromtimestamp
TimestampFromTicks = datetime.datetime.fromtimestamp
_ROWS = 4096


def TimeFromTicks(ticks: float) -> datetime.time:
    return datetime.datetime.fromtimestamp(ticks).time()


def Binary(data: object) -> bytes:
    raise NotSupportedError("tql has no binary values")


def version() -> str:
    """Returns the version of the library, and how it was built."""
    return _c.tql_version().decode()


def connect(memory: int = 0, reserve: int = 0) -> "Connection":
    """Opens an engine without tables. It takes at most `memory` bytes (0: no bound). It keeps back `reserve` of them from INSERT, UPDATE and CREATE
    TABLE, so that a DELETE can make room in a full engine; a DELETE takes all of them but 65,536."""
    return Connection(memory, reserve)


def to_frame(cursor: "Cursor") -> "pandas.DataFrame":
    """Returns the rows that a cursor has not returned yet as a pandas.DataFrame, without making a row of them. INTEGER is int64, or Int64 if there
    are NULLs; VARCHAR is object; DATE is datetime64[s] and TIMESTAMP datetime64[us]. It needs pandas 2."""
    from ._frames import frame_of
    return frame_of(cursor)


class Connection:
    """An engine."""

    Warning, Error, InterfaceError, DatabaseError, DataError = Warning, Error, InterfaceError, DatabaseError, DataError
    OperationalError, IntegrityError, InternalError = OperationalError, IntegrityError, InternalError
    ProgrammingError, NotSupportedError = ProgrammingError, NotSupportedError
    _engine = 0

    def __init__(self, memory: int = 0, reserve: int = 0) -> None:
        engine = ctypes.c_uint64()
        if _c.tql_open(memory, reserve, ctypes.byref(engine)) != _library.OK:
            raise OperationalError("there is no memory for an engine")
        self._engine, self._thread = engine.value, get_ident()
        # The cursor that may not have read all of the engine's answer.
        self._reading: "weakref.ref[Cursor] | None" = None
        #: Whether a transaction is open.
        self.in_transaction = False

    def cursor(self) -> "Cursor":
        self._number()
        return Cursor(self)

    def execute(self, statement: str, parameters: Parameters = ()) -> "Cursor":
        """Runs a statement on a new cursor."""
        return self.cursor().execute(statement, parameters)

    def executemany(self, statement: str, rows: Iterable[Parameters]) -> "Cursor":
        return self.cursor().executemany(statement, rows)

    def executescript(self, script: str) -> "Cursor":
        return self.cursor().executescript(script)

    def commit(self) -> None:
        """Ends the open transaction, if there is one."""
        self._number()
        if self.in_transaction:
            self.execute("COMMIT")

    def rollback(self) -> None:
        """Undoes the open transaction, if there is one."""
        self._number()
        if self.in_transaction:
            self.execute("ROLLBACK")

    @contextlib.contextmanager
    def transaction(self) -> Iterator["Connection"]:
        """Opens a transaction, and ends it with the block: by COMMIT, or by ROLLBACK where the block raises."""
        self.execute("START TRANSACTION")
        try:
            yield self
        except BaseException:
            self.rollback()
            raise
        self.commit()

    def close(self) -> None:
        """Closes the engine, and gives its memory back. A further call does nothing."""
        engine, self._engine = self._engine, 0
        self._reading = None
        if engine:
            _c.tql_close(engine)

    def __enter__(self) -> "Connection":
        self._number()
        return self

    def __exit__(self, *_: object) -> None:
        self.close()

    def __del__(self) -> None:
        self.close()

    def _number(self) -> int:
        if not self._engine:
            raise ProgrammingError("the connection is closed")
        if self._thread != get_ident():
            raise ProgrammingError("a connection stays on the thread that opened it")
        return self._engine

    def _begin(self, cursor: "Cursor | None") -> int:
        """Reads what another cursor has left of its answer, before a statement replaces that."""
        engine, reading, self._reading = self._number(), self._reading, None
        if reading is not None:
            other = reading()
            if other is not None and other is not cursor:
                other._keep()
        return engine

    def _end(self, answer: int, text: str, values: "Sequence[Any]" = ()) -> int:
        """Returns an answer that is neither a refusal nor an error, and raises any other."""
        if answer == _library.REFUSED:
            raise self._error(_shown(text, values) if values else text)
        if answer < 0:
            raise OperationalError("there is no memory") if answer == _library.NOMEM else ProgrammingError("another thread uses the connection")
        return answer

    def _error(self, statement: str) -> DatabaseError:
        number = _c.tql_error(self._engine)
        said = lambda call, *more: (call(self._engine, *more) or b"").decode(errors="replace") or None
        text = said(_c.tql_error_text) or "E01 out of memory"
        error = class_of(number)(text)
        error.number, error.text, error.statement = number, text[4:], statement
        error.detail, error.hint, error.constraint = said(_c.tql_error_detail), said(_c.tql_error_hint), said(_c.tql_error_constraint)
        columns: list[str] = []
        while (name := said(_c.tql_error_column, len(columns))) is not None:
            columns.append(name)
        error.columns = tuple(columns)
        error.line, error.column = _c.tql_error_line(self._engine), _c.tql_error_place(self._engine) or None
        error.row = _c.tql_error_row(self._engine) or None
        words = text
        if error.detail:
            words += f": {error.detail}"
        if error.hint:
            words += f"; {error.hint}"
        error.args = (words,)
        return error


class Cursor:
    """A statement and its answer. Its rows are read from the engine as they are asked for, in blocks."""

    def __init__(self, connection: Connection) -> None:
        #: The connection.
        self.connection = connection
        #: How many rows `fetchmany` returns.
        self.arraysize = 1
        #: How many rows changed or are in the answer; -1 where none are counted.
        self.rowcount = -1
        self.lastrowid: None = None
        self._names: "list[str] | None" = None
        self._kinds: "list[str | None] | None" = None
        self._asked: "tuple[str, Sequence[Any]]" = ("", ())
        self._rows: "list[Row]" = []
        self._at = 0
        self._left = 0
        self._closed = False
        self._room = None

    # ---- running
    def execute(self, statement: str, parameters: Parameters = ()) -> "Cursor":
        """Runs one statement, with or without a `;` at its end."""
        text, values = _placed(statement, parameters)
        data = _packed(values)
        engine = self._start()
        self._asked = text, values
        self._take(self._run(engine, text, values, data), engine)
        return self

    def executemany(self, statement: str, rows: Iterable[Parameters]) -> "Cursor":
        """Runs a statement for each of `rows`. The first refusal ends it, and what was done before stays, unless an open transaction is
        rolled back. In a transaction, an INSERT of one row of `?` is sent for 200 rows at a time, so the references of a row may be to later
        rows among these."""
        connection = self.connection
        engine = self._start()
        parts = _row_of(statement) if connection.in_transaction else None
        self.rowcount = 0
        if parts:
            # In a transaction the rows of one INSERT have the same moment as those of many.
            front, row = parts
            each = iter(rows)
            while some := list(islice(each, 200)):
                self._insert(engine, front, row, some)
            return self
        for it in rows:
            if self._run(engine, *_placed(statement, it)) == _library.TABLE:
                raise ProgrammingError("executemany is for statements without rows")
            count = _c.tql_changes(engine)
            if count < 0:
                self._note(engine)
                self.rowcount = -1
            elif self.rowcount >= 0:
                self.rowcount += count
        return self

    def _run(self, engine: int, statement: str, values: "Sequence[Any]" = (), data: "bytes | None" = None) -> int:
        try:
            text = statement.encode()
        except UnicodeEncodeError:
            raise DataError("a text has half of a surrogate pair") from None
        if not values and b"?" not in text:
            answer = _c.tql_run(engine, text, len(text))
        else:
            data = _packed(values) if data is None else data
            answer = _c.tql_run_packed(engine, text, len(text), data, len(data), len(values))
            if answer == _library.MISUSE:
                raise ProgrammingError(f"the statement has {_c.tql_places(engine, text, len(text))} parameters, and {len(values)} values were passed")
        return answer if answer == 1 else self.connection._end(answer, statement, values)

    def _insert(self, engine: int, front: str, row: str, rows: "list[Parameters]") -> None:
        """Inserts rows. If one is refused, those before it stay, as if each were inserted by itself."""
        count = row.count("?")
        try:
            if all((type(it) is tuple or type(it) is list) and len(it) == count for it in rows):
                self._run(engine, front + ",".join([row] * len(rows)), [value for it in rows for value in it])
                self.rowcount += len(rows)
                return
        except Error:
            if len(rows) == 1:
                raise
        for it in rows:
            self._run(engine, *_placed(front + row, it))
            self.rowcount += 1

    def executescript(self, script: str) -> "Cursor":
        """Runs the statements of a script, each of which ends with a `;`. The first refusal ends it, and the rest is not run. Rows of
        queries are dropped. The line and column of an error are those in the script."""
        for answer in self._answers(script):
            if isinstance(answer, DatabaseError):
                raise answer
        self._names = None
        return self

    def _answers(self, script: str) -> "Iterator[Cursor | DatabaseError]":
        """Runs the statements of a script in order, and yields after each: this cursor, with the answer, or the error of a refusal. What is
        left when the caller stops is not run."""
        connection, engine = self.connection, self._start()
        data, taken = script if isinstance(script, bytes) else script.encode(), ctypes.c_size_t()
        try:
            while True:
                if data:
                    connection._end(_c.tql_feed(engine, data, len(data), ctypes.byref(taken)), script)
                    data = data[taken.value:]
                step = _c.tql_next if data else _c.tql_finish
                while (answer := step(engine)) != _library.NONE:
                    if answer == _library.REFUSED:
                        self._names, self._rows, self._left = None, [], 0
                        yield connection._error(script)
                    else:
                        self._names = self._kinds = None
                        self._rows, self._at, self._left = [], 0, 0
                        self._take(connection._end(answer, script), engine)
                        yield self
                    if connection._begin(self) != engine:
                        return
                if not data:
                    return
        finally:
            # What was fed and not run is forgotten.
            if connection._engine == engine:
                _c.tql_forget(engine)

    def _start(self) -> int:
        self._open()
        engine = self.connection._begin(self)
        self._names = self._kinds = None
        self._rows, self._at, self._left, self.rowcount = [], 0, 0, -1
        return engine

    def _note(self, engine: int) -> None:
        words = _c.tql_words(engine)
        if words == b"START TRANSACTION":
            self.connection.in_transaction = True
        elif words in (b"COMMIT", b"ROLLBACK"):
            self.connection.in_transaction = False

    def _take(self, answer: int, engine: int) -> None:
        if answer == _library.TABLE:
            length = ctypes.c_size_t()
            self._names = [_string_at(_c.tql_name(engine, column, ctypes.byref(length)), length).decode() for column in range(_c.tql_columns(engine))]
            self._left = self.rowcount = _c.tql_rows_left(engine)
            self.connection._reading = weakref.ref(self)
        else:
            self.rowcount = count = _c.tql_changes(engine)
            if count < 0:
                self._note(engine)

    # ---- reading
    @property
    def description(self) -> "list[tuple] | None":
        """The name and the type code of each column; None if there is no table."""
        if self._names is None:
            return None
        if self._kinds is None:
            self._kinds = self._kinds_of()
        return [(name, kind, None, None, None, None, None) for name, kind in zip(self._names, self._kinds)]

    def _kinds_of(self) -> "list[str | None]":
        count, text = len(self._names or ()), _shown(*self._asked).encode()
        room = (ctypes.c_ubyte * max(count, 1))()
        if self.connection._engine and _c.tql_kinds(self.connection._engine, text, len(text), room, count) == count:
            return [_CODES[it] for it in room[:count]]
        return [None] * count

    def _block(self, column: int, start: int, count: int) -> memoryview:
        """Returns a block of `tql_block`, of `count` rows of a column from `start` rows after the next one."""
        engine, needed = self.connection._number(), ctypes.c_size_t()
        if self._room is None:
            self._room = ctypes.create_string_buffer(1 << 16)
        while True:
            _c.tql_block(engine, column, start, count, self._room, len(self._room), None, ctypes.byref(needed))
            if needed.value <= len(self._room):
                return memoryview(self._room).cast("B")[: needed.value]
            self._room = ctypes.create_string_buffer(needed.value + needed.value // 4)

    def _skip(self, count: int) -> None:
        _c.tql_skip(self.connection._number(), count)
        self._left -= count

    def _read(self, most: int) -> None:
        """Reads further rows, after those that are kept."""
        count = min(most, self._left)
        lists = [_column_of(self._block(column, 0, count), count) for column in range(len(self._names or ()))]
        self._skip(count)
        self._rows = self._rows[self._at :] + list(zip(*lists)) if self._at < len(self._rows) else list(zip(*lists))
        self._at = 0

    def _keep(self) -> None:
        """Reads what is left of the answer, and the kinds of its columns, which another statement may change."""
        if self._names is not None and self._kinds is None:
            self._kinds = self._kinds_of()
        self._rows = self._rest()

    def _rest(self) -> "list[Row]":
        """Returns the rows that are left, and keeps none."""
        rows = self._rows[self._at :]
        while self._left:
            self._rows, self._at = [], 0
            self._read(_ROWS)
            rows += self._rows
        self._rows, self._at = [], 0
        return rows

    def fetchone(self) -> "Row | None":
        """Returns the next row, or None after the last."""
        if self._at == len(self._rows):
            self._table()
            if not self._left:
                return None
            self._read(256)
        row = self._rows[self._at]
        self._at += 1
        return row

    def fetchmany(self, size: "int | None" = None) -> "list[Row]":
        """Returns at most `size` further rows."""
        self._table()
        wanted = self.arraysize if size is None else size
        while len(self._rows) - self._at < wanted and self._left:
            self._read(max(wanted - (len(self._rows) - self._at), 256))
        rows = self._rows[self._at : self._at + max(wanted, 0)]
        self._at += len(rows)
        return rows

    def fetchall(self) -> "list[Row]":
        """Returns all further rows."""
        self._table()
        return self._rest()

    def __iter__(self) -> "Iterator[Row]":
        return self

    def __next__(self) -> Row:
        row = self.fetchone()
        if row is None:
            raise StopIteration
        return row

    def _open(self) -> None:
        if self._closed:
            raise ProgrammingError("the cursor is closed")

    def _table(self) -> None:
        self._open()
        self.connection._number()
        if self._names is None:
            raise ProgrammingError("the last statement has no rows")

    # ---- the rest of PEP 249
    def setinputsizes(self, sizes: object) -> None:
        """Does nothing."""

    def setoutputsize(self, size: int, column: "int | None" = None) -> None:
        """Does nothing."""

    def close(self) -> None:
        """Forgets the answer. A further call does nothing."""
        self._closed = True
        self._rows, self._at, self._left, self._names = [], 0, 0, None

    def __enter__(self) -> "Cursor":
        return self

    def __exit__(self, *_: object) -> None:
        self.close()
