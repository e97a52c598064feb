"""Values of parameters, and the cells of answers."""
from __future__ import annotations

import datetime
import re
import struct
from functools import lru_cache
from typing import Any, Mapping, Sequence

from ._errors import DataError, InterfaceError, ProgrammingError

_EPOCH = datetime.datetime(1970, 1, 1)
_FIRST_DAY = datetime.date(1970, 1, 1).toordinal()
_MICROSECOND = datetime.timedelta(microseconds=1)
_MICROSECONDS = datetime.timedelta
# A text, a quoted name, a comment, a parameter, or anything else up to the next of these.
_PIECE = re.compile(r"""'[^']*'?|"[^"]*"?|--[^\n]*|(\?)|:([A-Za-z_]\w*)|[^'"?:\-]+|.""", re.DOTALL)


@lru_cache(maxsize=512)
def _places_of(statement: str) -> tuple[str, tuple[str | None, ...]]:
    """Returns the statement with `?` in the place of each `:name`, and its parameters: None for `?`, a name for `:name`. There are none in quotes
    and comments."""
    made, names = [], []
    for piece in _PIECE.finditer(statement):
        if piece.lastindex:
            names.append(piece[2])
        made.append("?" if piece.lastindex else piece[0])
    if any(names) and None in names:
        raise ProgrammingError("the statement has `?` and `:name`: write one of them")
    return "".join(made), tuple(names)


_bytes = struct.Struct("<Bq").pack


def _text(value: str) -> bytes:
    try:
        data = value.encode()
    except UnicodeEncodeError:
        raise DataError("a text has half of a surrogate pair") from None
    return _bytes(2, len(data)) + data


def _integer(value: int) -> bytes:
    try:
        return _bytes(1, value)
    except struct.error:
        raise DataError(f"{value} has more than 64 bits") from None


def _date(value: datetime.date) -> bytes:
    return _bytes(3, value.toordinal() - _FIRST_DAY)


def _timestamp(value: datetime.datetime) -> bytes:
    if value.tzinfo is not None:
        raise InterfaceError("a TIMESTAMP has no time zone: pass a datetime without one")
    since = value - _EPOCH
    return _bytes(4, (since.days * 86400 + since.seconds) * 1_000_000 + since.microseconds)


# The bytes of a value, by its class, as `tql_run_packed` takes them.
_BYTES = {str: _text, int: _integer, type(None): lambda value: _bytes(0, 0), bool: lambda value: _bytes(1, value),
          datetime.date: _date, datetime.datetime: _timestamp}


def _plain(value: Any) -> Any:
    """Returns a value of a subclass as one of its class; a datetime is a date too."""
    for kind, base in ((str, str.__str__), (int, int.__int__)):
        if isinstance(value, kind):
            return base(value)
    if isinstance(value, datetime.datetime):
        return datetime.datetime.combine(datetime.date(value.year, value.month, value.day), value.timetz())
    if isinstance(value, datetime.date):
        return datetime.date(value.year, value.month, value.day)
    raise InterfaceError(f"a parameter is None, an int, a str, a date or a datetime, and not a {type(value).__name__}")


def packed(values: Sequence[Any]) -> bytes:
    """Returns the bytes of values."""
    try:
        return b"".join([_BYTES[type(value)](value) for value in values])
    except KeyError:
        plain = [value if type(value) in _BYTES else _plain(value) for value in values]
        return b"".join([_BYTES[type(value)](value) for value in plain])


def placed(statement: str, values: Sequence[Any] | Mapping[str, Any]) -> tuple[str, Sequence[Any]]:
    """Returns the statement with `?` as its parameters, and the values in their order."""
    if type(values) is not tuple and type(values) is not list:
        if isinstance(values, str):
            raise InterfaceError("the parameters are a sequence of values, and not one str")
        statement, names = _places_of(statement)
        return statement, _listed(names, values)
    if ":" in statement and any(_places_of(statement)[1]):
        raise ProgrammingError("the statement has `:name`: pass a mapping")
    return statement, values


def _listed(names: tuple[str | None, ...], values: Any) -> list[Any]:
    """Returns the values of a mapping in the order of the parameters, or of a sequence that is no list."""
    if not isinstance(values, Mapping):
        if names and names[0]:
            raise ProgrammingError("the statement has `:name`: pass a mapping")
        return list(values)
    if names and names[0] is None:
        raise ProgrammingError("the statement has `?`: pass a sequence")
    try:
        return [values[name] for name in names]
    except KeyError as missing:
        raise ProgrammingError(f"there is no value for :{missing.args[0]}") from None


def shown(statement: str, values: Sequence[Any]) -> str:
    """Returns the text that is run, with the literals of the values, to show it. `statement` has as many `?`."""
    pieces, literals = [], iter(values)
    for piece in _PIECE.finditer(statement):
        pieces.append(_literal(next(literals)) if piece[1] else piece[0])
    return "".join(pieces)


def _literal(value: Any) -> str:
    if value is None:
        return " NULL "
    if isinstance(value, int):
        return f" {int(value)} "
    if isinstance(value, datetime.datetime):
        return f" TIMESTAMP '{value.isoformat(sep=' ')}' "
    if isinstance(value, datetime.date):
        return f" DATE '{value.isoformat()}' "
    return " '" + str.__str__(value).replace("'", "''") + "' "


_MANY = re.compile(r"""(\s*INSERT\s+INTO\s+(?:[\w.]+|"[^"]*")\s*(?:\([^()'"?:]*\)\s*)?VALUES\s*)(\([^()'":\-]*\))\s*;?\s*""", re.IGNORECASE)


@lru_cache(maxsize=64)
def row_of(statement: str) -> tuple[str, str] | None:
    """Returns an INSERT of one row of `?` as the text before the row, and the row; None for any other statement."""
    found = _MANY.fullmatch(statement)
    return (found[1], found[2]) if found and "?" in found[2] and "?" not in found[1] else None


def _numbers(numbers: list[int], kind: int) -> list[Any]:
    if kind == 1:
        return numbers
    if kind == 3:
        day = datetime.date.fromordinal
        return [day(it + _FIRST_DAY) for it in numbers]
    return [_EPOCH + _MICROSECONDS(0, 0, it) for it in numbers]


def _texts(ends: list[int], blob: bytes) -> list[str]:
    starts = [0, *ends[:-1]]
    if blob.isascii():
        whole = blob.decode("ascii")
        return [whole[a:b] for a, b in zip(starts, ends)]
    return [blob[a:b].decode() for a, b in zip(starts, ends)]


def column_of(block: memoryview, count: int) -> list[Any]:
    """Returns the values of a block of `tql_block`."""
    numbers = block[: 8 * count].cast("q").tolist()
    kinds = bytes(block[8 * count : 9 * count])
    first = kinds[0] if count else 0
    if kinds == kinds[:1] * count:
        if first == 0:
            return [None] * count
        return _texts(numbers, bytes(block[9 * count :])) if first == 2 else _numbers(numbers, first)
    kind = max(kinds)
    if kind == 2:
        # A NULL has no bytes: it ends where the text before it does.
        end, ends = 0, []
        for number, it in zip(numbers, kinds):
            end = number if it else end
            ends.append(end)
        values = _texts(ends, bytes(block[9 * count :]))
    else:
        values = _numbers(numbers, kind)
    return [value if it else None for value, it in zip(values, kinds)]
