"""Answers as frames of pandas."""
from __future__ import annotations

from typing import TYPE_CHECKING, Any

import numpy
import pandas

from ._values import column_of

if TYPE_CHECKING:
    from . import Cursor

_ROWS = 65536


def _series(kind: "str | None", numbers: Any, kinds: Any, texts: "list[str | None]") -> Any:
    """Returns the values of a column of this kind."""
    nulls = kinds == 0
    if kind == "VARCHAR":
        return numpy.array(texts, dtype=object)
    if kind == "DATE":
        values = numbers.astype("datetime64[D]").astype("datetime64[s]")
    elif kind == "TIMESTAMP":
        values = numbers.astype("datetime64[us]")
    else:
        return pandas.arrays.IntegerArray(numbers, nulls) if nulls.any() else numbers
    values[nulls] = numpy.datetime64("NaT")
    return values


def frame_of(cursor: "Cursor") -> pandas.DataFrame:
    """Returns the rows that a cursor has not returned yet."""
    cursor._table()
    kinds_of = [it[1] for it in cursor.description or ()]
    if cursor._at < len(cursor._rows) or None in kinds_of:
        return pandas.DataFrame(cursor.fetchall(), columns=cursor._names)
    columns = {}
    for column, kind in enumerate(kinds_of):
        numbers, kinds, texts = [numpy.empty(0, "<i8")], [numpy.empty(0, "u1")], []
        for start in range(0, cursor._left, _ROWS):
            count = min(_ROWS, cursor._left - start)
            block = cursor._block(column, start, count)
            numbers.append(numpy.frombuffer(block[: 8 * count], "<i8").copy())
            kinds.append(numpy.frombuffer(block[8 * count : 9 * count], "u1").copy())
            if kind == "VARCHAR":
                texts += column_of(block, count)
        columns[column] = _series(kind, numpy.concatenate(numbers), numpy.concatenate(kinds), texts)
    cursor._skip(cursor._left)
    frame = pandas.DataFrame(columns)
    frame.columns = pandas.Index(cursor._names or ())
    return frame
