"""The exceptions of PEP 249. That of a refused statement has the parts of the refusal."""
from __future__ import annotations


class Warning(Exception):  # noqa: A001 (PEP 249 gives the name)
    """As PEP 249 wants it. Never raised."""


class Error(Exception):
    """Any error of this module.

    `number` is the number after the E of a refusal, or None for an error of the module itself. The others are None or empty if they are not
    known: `text` ("duplicate key"), `detail` (what is wrong), `hint` (what to write instead), `constraint` and `columns` (what a row
    violates), `row` (the row of an INSERT, from 1), `line` and `column` (the place in the statement, from 1), `statement` (the text that was
    run)."""

    number: int | None = None
    text: str | None = None
    detail: str | None = None
    hint: str | None = None
    constraint: str | None = None
    columns: tuple[str, ...] = ()
    row: int | None = None
    line: int | None = None
    column: int | None = None
    statement: str | None = None


class InterfaceError(Error):
    """The module was used wrongly: a parameter of a kind that the engine does not have, say."""


class DatabaseError(Error):
    """A statement was refused."""


class DataError(DatabaseError):
    """A value is out of its range (E30, E31)."""


class OperationalError(DatabaseError):
    """The state does not allow it: memory, transactions, moments, readers (E01, E15, E16, E40, E41, E45, E46, E47)."""


class IntegrityError(DatabaseError):
    """A row violates a constraint (E32 to E36)."""


class InternalError(DatabaseError):
    """As PEP 249 wants it. Never raised."""


class ProgrammingError(DatabaseError):
    """The statement is wrong: its text, its names or its kinds (E10 to E14, E20 to E24); or a cursor is used where it cannot be."""


class NotSupportedError(DatabaseError):
    """The engine has no such thing."""


def class_of(number: int) -> type[DatabaseError]:
    """Returns the class of a refusal by its number."""
    if number in (30, 31):
        return DataError
    if 32 <= number <= 36:
        return IntegrityError
    if number in (1, 15, 16, 40, 41, 45, 46, 47):
        return OperationalError
    return ProgrammingError
