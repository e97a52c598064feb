"""Refusals, sorts, values, and how values and names are written and printed, as docs/LANGUAGE.md has it. A value is None, a whole number or
a text; a day is the number of days since the first of the year 1, a moment the number of microseconds."""
import re
from datetime import date

E10, E14, E20 = "E10 not a statement", "E14 nested too deep", "E20 table unknown or already there"
E21, E22, E23 = "E21 name unknown, ambiguous or repeated", "E22 types do not fit", "E23 form not allowed here"
E24, E30, E31 = "E24 table is referenced", "E30 value out of range", "E31 portion not rising"
E32, E33, E34 = "E32 null not allowed", "E33 period not rising", "E34 check failed"
E35, E36 = "E35 duplicate key", "E36 reference not met"
E16, E40, E41 = "E16 too many tables or readers", "E40 not in this transaction state", "E41 moment not allowed"
E45, E46, E47 = "E45 before the horizon", "E46 reader not usable", "E47 readers are open"

NUMBER, TEXT, DAY, MOMENT = "number", "text", "day", "moment"
SORTS = (NUMBER, TEXT, DAY, MOMENT)
MICROS = 1_000_000
DAY_MICROS = 86_400 * MICROS
LEAST, MOST = -(2**63), 2**63 - 1

RESERVED = frozenset("""ALL AND AS BETWEEN BIGINT BY CHECK CONSTRAINT CONTAINS COUNT CREATE CROSS DATE DELETE DISTINCT DROP EQUALS FOR FOREIGN
FROM FULL GROUP HAVING IMMEDIATELY IN INNER INSERT INT INTEGER INTO IS JOIN LEFT MAX MIN NOT NULL ON OR ORDER OUTER OVERLAPS PERIOD PORTION
PRECEDES PRIMARY REFERENCES RIGHT SELECT SET SUCCEEDS SUM SYSTEM_TIME TABLE TIMESTAMP TO UNIQUE UPDATE VALUES VARCHAR WHERE WITH""".split())
BARE = re.compile(r"[A-Z_][A-Z0-9_]*")


class Refused(Exception):
    """A statement is refused for this."""


def number(value: int) -> int:
    """A whole number of 64 bits."""
    if not LEAST <= value <= MOST:
        raise Refused(E30)
    return value


def first(faults) -> "str | None":
    """The first of these refusals in the order of report: of those that stand beside each other here that is the order of their numbers, but
    E45 and E46 stand before E30."""
    return min(faults, default=None, key=lambda it: (it >= E30 and it not in (E45, E46), it))


def day_of(year: int, month: int, day: int) -> int:
    return date(year, month, day).toordinal() - 1


def moment_of(year: int, month: int, day: int, micros: int = 0) -> int:
    return day_of(year, month, day) * DAY_MICROS + micros


# The highest moment, which is the end of a row that has not ended; and the moment from which the clocks of scripts begin.
HIGH = moment_of(9999, 12, 31, DAY_MICROS - 1)
CLOCK = moment_of(2011, 1, 1)


def printed(sort: str, value) -> str:
    """A value as a reply has it."""
    if value is None:
        return "NULL"
    if sort == TEXT:
        return "'" + value.replace("'", "''") + "'"
    if sort == DAY:
        return date.fromordinal(value + 1).isoformat()
    if sort == MOMENT:
        seconds, rest = divmod(value % DAY_MICROS, MICROS)
        time = f"{seconds // 3600:02}:{seconds // 60 % 60:02}:{seconds % 60:02}" + (f".{rest:06}" if rest else "")
        return printed(DAY, value // DAY_MICROS) + " " + time
    return str(value)


def literal(sort: str, value) -> str:
    """A value as a statement has it."""
    if value is None or sort in (NUMBER, TEXT):
        return printed(sort, value)
    return f"{'DATE' if sort == DAY else 'TIMESTAMP'} '{printed(sort, value)}'"


def is_bare(name: str) -> bool:
    return BARE.fullmatch(name) is not None


def heading(name: str) -> str:
    return name if is_bare(name) else '"' + name.replace('"', '""') + '"'


def named(name: str, how: int = 0) -> str:
    """A name as a statement has it: where it may be a word, in one of three ways."""
    if not is_bare(name) or name in RESERVED or how % 3 == 2:
        return '"' + name.replace('"', '""') + '"'
    return name.lower() if how % 3 == 0 else name


def lines(headings: list, sorts: list, rows: list) -> str:
    """A table as it is printed, its rows in this order."""
    shown = ["|".join(heading(it) for it in headings)]
    shown += ["|".join(printed(sort, value) for sort, value in zip(sorts, row)) for row in rows]
    return "".join(f"{it}\n" for it in [*shown, f"({len(rows)} rows)"])


def rising(value) -> tuple:
    """What a value is sorted by: NULL first."""
    return (value is not None, value)


def both(left: "bool | None", right: "bool | None") -> "bool | None":
    """AND."""
    return False if left is False or right is False else None if left is None or right is None else True


def negated(truth: "bool | None") -> "bool | None":
    return None if truth is None else not truth


def either(left: "bool | None", right: "bool | None") -> "bool | None":
    """OR."""
    return negated(both(negated(left), negated(right)))
