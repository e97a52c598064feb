"""Numbers that look like chance, and are the same in every run; and the literals, expressions and conditions that they make. `odds` is how
often a leaf is one that does not fit: one in so many."""
from copying.conditions import (Aggregate, All, Among, Any, Between, Chain, Compare, Contains, Inside, IsNull, Literal, Made, Name, Not,
                                Relation, Signed, SystemTime)
from copying.tables import Table
from copying.values import CLOCK, DAY, MICROS, MOMENT, NUMBER, SORTS, TEXT, day_of, literal, moment_of, named

LEAP = moment_of(2012, 2, 29)
# Literals of each sort; a text has at most three characters.
SOME = {
    NUMBER: (("-12", -12), ("- 1", -1), ("-0", 0), ("+1", 1), ("0010", 10), ("-9223372036854775808", -2**63), ("+9223372036854775807", 2**63 - 1),
             ("9", 9)),
    TEXT: (("''", ""), ("'a'", "a"), ("'B'", "B"), ("'a''b'", "a'b"), ("'''''|'", "''|"), ("'é€\U0001d11e'", "é€\U0001d11e"), ("'z;'", "z;"),
           ("' --'", " --")),
    DAY: (("DATE '2012-02-29'", day_of(2012, 2, 29)), ("DATE'0001-01-01'", 0), ("date '9999-12-31'", day_of(9999, 12, 31)),
          ("DATE '1999-12-31'", day_of(1999, 12, 31)), ("DATE '1970-01-01'", day_of(1970, 1, 1))),
    MOMENT: (("TIMESTAMP '2012-02-29 23:59:59.5000009'", LEAP + 86_399 * MICROS + 500_000),
             ("TIMESTAMP '2012-02-29 23:59:59.999999999999'", LEAP + 86_400 * MICROS - 1), ("TIMESTAMP '2012-02-29 00:00:00'", LEAP),
             ("timestamp'2012-02-29 00:00:00.000001'", LEAP + 1), ("TIMESTAMP '2012-02-29 01:02:03'", LEAP + 3723 * MICROS),
             ("TIMESTAMP '2012-02-29 12:00:00.25'", LEAP + 43_200 * MICROS + 250_000)),
}
# A few of each sort, which meet often; days and moments are the ends of application periods and of portions, and rise.
FEW = {
    NUMBER: (("0", 0), ("1", 1), ("2", 2), ("3", 3)),
    TEXT: (("'a'", "a"), ("'b'", "b"), ("'A'", "A")),
    DAY: (*((literal(DAY, it), it) for it in range(day_of(2012, 2, 26), day_of(2012, 3, 2))), ("date '2012-03-02'", day_of(2012, 3, 2)),
          ("DATE'2012-03-04'", day_of(2012, 3, 4))),
    MOMENT: (*((literal(MOMENT, it), it) for it in range(LEAP - 4, LEAP + 3)), ("TIMESTAMP '2012-02-29 00:00:00.0000050'", LEAP + 5)),
}
# Literals that no value has.
NONE = {
    NUMBER: ("9223372036854775808", "+9223372036854775808", "-9223372036854775809", "1" + "0" * 41),
    DAY: ("DATE '2011-02-29'", "DATE '2012-2-29'", "DATE '0000-01-01'", "DATE '2012-02-29 00:00:00'"),
    MOMENT: ("TIMESTAMP '2012-02-29 24:00:00'", "TIMESTAMP '2012-02-29'", "TIMESTAMP '2012-02-29 00:00:00.0000000000000'",
             "TIMESTAMP '2012-02-29 00:00:60'"),
}
SIGNS = ("=", "=", "<>", "<", "<=", ">", ">=")
RELATIONS = ("OVERLAPS", "EQUALS", "PRECEDES", "SUCCEEDS", "IMMEDIATELY PRECEDES", "IMMEDIATELY SUCCEEDS")


class Counter:
    def __init__(self, seed: int) -> None:
        self.state, self.odds = seed, 60
        for _ in range(3):
            self.below(2)

    def below(self, limit: int) -> int:
        self.state = (self.state * 6_364_136_223_846_793_005 + 1_442_695_040_888_963_407) % 2**64
        return (self.state >> 33) % limit

    def one_in(self, many: int) -> bool:
        return self.below(many) == 0

    def any_of(self, some):
        return some[self.below(len(some))]

    def shuffled(self, some) -> list:
        some = list(some)
        return [some.pop(self.below(len(some))) for _ in range(len(some))]

    def is_odd(self) -> bool:
        return self.odds > 0 and self.one_in(self.odds)

    # ---- literals

    def literal(self, sort: str) -> Literal:
        """A literal of a sort, now and then of another, or one that no value has."""
        if self.is_odd():
            if sort in NONE and self.one_in(2):
                return Literal(self.any_of(NONE[sort]), sort, None)
            sort = self.any_of(SORTS)
        text, value = self.any_of(SOME[sort] if self.one_in(5) else FEW[sort])
        return Literal(text, sort, value)

    def written(self, sort: str, value) -> Literal:
        return Literal(literal(sort, value), sort, value)

    def clock(self, moment: int) -> Literal:
        """A moment of the clock."""
        return Literal("TIMESTAMP '2011-02-30 00:00:00'", MOMENT, None) if self.is_odd() else self.written(MOMENT, moment)

    def rising(self, sort: str) -> tuple:
        """Two points that rise."""
        points = FEW[sort]
        low = self.below(len(points) - 1)
        high = low + 1 + self.below(len(points) - 1 - low)
        return Literal(*self.spelled(points[low], sort)), Literal(*self.spelled(points[high], sort))

    def spelled(self, point: tuple, sort: str) -> tuple:
        return point[0], sort, point[1]

    # ---- names; `references` are (known name, table)

    def column(self, references: list, sort: "str | None", takes=None) -> "Name | None":
        """A column of a sort, where there is one; mostly unqualified where one reference alone has its name."""
        found = [(known, it) for known, table in references for it in table.columns if sort in (None, it.sort) and (takes is None or takes(it))]
        if self.is_odd() or not found:
            return Name(None, "NOSUCH", "nosuch") if self.is_odd() else None
        known, column = self.any_of(found)
        return self.name(references, known, column.name)

    def name(self, references: list, known: str, name: str) -> Name:
        is_alone = sum(bool(table.places(name)) for _, table in references) == 1
        qualifier = known if self.one_in(3) or not is_alone and not self.is_odd() else None
        return Name(qualifier, name, (f"{named(qualifier, self.below(3))}." if qualifier else "") + named(name, self.below(3)))

    def period(self, references: list) -> "Name | None":
        found = [(known, table.period[0]) for known, table in references if table.period]
        return self.name(references, *self.any_of(found)) if found else None

    # ---- expressions

    def expression(self, references: list, sort: str, depth: int = 1):
        """An expression of a sort; of numbers now and then sums, products and signs."""
        if sort == NUMBER and depth > 0 and self.one_in(3):
            return self.sum(references, depth - 1)
        made = self.column(references, sort) if self.below(3) else None
        made = made or self.literal(sort)
        return Inside(made) if self.one_in(12) else made

    def sum(self, references: list, depth: int):
        parts = [self.expression(references, NUMBER, depth) for _ in range(2 + self.one_in(4))]
        parts = [Inside(it) if isinstance(it, (Chain, Signed)) else it for it in parts]
        which = self.below(6)
        if which == 0:
            return Signed(self.any_of("+-"), Inside(parts[0]) if isinstance(parts[0], Literal) else parts[0])
        signs = "*" if which == 1 else "+-"
        return Chain(parts[0], [(self.any_of(signs), it) for it in parts[1:]])

    # ---- conditions

    def operand(self, references: list, sort: str):
        """A period of a sort: an application period, SYSTEM_TIME or one that is made."""
        found = [it for it in references if it[1].period and it[1].columns[it[1].period[1]].sort == sort]
        if found and self.below(3):
            return self.period(found)
        systems = [known for known, table in references if table.system]
        if sort == MOMENT and systems and self.below(2):
            known = self.any_of(systems)
            is_alone = len(systems) == 1 and self.below(2)
            return SystemTime(None, "SYSTEM_TIME") if is_alone else SystemTime(known, f"{named(known)}.SYSTEM_TIME")
        if self.below(3):
            return Made(*self.rising(sort))
        return Made(self.expression(references, sort, 0), self.expression(references, sort, 0))

    def predicate(self, references: list):
        sorts = [table.columns[table.period[1]].sort for _, table in references if table.period]
        sort = self.any_of(sorts) if sorts and self.below(6) else MOMENT
        left = self.operand(references, sort)
        if self.one_in(2):
            return Relation(left, self.any_of(RELATIONS), self.operand(references, sort))
        right = self.operand(references, sort) if self.one_in(2) else self.expression(references, sort, 0)
        return Contains(left, right)

    def test(self, references: list, depth: int):
        which = self.below(14)
        if which < 3 and (which == 0 or any(table.period for _, table in references)):
            return self.predicate(references)
        if which == 3 and depth > 0:
            return Inside(self.condition(references, depth - 1))
        sort = self.any_of([it.sort for _, table in references for it in table.columns if it.is_open])
        left = (self.column(references, sort) if self.below(4) else None) or self.expression(references, sort)
        if which == 4:
            return IsNull(left, self.one_in(2))
        if which == 5:
            return Between(left, self.expression(references, sort, 0), self.expression(references, sort, 0), self.one_in(3))
        if which == 6:
            return Among(left, [self.expression(references, sort, 0) for _ in range(1 + self.below(3))], self.one_in(3))
        return Compare(left, self.any_of(SIGNS), self.expression(references, sort))

    def factor(self, references: list, depth: int):
        if self.is_odd() and self.one_in(4):
            return Compare(Aggregate("COUNT", None), ">", self.literal(NUMBER))
        made = self.test(references, depth)
        return Not(made) if self.one_in(8) else made

    def condition(self, references: list, depth: int = 1):
        which = self.below(8)
        if which < 5:
            return self.factor(references, depth)
        parts = [self.factor(references, depth) for _ in range(2 + self.one_in(5))]
        if which < 7:
            return All(parts)
        return Any([All(parts), self.factor(references, depth)] if self.one_in(3) else parts)


def alone(table: Table) -> list:
    """A table as the only reference."""
    return [(table.name, table)]


BEGIN = CLOCK + MICROS
