"""Expressions and conditions as trees. Each says how it is written, what is wrong with it where it stands (bind), and what it is of a row (on).

A place is a choice of a value from each reference of a query; of a change it is one row. What is evaluated is evaluated whole: both sides of
AND and OR too."""
from copying.values import DAY, E21, E22, E23, E30, MOMENT, NUMBER, both, either, negated, number


class Scope:
    """Where names are sought: references, each a name and a table; whether aggregates may stand there. It gathers what is wrong, and which
    columns are named outside of aggregates."""

    def __init__(self, references: list, takes_aggregates: bool = False) -> None:
        self.references, self.takes_aggregates = references, takes_aggregates
        self.faults, self.used, self.is_inside, self.has_aggregate = [], [], False, False

    def find(self, qualifier: "str | None", name: str) -> list:
        """All columns and periods of a name: the place of the reference, and the place of the column or the ends of the period."""
        found = []
        for at, (known, table) in enumerate(self.references):
            if qualifier in (None, known):
                found += [(at, it) for it in table.places(name)]
        return found

    def systems(self, qualifier: "str | None") -> list:
        return [(at, table.system) for at, (known, table) in enumerate(self.references) if qualifier in (None, known) and table.system]

    def fault(self, what: str) -> None:
        self.faults.append(what)

    def use(self, at: int, *columns: int) -> None:
        if not self.is_inside:
            self.used += [(at, it) for it in columns]

    def want(self, sort: "str | None", *allowed: "str | None") -> None:
        """A kind, where it is known, is one of these, where they are."""
        if sort is not None and None not in allowed and sort not in allowed:
            self.fault(E22)


class Place:
    """The rows of all references that meet; for a group, all of its members too."""

    def __init__(self, rows: tuple, members: "list | None" = None) -> None:
        self.rows, self.members = rows, members


class Literal:
    """A literal; one that no value has is None."""

    def __init__(self, text: str, sort: str, value) -> None:
        self.text, self.sort, self.value = text, sort, value

    def bind(self, scope: Scope) -> str:
        if self.value is None:
            scope.fault(E30)
        return self.sort

    def on(self, _place: Place):
        return self.value


class Null:
    """NULL, which is a cell and no expression."""

    text = "NULL"

    def bind(self, _scope: Scope) -> None:
        return None

    def on(self, _place: Place) -> None:
        return None


class Name:
    """A column, or where a period may stand also a period; `text` is how it is written."""

    def __init__(self, qualifier: "str | None", name: str, text: str) -> None:
        self.qualifier, self.name, self.text = qualifier, name, text
        self.at, self.column, self.ends = 0, 0, None

    def bind(self, scope: Scope, takes: str = "column") -> "str | None":
        """As a column, a period, or either."""
        found, self.ends = scope.find(self.qualifier, self.name), None
        kind = "period" if found and isinstance(found[0][1], tuple) else "column"
        if len(found) != 1 or takes not in (kind, "either"):
            scope.fault(E21)
            return None
        self.at, what = found[0]
        table = scope.references[self.at][1]
        if kind == "period":
            self.ends = what
            scope.use(self.at, *what)
            return table.columns[what[0]].sort
        self.column = what
        scope.use(self.at, what)
        return table.columns[what].sort

    def on(self, place: Place):
        return place.rows[self.at][self.column]

    def span(self, place: Place) -> tuple:
        return tuple(place.rows[self.at][it] for it in self.ends)


class SystemTime:
    """SYSTEM_TIME as an operand."""

    def __init__(self, qualifier: "str | None", text: str) -> None:
        self.qualifier, self.text, self.at, self.ends = qualifier, text, 0, (0, 0)

    def bind(self, scope: Scope, _takes: str = "period") -> "str | None":
        found = scope.systems(self.qualifier)
        if len(found) != 1:
            scope.fault(E21)
            return None
        self.at, self.ends = found[0]
        scope.use(self.at, *self.ends)
        return MOMENT

    def span(self, place: Place) -> tuple:
        return tuple(place.rows[self.at][it] for it in self.ends)


class Made:
    """PERIOD (a, b)."""

    def __init__(self, start, end) -> None:
        self.start, self.end, self.text = start, end, f"PERIOD ({start.text}, {end.text})"

    def bind(self, scope: Scope, _takes: str = "period") -> "str | None":
        start, end = self.start.bind(scope), self.end.bind(scope)
        scope.want(start, DAY, MOMENT)
        scope.want(end, DAY, MOMENT)
        scope.want(start, end)
        return start if start in (DAY, MOMENT) else end if end in (DAY, MOMENT) else None

    def span(self, place: Place) -> tuple:
        return (self.start.on(place), self.end.on(place))


class Inside:
    """An expression in parentheses."""

    def __init__(self, what) -> None:
        self.what, self.text = what, f"({what.text})"

    def bind(self, scope: Scope) -> "str | None":
        return self.what.bind(scope)

    def on(self, place: Place):
        return self.what.on(place)


class Signed:
    """A sign before what is no number as written."""

    def __init__(self, sign: str, what) -> None:
        self.sign, self.what, self.text = sign, what, f"{sign} {what.text}"

    def bind(self, scope: Scope) -> str:
        scope.want(self.what.bind(scope), NUMBER)
        return NUMBER

    def on(self, place: Place) -> "int | None":
        value = self.what.on(place)
        return value if value is None or self.sign == "+" else number(-value)


class Chain:
    """Operands with signs between them, from the left: `*` alone, or `+` and `-`."""

    def __init__(self, begin, rest: list) -> None:
        self.begin, self.rest = begin, rest
        self.text = begin.text + "".join(f" {sign} {it.text}" for sign, it in rest)

    def bind(self, scope: Scope) -> str:
        for it in [self.begin, *(it for _, it in self.rest)]:
            scope.want(it.bind(scope), NUMBER)
        return NUMBER

    def on(self, place: Place) -> "int | None":
        value = self.begin.on(place)
        for sign, it in self.rest:
            other = it.on(place)
            if value is None or other is None:
                value = None
            else:
                value = number(value * other if sign == "*" else value + other if sign == "+" else value - other)
        return value


class Aggregate:
    """COUNT, SUM, MIN or MAX of an expression, or COUNT (*)."""

    def __init__(self, verb: str, what) -> None:
        self.verb, self.what, self.text = verb, what, f"{verb}({what.text if what else '*'})"

    def bind(self, scope: Scope) -> "str | None":
        if scope.is_inside or not scope.takes_aggregates:
            scope.fault(E23)
        scope.has_aggregate, was_inside, scope.is_inside = True, scope.is_inside, True
        sort = self.what.bind(scope) if self.what else None
        scope.is_inside = was_inside
        if self.verb == "SUM":
            scope.want(sort, NUMBER)
        return sort if self.verb in ("MIN", "MAX") else NUMBER

    def on(self, place: Place):
        if not self.what:
            return len(place.members)
        values = [it for it in (self.what.on(Place(rows)) for rows in place.members) if it is not None]
        if self.verb == "COUNT":
            return len(values)
        if not values:
            return None
        return number(sum(values)) if self.verb == "SUM" else min(values) if self.verb == "MIN" else max(values)


# ---- conditions

def compared(sign: str, left, right) -> "bool | None":
    if left is None or right is None:
        return None
    return {"=": left == right, "<>": left != right, "<": left < right, "<=": left <= right, ">": left > right, ">=": left >= right}[sign]


class Compare:
    def __init__(self, left, sign: str, right) -> None:
        self.left, self.sign, self.right, self.text = left, sign, right, f"{left.text} {sign} {right.text}"

    def bind(self, scope: Scope) -> None:
        scope.want(self.left.bind(scope), self.right.bind(scope))

    def on(self, place: Place) -> "bool | None":
        return compared(self.sign, self.left.on(place), self.right.on(place))


class IsNull:
    def __init__(self, what, is_negated: bool) -> None:
        self.what, self.is_negated, self.text = what, is_negated, f"{what.text} IS {'NOT ' if is_negated else ''}NULL"

    def bind(self, scope: Scope) -> None:
        self.what.bind(scope)

    def on(self, place: Place) -> bool:
        return (self.what.on(place) is None) != self.is_negated


class Between:
    def __init__(self, what, low, high, is_negated: bool) -> None:
        self.what, self.low, self.high, self.is_negated = what, low, high, is_negated
        self.text = f"{what.text} {'NOT ' if is_negated else ''}BETWEEN {low.text} AND {high.text}"

    def bind(self, scope: Scope) -> None:
        sort = self.what.bind(scope)
        scope.want(self.low.bind(scope), sort)
        scope.want(self.high.bind(scope), sort)

    def on(self, place: Place) -> "bool | None":
        value, low, high = self.what.on(place), self.low.on(place), self.high.on(place)
        truth = both(compared(">=", value, low), compared("<=", value, high))
        return negated(truth) if self.is_negated else truth


class Among:
    """IN."""

    def __init__(self, what, listed: list, is_negated: bool) -> None:
        self.what, self.listed, self.is_negated = what, listed, is_negated
        self.text = f"{what.text} {'NOT ' if is_negated else ''}IN ({', '.join(it.text for it in listed)})"

    def bind(self, scope: Scope) -> None:
        sort = self.what.bind(scope)
        for it in self.listed:
            scope.want(it.bind(scope), sort)

    def on(self, place: Place) -> "bool | None":
        value, truth = self.what.on(place), False
        for it in [it.on(place) for it in self.listed]:
            truth = either(truth, compared("=", value, it))
        return negated(truth) if self.is_negated else truth


class Relation:
    """A predicate of two periods: comparisons of their ends."""

    def __init__(self, left, word: str, right) -> None:
        self.left, self.word, self.right, self.text = left, word, right, f"{left.text} {word} {right.text}"

    def bind(self, scope: Scope) -> None:
        scope.want(self.left.bind(scope, "period"), self.right.bind(scope, "period"))

    def on(self, place: Place) -> "bool | None":
        (start, end), (low, high) = self.left.span(place), self.right.span(place)
        return {
            "OVERLAPS": both(compared("<", start, high), compared("<", low, end)),
            "EQUALS": both(compared("=", start, low), compared("=", end, high)),
            "PRECEDES": compared("<=", end, low),
            "SUCCEEDS": compared(">=", start, high),
            "IMMEDIATELY PRECEDES": compared("=", end, low),
            "IMMEDIATELY SUCCEEDS": compared("=", start, high),
        }[self.word]


class Contains:
    """CONTAINS: a period, or a point; a name alone may be either."""

    def __init__(self, left, right) -> None:
        self.left, self.right, self.text = left, right, f"{left.text} CONTAINS {right.text}"

    def bind(self, scope: Scope) -> None:
        left = self.left.bind(scope, "period")
        right = self.right.bind(scope, "either") if isinstance(self.right, Name) else self.right.bind(scope)
        scope.want(right, left)

    def on(self, place: Place) -> "bool | None":
        start, end = self.left.span(place)
        if isinstance(self.right, (Made, SystemTime)) or isinstance(self.right, Name) and self.right.ends:
            low, high = self.right.span(place)
            return both(compared("<=", start, low), compared("<=", high, end))
        point = self.right.on(place)
        return both(compared("<=", start, point), compared("<", point, end))


class Not:
    def __init__(self, what) -> None:
        self.what, self.text = what, f"NOT {what.text}"

    def bind(self, scope: Scope) -> None:
        self.what.bind(scope)

    def on(self, place: Place) -> "bool | None":
        return negated(self.what.on(place))


class All:
    """AND, of two members or more."""

    def __init__(self, members: list) -> None:
        self.members, self.text = members, " AND ".join(it.text for it in members)

    def bind(self, scope: Scope) -> None:
        for it in self.members:
            it.bind(scope)

    def on(self, place: Place) -> "bool | None":
        truth = True
        for it in [it.on(place) for it in self.members]:
            truth = both(truth, it)
        return truth


class Any:
    """OR, of two members or more."""

    def __init__(self, members: list) -> None:
        self.members, self.text = members, " OR ".join(it.text for it in members)

    def bind(self, scope: Scope) -> None:
        for it in self.members:
            it.bind(scope)

    def on(self, place: Place) -> "bool | None":
        truth = False
        for it in [it.on(place) for it in self.members]:
            truth = either(truth, it)
        return truth


def is_kept(condition, place: Place) -> bool:
    """Whether a WHERE, an ON or a HAVING keeps a place: its members from the left, each where all before it were TRUE."""
    if condition is None:
        return True
    members = condition.members if isinstance(condition, All) else [condition]
    return all(it.on(place) is True for it in members)
