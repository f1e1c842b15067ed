"""Filters in CQL2 text (OGC 21-065r2): Basic CQL2, and the Advanced Comparison Operators.

A grammar reads them. What comes of it are nested tuples, which are translated to conditions of SQL.
Names there are those of columns, in quotes, and each value is bound: no text of a user is SQL."""
from __future__ import annotations

import re
from collections.abc import Callable, Mapping, Sequence
from datetime import datetime, timedelta
from decimal import ROUND_FLOOR, Decimal, InvalidOperation
from functools import lru_cache
from math import copysign, inf
from typing import TYPE_CHECKING, NamedTuple, Union

from ..engine import RequestError
from ..engine import quoted as in_quotes
from ..engine import shown
from ..indexes.geopackage import Attribute, quoted, readable
from .columns import FORMATS

if TYPE_CHECKING:
    from ..foreign import Package

LONGEST = 10_000  # characters
DEEPEST = 20  # AND in OR in AND, and so on: the parser of SQLite has a small stack
MOST = 800  # comparisons and values: SQLite takes at most 999 of each
AROUND = 20  # characters of a filter that a fault shows
# the signs of names
FIRST = (
    r":_A-Za-z\u00c0-\u00d6\u00d8-\u00f6\u00f8-\u02ff\u0370-\u037d\u037f-\u1fff\u200c\u200d"
    r"\u2070-\u218f\u2c00-\u2fef\u3001-\ud7ff\uf900-\ufdcf\ufdf0-\ufffd\U00010000-\U000effff"
)
REST = rf"{FIRST}.0-9\u0300-\u036f\u203f\u2040"
WORDS = ("AND", "OR", "NOT", "LIKE", "BETWEEN", "IN", "IS", "NULL")
GRAMMAR = rf"""
?start: either
either: both (_OR both)*
both: factor (_AND factor)*
?factor: _NOT factor -> negation | primary
?primary: "(" either ")" | comparison | BOOLEAN -> constant
?comparison: name OPERATOR literal | literal OPERATOR name -> turned
    | name _LIKE STRING -> like | name _NOT _LIKE STRING -> unlike
    | name _BETWEEN number _AND number -> between
    | name _NOT _BETWEEN number _AND number -> outside
    | name _IN "(" literal ("," literal)* ")" -> among
    | name _NOT _IN "(" literal ("," literal)* ")" -> not_among
    | name _IS _NULL -> null | name _IS _NOT _NULL -> not_null
name: NAME | QUOTED
?literal: STRING -> text | number | BOOLEAN -> flag | instant
number: NUMBER
instant: KIND "(" STRING ")"
OPERATOR: "<>" | "<=" | ">=" | "=" | "<" | ">"
STRING: /'(?:[^'\\]|''|\\['\\]|\\(?!['\\]))*'/
QUOTED: /"(?:[^"]|"")+"/
NUMBER: /[-+]?(?:[0-9]+(?:\.[0-9]*)?|\.[0-9]+)(?:[eE][-+]?[0-9]+)?/
KIND.3: /(?:DATE|TIMESTAMP)(?=\s*\()/i
BOOLEAN.2: /(?:TRUE|FALSE)(?![{REST}])/i
NAME: /[{FIRST}][{REST}]*/
SPACE: /\s+/
%ignore SPACE
""" + "\n".join(
    rf"_{word}.2: /{word}(?![{REST}])/i" for word in WORDS
)


class Instant(NamedTuple):
    """A date, or a date and a time with its zone. The kind is that of `FORMATS`."""

    kind: str
    text: str


Literal = Union[str, Decimal, bool, Instant]


class Constant(NamedTuple):
    """True or false."""

    value: bool


class Comparison(NamedTuple):
    """A comparison of a column with a value, by an operator of SQL."""

    name: str
    operator: str
    value: Literal


class Like(NamedTuple):
    """Whether the texts of a column are like a pattern."""

    name: str
    pattern: str


class Between(NamedTuple):
    """Whether the numbers of a column lie between two, or are one of them."""

    name: str
    low: Decimal
    high: Decimal


class Among(NamedTuple):
    """Whether the values of a column are among some."""

    name: str
    values: tuple[Literal, ...]


class Null(NamedTuple):
    """Whether a column has no value."""

    name: str


class Not(NamedTuple):
    """What is true if another one is false."""

    inner: Filter


class Joined(NamedTuple):
    """Several, with `AND` or `OR` between them."""

    word: str
    inner: tuple[Filter, ...]


Filter = Union[Constant, Comparison, Like, Between, Among, Null, Not, Joined]
Parts = list["Package"]  # what lark made of the parts of a rule, as the grammar has them
QUOTE = re.compile(r"(\\\\)|\\'|''")  # in a text
TURNED = {"<": ">", ">": "<", "<=": ">=", ">=": "<="}


def _number(spelled: str) -> Decimal:
    """Returns a number. If no decimal has its exponent, one that is as great or as small for all
    columns."""
    try:
        return Decimal(spelled)
    except InvalidOperation:
        digits, _, power = spelled.lower().partition("e")
        sign = "-" if digits.startswith("-") else ""
        if not digits.strip("+-.0"):
            return Decimal(0)
        return Decimal(f"{sign}{'1e-9999' if power.startswith('-') else 'Infinity'}")


def _joined(word: str, parts: Sequence[Filter]) -> Filter:
    """Joins filters, of which some may be joined by this word already."""
    if len(parts) == 1:
        return parts[0]
    inner = (
        each.inner if isinstance(each, Joined) and each.word == word else (each,) for each in parts
    )
    return Joined(word, tuple(each for part in inner for each in part))


def _negated(rule: str) -> Callable[[_Tree, Parts], Not]:
    """Returns a method of `_Tree` for the opposite of a rule."""
    return lambda tree, parts: Not(getattr(tree, rule)(parts))


class _Tree:
    """Makes a filter of what the grammar finds. The methods have the names of the rules, and take
    what was made of the parts."""

    def either(self, parts: list[Filter]) -> Filter:
        return _joined("OR", parts)

    def both(self, parts: list[Filter]) -> Filter:
        return _joined("AND", parts)

    def negation(self, parts: list[Filter]) -> Not:
        return Not(parts[0])

    def constant(self, parts: list[str]) -> Constant:
        return Constant(self.flag(parts))

    def comparison(self, parts: Parts) -> Comparison:
        return Comparison(parts[0], str(parts[1]), parts[2])

    def turned(self, parts: Parts) -> Comparison:
        return Comparison(parts[2], TURNED.get(str(parts[1]), str(parts[1])), parts[0])

    def like(self, parts: list[str]) -> Like:
        return Like(parts[0], self.text(parts[1:]))

    def between(self, parts: Parts) -> Between:
        return Between(*parts)

    def among(self, parts: Parts) -> Among:
        return Among(parts[0], tuple(parts[1:]))

    def null(self, parts: list[str]) -> Null:
        return Null(parts[0])

    unlike, outside, not_among, not_null = map(_negated, ("like", "between", "among", "null"))

    def name(self, parts: list[str]) -> str:
        text = str(parts[0])
        return text[1:-1].replace('""', '"') if text.startswith('"') else text

    def text(self, parts: list[str]) -> str:
        return QUOTE.sub(lambda found: found[1] or "'", str(parts[0])[1:-1])

    def number(self, parts: list[str]) -> Decimal:
        return _number(str(parts[0]))

    def flag(self, parts: list[str]) -> bool:
        return str(parts[0]).upper() == "TRUE"

    def instant(self, parts: list[str]) -> Instant:
        kind = "date" if str(parts[0]).upper() == "DATE" else "date-time"
        text = self.text(parts[1:])
        if FORMATS[kind].fullmatch(text) is None:
            raise RequestError(
                f"the filter has a {kind} that is none as of RFC 3339: {shown(text)}"
            )
        return Instant(kind, text)


@lru_cache(maxsize=1)
def _parser() -> Package:
    """Returns the parser.

    Raises:
        RequestError: The package is missing that it needs.
    """
    try:
        from lark import Lark
    except ImportError as fault:
        raise RequestError(
            "a filter needs lark for Python: install python3-lark, or cityseq with the extra where"
        ) from fault
    return Lark(GRAMMAR, parser="lalr", transformer=_Tree())


def parsed(text: str) -> Filter:
    """Returns the filter of a text.

    Raises:
        RequestError: It is too long, or is no filter. The words show where.
    """
    if len(text) > LONGEST:
        raise RequestError(f"a filter has at most {LONGEST:,} characters, and not {len(text):,}")
    parser = _parser()
    from lark.exceptions import UnexpectedInput

    try:
        found: Filter = parser.parse(text)
        return found
    except UnexpectedInput as fault:
        at = fault.pos_in_stream
        if at is None or at >= len(text) or _is_end(fault):
            words = "the filter ends too early"
        else:
            rest = text[at : at + AROUND] + (".." if len(text) > at + AROUND else "")
            words = f"the filter is no CQL2 text from character {at + 1} on: {shown(rest)}"
        raise RequestError(words) from None


def _is_end(fault: object) -> bool:
    return getattr(getattr(fault, "token", None), "type", "") == "$END"


NAMED = 20  # columns that a fault names
WINDOW = 1 << 16  # characters of a text between two looks at the clock
BITS = 1 << 63
LIKE, INSTANT = "cityseq_like", "cityseq_instant"  # functions of SQL
WILD = re.compile(r"\\([%_\\])|(%)|(_)|(.)", re.DOTALL)
BELOW = {"<": "<=", "<=": "<=", ">": ">", ">=": ">"}  # than a value: the same of the number below
ABOVE = {"<": "<", "<=": "<", ">": ">=", ">=": ">="}
OTHER = {"AND": "OR", "OR": "AND"}
OPPOSITE = {"=": "<>", "<>": "=", "<": ">=", ">=": "<", ">": "<=", "<=": ">"}
Number = Union[int, float]
Value = Union[Number, str, None]


class Condition(NamedTuple):
    """A condition of SQL, and the values in it."""

    sql: str
    values: tuple[Value, ...]


# ---- numbers


def _near(number: Decimal, is_whole: bool) -> Number:
    """Returns a number as SQLite has it in a column of its type: the same, or the nearest one. If
    the column has whole numbers, that is the one below."""
    if number.is_finite() and number.adjusted() < 20:
        below = int(number.to_integral_value(ROUND_FLOOR))
        if (is_whole or below == number) and -BITS <= below < BITS:
            return below
    return copysign(inf, number) if is_whole else float(number)


def bound(number: Decimal, is_whole: bool, operator: str) -> tuple[str, Number]:
    """Returns the operator and the number for a comparison that is exact. A fraction is compared as
    a float, because the numbers of a column are floats too."""
    near = _near(number, is_whole)
    is_fraction = not is_whole and number != number.to_integral_value()
    if near == number or is_fraction and 0 < abs(near) < inf:
        return operator, near
    if operator in ("=", "<>"):
        return operator, inf  # no column has it
    return (BELOW if near < number else ABOVE)[operator], near


# ---- texts


class Pattern:
    """A pattern of LIKE, as pieces with any text between them."""

    def __init__(self, pattern: str) -> None:
        pieces: list[list[str]] = [[]]
        for escaped, anything, one, other in WILD.findall(pattern):
            if anything:
                pieces.append([])
            else:
                pieces[-1].append("." if one else re.escape(escaped or other))
        self._pieces = [re.compile("".join(piece), re.DOTALL) for piece in pieces]
        self._lengths = [len(piece) for piece in pieces]

    def matches(self, text: str, look: Callable[[], object]) -> bool:
        """Returns whether a text is like the pattern. It calls `look` from time to time, which may
        raise an exception."""
        first, *others = self._pieces
        if not others:
            return first.fullmatch(text) is not None
        last, end = others.pop(), len(text) - self._lengths[-1]
        at = self._lengths[0]
        if first.match(text) is None or end < at or last.fullmatch(text, end) is None:
            return False
        for piece, length in zip(others, self._lengths[1:]):
            at = self._found(piece, length, text, (at, end), look)
            if at < 0:
                return False
        return True

    @staticmethod
    def _found(
        piece: re.Pattern[str],
        length: int,
        text: str,
        within: tuple[int, int],
        look: Callable[[], object],
    ) -> int:
        """Returns where a piece ends that lies between two places of a text, or -1."""
        (at, end), step = within, WINDOW // (length + 1) + 1
        for begin in range(at, end - length + 1, step):
            look()
            found = piece.search(text, begin, min(begin + step + length - 1, end))
            if found is not None:
                return found.end()
        return -1


def is_like(pattern: object, text: object, look: Callable[[], object]) -> bool | None:
    """Returns whether a text is like a pattern. None for other values."""
    if not isinstance(text, str) or not isinstance(pattern, str):
        return None
    return _pattern_of(pattern).matches(text, look)


_pattern_of = lru_cache(maxsize=256)(Pattern)


def instant(text: object) -> str | None:
    """Returns a date and a time in UTC, so that texts have the order of the times. None for other
    values."""
    if not isinstance(text, str) or FORMATS["date-time"].fullmatch(text) is None:
        return None
    told, zone = (text[:-1], "") if text[-1] in "Zz" else (text[:-6], text[-6:])
    whole, _, part = told.upper().partition(".")
    if zone:
        hours, minutes = int(zone[1:3]), int(zone[4:])
        shift = timedelta(hours=hours, minutes=minutes) * (-1 if zone[0] == "-" else 1)
        try:
            whole = (datetime.fromisoformat(whole) - shift).isoformat()
        except (OverflowError, ValueError):  # no such day, or before the year 1
            return None
    return f"{whole}.{part.rstrip('0')}"


# ---- filters


class Translation:
    """Translates a filter for the columns of an index."""

    def __init__(
        self,
        columns: Mapping[str, Attribute],
        in_the_way: Callable[[Attribute, str | None], str | None],
    ) -> None:
        """Takes the columns by their names, and what returns words on the first feature whose value
        is the reason that a column has its type, or that is not of a format. None if there is none.
        """
        self._columns, self._in_the_way = columns, in_the_way
        self._values: list[Value] = []
        self._left = MOST  # comparisons and values

    def condition(self, filter: Filter) -> Condition:
        """Returns the condition.

        Raises:
            RequestError: A column is not known, a value is of another type than its column, or the
                filter is too deep or has too many values.
        """
        sql = self._sql(filter, True, 0)
        return Condition(sql, tuple(self._values))

    def _sql(self, filter: Filter, is_so: bool, depth: int) -> str:
        """Returns the condition that a filter is true, or that it is false, at a depth."""
        while isinstance(filter, Not):
            filter, is_so = filter.inner, not is_so
        if isinstance(filter, Joined):
            if depth == DEEPEST:
                raise RequestError(f"a filter has at most {DEEPEST} times AND in OR in AND")
            word = filter.word if is_so else OTHER[filter.word]
            parts = [self._sql(each, is_so, depth + 1) for each in filter.inner]
            return f"({f' {word} '.join(parts)})"
        self._count(1)
        match filter:
            case Constant(is_true):
                return "1" if is_true is is_so else "0"
            case Null(name):
                return f"{_sql_name(self._column(name))} {'IS' if is_so else 'NOT'} NULL"
            case Like(name, pattern):
                return self._like(self._column(name), pattern, is_so)
            case Among(name, values):
                return self._among(self._column(name), values, is_so)
            case Between(name, low, high):
                edges = Comparison(name, ">=", low), Comparison(name, "<=", high)
                parts = [self._sql(edge, is_so, depth) for edge in edges]
                return f"({(' AND ' if is_so else ' OR ').join(parts)})"
        name, operator, value = filter
        operator = operator if is_so else OPPOSITE[operator]
        return self._compared(self._column(name), operator, value)

    def _count(self, more: int) -> None:
        self._left -= more
        if self._left < 0:
            raise RequestError(f"a filter has at most {MOST} comparisons and values")

    def _column(self, name: str) -> Attribute:
        if name in self._columns:
            return self._columns[name]
        if not self._columns:
            raise RequestError("the index has no attributes: build it again with --attributes")
        named = [each.column for each in self._columns.values() if each.name == name]
        same = [each for each in self._columns if each.casefold() == name.casefold()]
        known = ", ".join(map(in_quotes, (named or same or list(self._columns))[:NAMED]))
        raise RequestError(f"there is no attribute {in_quotes(name)} in the index: it has {known}")

    def _check(self, column: Attribute, value: Literal) -> None:
        """Checks that a value can be compared with a column."""
        is_text, wanted = column.type == "TEXT", value.kind if isinstance(value, Instant) else None
        fits = isinstance(value, (str, Instant)) == is_text
        if column.first is None or fits and wanted in (None, column.format):
            return
        found = self._in_the_way(column, wanted if fits else None)
        if found is not None:
            kind, of = _told(value), "texts" if is_text else "numbers"
            words = f"the attribute {in_quotes(column.column)} has {of}, and {kind}"
            raise RequestError(f"{words}: {found}")

    def _compared(self, column: Attribute, operator: str, value: Literal) -> str:
        self._check(column, value)
        name = _sql_name(column)
        if isinstance(value, Decimal):
            operator, number = bound(value, column.type == "INTEGER", operator)
            self._values.append(number)
        elif isinstance(value, Instant):
            is_time = value.kind == "date-time"
            name = f"{INSTANT}({name})" if is_time else name
            self._values.append(instant(value.text) if is_time else value.text)
        else:
            self._values.append(readable(value) if isinstance(value, str) else int(value))
        return f"{name} {operator} ?"

    def _among(self, column: Attribute, values: Sequence[Literal], is_so: bool) -> str:
        self._count(len(values) - 1)
        parts = [self._compared(column, "=", value) for value in values]
        names = {part.removesuffix(" = ?") for part in parts}
        if len(names) > 1:  # only a column without values is compared with all kinds
            del self._values[-len(parts) :]
            return f"{_sql_name(column)} = NULL"
        return f"{names.pop()} {'' if is_so else 'NOT '}IN ({','.join('?' * len(parts))})"

    def _like(self, column: Attribute, pattern: str, is_so: bool) -> str:
        self._check(column, pattern)
        self._values.append(readable(pattern))
        return f"{'' if is_so else 'NOT '}{LIKE}(?, {_sql_name(column)})"


def _sql_name(column: Attribute) -> str:
    # a name with its table is never a text for SQLite, which other names in quotes may be
    return f"features.{quoted(column.column)}"


def _told(value: Literal) -> str:
    """Returns a value with its kind, for a fault."""
    match value:
        case bool():
            return f"{str(value).upper()} is a boolean"
        case Decimal():
            return f"{shown(str(value)[:NAMED])} is a number"
        case Instant(kind, text):
            return f"{shown(text)} is a {kind}"
    return f"{in_quotes(str(value))} is a text"
