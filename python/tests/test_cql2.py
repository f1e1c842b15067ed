"""Filters of attributes in CQL2 text: the language, and what comes of it over an index."""
import itertools
import json
import random
import sys
import time
import unittest
from contextlib import closing
from decimal import Decimal
from fractions import Fraction
from importlib.util import find_spec
from unittest import mock

import cityseq
from cityseq import RequestError
from cityseq.attributes import cql2
from cityseq.attributes.cql2 import Pattern, bound, instant
from cityseq.indexes import database

from .support import HEADER, InFolder, command
from .test_attributes import line

MISSING = None if find_spec("lark") else "lark is not there"
TEXTS = (
    "",
    "a",
    "in use",
    "it's",
    "100%",
    "a_b",
    "a%b",
    "aab",
    "ab",
    "ä築🏠",
    "\\",
    "a\\b",
    "A",
    "a\nb",
    'x"y',
)
WHOLES = (0, 1, -1, 7, 1990, 2020, 2**53 + 1, 2**63 - 1, -(2**63))
FLOATS = ("0.0", "0.1", "-2.5", "7.0", "1e300", "5e-324", "1990.5", "18446744073709551616.0")
DAYS = ("2020-01-01", "1999-12-31", "2020-02-29")
TIMES = (
    "2020-01-01T00:00:00Z",
    "2020-01-01T01:00:00+02:00",
    "2019-12-31T23:00:00.50Z",
    "2020-01-01T00:00:00.5Z",
)
LITERALS = (
    "0",
    "1",
    "-1",
    "7",
    "1990",
    "7.0",
    "0.1",
    ".5",
    "5.",
    "1990.5",
    "-2.5",
    "9007199254740993",
    "9007199254740992.5",
)
LITERALS += (
    "9223372036854775807",
    "9223372036854775808",
    "-9223372036854775809",
    "1e300",
    "1E+300",
    "1e400",
    "-1e400",
)
LITERALS += (
    "1e-400",
    "-1e-400",
    "18446744073709551616",
    "18446744073709551617",
    "1e99999999999999999999",
    "+7",
    "007",
)
PATTERNS = (
    "%",
    "a%",
    "%a%",
    "_",
    "__",
    "a_b",
    "a\\_b",
    "%\\%",
    "a\\\\b",
    "\\\\",
    "%b",
    "a%b",
    "%''%",
    "in%use",
    "ä%",
    "A%",
    "",
    "%_%_%",
)
OPERATORS = ("=", "<>", "<", ">", "<=", ">=")


def by_chance(chance):
    """The attributes of a feature: for each the value and how it is spelled. One may lack."""
    found = {}
    for name, choices in (
        ("whole", WHOLES),
        ("float", FLOATS),
        ("text", TEXTS),
        ("flag", (True, False)),
        ("day", DAYS),
        ("time", TIMES),
    ):
        turn = chance.randrange(6)
        if turn == 0:
            continue
        value = None if turn == 1 else chance.choice(choices)
        found[name] = value if name != "float" or value is None else float(value)
    return found


# ---- a plain evaluation. A result is True, False, or None for what is not known


def negated(value):
    return None if value is None else not value


def both(values):
    return False if False in values else None if None in values else True


def either(values):
    return True if True in values else None if None in values else False


def moment(text):
    """A time as a number of seconds since a day long ago."""
    from datetime import datetime, timedelta

    whole, zone = (text[:-1], "+00:00") if text[-1] in "Zz" else (text[:-6], text[-6:])
    whole, _, part = whole.partition(".")
    seconds = (datetime.fromisoformat(whole) - datetime(1, 1, 1)) // timedelta(seconds=1)
    shift = (int(zone[1:3]) * 60 + int(zone[4:])) * 60 * (-1 if zone[0] == "-" else 1)
    return seconds - shift + (Fraction(int(part), 10 ** len(part)) if part else 0)


def exact(text):
    """The value of a number, which may be greater than all others."""
    mantissa, _, power = text.lower().partition("e")
    if power and abs(int(power)) > 1_000:
        sign = -1 if mantissa.startswith("-") else 1
        return sign * (Fraction(10) ** 2_000 if int(power) > 0 else Fraction(1, 10**2_000))
    return Fraction(Decimal(text))


def compared(name, value, operator, literal):
    if value is None:
        return None
    if name == "time":
        value, literal = moment(value), moment(literal)
    elif name in ("whole", "float"):
        spelled, literal = literal, exact(literal)
        is_fraction = literal.denominator != 1
        if name == "float" and is_fraction and 0 < abs(float(spelled)) < float("inf"):
            literal = Fraction(float(spelled))  # both are the nearest float
        value = Fraction(value)
    return {
        "=": value == literal,
        "<>": value != literal,
        "<": value < literal,
        ">": value > literal,
        "<=": value <= literal,
        ">=": value >= literal,
    }[operator]


def is_like(text, pattern):
    """Whether a text is like a pattern, by a table of which beginnings are alike."""
    signs, at = [], 0
    while at < len(pattern):
        if pattern[at] == "\\" and pattern[at + 1 : at + 2] in ("%", "_", "\\"):
            signs.append(("is", pattern[at + 1]))
            at += 2
            continue
        signs.append(({"%": "any", "_": "one"}.get(pattern[at], "is"), pattern[at]))
        at += 1
    alike = [True] + [False] * len(text)
    for kind, sign in signs:
        if kind == "any":
            alike = list(itertools.accumulate(alike, lambda a, b: a or b))
        else:
            alike = [False] + [
                alike[n] and (kind == "one" or text[n] == sign) for n in range(len(text))
            ]
    return alike[-1]


def quoted(text):
    return "'" + text.replace("'", "''") + "'"


class Made:
    """A filter by chance: its text, and whether a feature fits it."""

    def __init__(self, chance):
        self.chance = chance

    def word(self, word):
        return "".join(self.chance.choice((sign.upper(), sign.lower())) for sign in word)

    def name(self, name):
        return self.chance.choice((name, f'"{name}"'))

    def literal(self, name):
        """A value for a column: as text, and for `compared`."""
        if name in ("whole", "float"):
            text = self.chance.choice(LITERALS)
            return text, text
        if name == "flag":
            value = self.chance.choice((True, False))
            return self.word(str(value)), value
        if name == "text":
            value = self.chance.choice(TEXTS)
            return quoted(value) if value != "\\" else "'\\\\'", value if value != "\\" else "\\\\"
        value = self.chance.choice(DAYS if name == "day" else TIMES)
        return f"{self.word('DATE' if name == 'day' else 'TIMESTAMP')}('{value}')", value

    def made(self, deep):
        turn = self.chance.randrange(8 if deep else 6)
        if turn < 6:
            return self.simple(turn)
        if turn == 6:
            text, fits = self.made(deep - 1)
            return f"{self.word('NOT')} ({text})", lambda row: negated(fits(row))
        parts = [self.made(deep - 1) for _ in range(self.chance.randrange(2, 5))]
        word, join = self.chance.choice((("AND", both), ("OR", either)))
        text = f" {self.word(word)} ".join(f"({text})" for text, _ in parts)
        return text, lambda row: join([fits(row) for _, fits in parts])

    def simple(self, turn):
        name = self.chance.choice(("whole", "float", "text", "flag", "day", "time"))
        column, no = self.name(name), self.chance.randrange(2)
        not_word = self.word("NOT") + " " if no else ""

        def result(value):
            return negated(value) if no else value

        if turn == 0:
            text = f"{column} {self.word('IS')} {not_word}{self.word('NULL')}"
            return text, lambda row: result(row.get(name) is None)
        if turn == 1:
            pattern = self.chance.choice(PATTERNS)
            text = f"{self.name('text')} {not_word}{self.word('LIKE')} '{pattern}'"
            pattern = pattern.replace("''", "'")
            return text, lambda row: result(
                None if row.get("text") is None else is_like(row["text"], pattern)
            )
        if turn == 2:
            name = self.chance.choice(("whole", "float"))
            low, high = self.chance.choice(LITERALS), self.chance.choice(LITERALS)
            text = f"{name} {not_word}{self.word('BETWEEN')} {low} {self.word('AND')} {high}"
            return text, lambda row: result(
                both([compared(name, row.get(name), *each) for each in ((">=", low), ("<=", high))])
            )
        if turn == 3:
            values = [self.literal(name) for _ in range(self.chance.randrange(1, 5))]
            text = f"{column} {not_word}{self.word('IN')} ({', '.join(each for each, _ in values)})"
            return text, lambda row: result(
                either([compared(name, row.get(name), "=", value) for _, value in values])
            )
        if turn == 4 and self.chance.randrange(4) == 0:
            value = self.chance.choice((True, False))
            return self.word(str(value)), lambda row: value
        operator, (text, value) = self.chance.choice(OPERATORS), self.literal(name)
        if self.chance.randrange(4) == 0:
            turned = operator.translate(str.maketrans("<>", "><")) if operator != "<>" else "<>"
            whole = f"{text}{turned}{column}"
        else:
            whole = f"{column}{operator}{text}" if turn == 5 else f"{column} {operator} {text}"
        return whole, lambda row: compared(name, row.get(name), operator, value)


@unittest.skipIf(MISSING, MISSING)
class Language(unittest.TestCase):
    """What the grammar takes."""

    def test_what_is_no_filter(self):
        for text in (
            "",
            " ",
            "a",
            "a =",
            "= 1",
            "a = b",
            "1 = 1",
            "a == 1",
            "a != 1",
            "a = 'x",
            'a = "x"',
            "(a = 1",
            "a = 1)",
            "a = 1 b = 2",
            "a = 1;",
            "a = 1 --",
            "a = 1 /* x */",
            "a = 1; DROP TABLE features",
            "a LIKE b",
            "a LIKE 1",
            "a IN ()",
            "a IN 1",
            "a IN (1,)",
            "a BETWEEN 1",
            "a BETWEEN 'a' AND 'b'",
            "a IS 1",
            "a IS NOT",
            "NOT",
            "a = NULL",
            "a = DATE(2020)",
            "a = DATE('2020-1-1')",
            "a = DATE('2020-02-01T00:00:00Z')",
            "a = TIMESTAMP('2020-01-01')",
            "a = TIMESTAMP('2020-01-01T25:00:00Z')",
            "a = 0x10",
            "a = 1e",
            "a = 'it's'",
            "a + 1 = 2",
            "f(a) = 1",
            "CASEI(a) = 'x'",
            '"" = 1',
            "1a = 1",
            "a = ?",
            "a = :b OR",
            "a AND b",
            "TRUE AND",
            "a = 'x\\'",
        ):
            with self.assertRaises(RequestError, msg=text):
                cql2.parsed(text)

    def test_what_is_one(self):
        for text, wanted in (
            ("a=1", cql2.Comparison("a", "=", Decimal(1))),
            ("1 < a", cql2.Comparison("a", ">", Decimal(1))),
            ("a\t<>\n'it''s'", cql2.Comparison("a", "<>", "it's")),
            ("a = 'it\\'s'", cql2.Comparison("a", "=", "it's")),
            ("a = 'c:\\dir'", cql2.Comparison("a", "=", "c:\\dir")),
            ('"a ""b"" OR" = 1', cql2.Comparison('a "b" OR', "=", Decimal(1))),
            ("date = 1", cql2.Comparison("date", "=", Decimal(1))),
            ("like LIKE 'x'", cql2.Like("like", "x")),
            ("android = TRUE", cql2.Comparison("android", "=", True)),
            ("truest = false", cql2.Comparison("truest", "=", False)),
            ("notes IS NULL", cql2.Null("notes")),
            ("b3.h=-1", cql2.Comparison("b3.h", "=", Decimal(-1))),
            ("築:é_1 = 1", cql2.Comparison("築:é_1", "=", Decimal(1))),
            ("NOT TRUE", cql2.Not(cql2.Constant(True))),
            ("((a=1))", cql2.Comparison("a", "=", Decimal(1))),
        ):
            self.assertEqual(cql2.parsed(text), wanted, text)
        first, second = cql2.parsed("a=1 OR b=1 AND c=1"), cql2.parsed("a=1 OR (b=1 AND c=1)")
        self.assertEqual((first, first.word), (second, "OR"))

    def test_faults_say_where(self):
        for text, words in (
            ("year > ", "ends too early"),
            ("year > 5 5", "from character 10 on: 5"),
            (
                "a = 1 AND b == 2 and more text than is shown here",
                "from character 14 on: = 2 and more text th..",
            ),
            ("a = \u202e", "\\u202e"),
            ("a=1 OR " * 2_000, "10,000 characters"),
            ("a = DATE('2020-99-01')", "RFC 3339: 2020-99-01"),
        ):
            with self.assertRaises(RequestError) as caught:
                cql2.parsed(text)
            self.assertIn(words, str(caught.exception))
            self.assertLess(len(str(caught.exception)), 200)

    def test_any_text(self):
        chance = random.Random(1)
        pieces = [
            "a",
            '"',
            "'",
            "''",
            "\\'",
            "(",
            ")",
            "AND ",
            "or ",
            "not ",
            "=",
            "<>",
            "1",
            "1e9",
            ".",
            "-",
            "like ",
            "in ",
            "is null",
            "DATE(",
            "\0",
            "\ud800",
            "築",
            ",",
            " ",
            "between ",
        ]
        begun = time.process_time()
        for _ in range(1_500):
            text = "".join(chance.choice(pieces) for _ in range(chance.randrange(12)))
            try:
                cql2.parsed(text)
            except RequestError:
                pass
        self.assertLess(time.process_time() - begun, 30)

    def test_without_lark(self):
        cql2._parser.cache_clear()
        try:
            with mock.patch.dict(sys.modules, {"lark": None}):
                with self.assertRaisesRegex(RequestError, "install python3-lark"):
                    cql2.parsed("a = 1")
        finally:
            cql2._parser.cache_clear()


class Parts(unittest.TestCase):
    """Numbers, patterns and times."""

    def test_numbers(self):
        values = [0, 1, -1, 5, 2**53, 2**53 + 1, 2**63 - 1, -(2**63)]
        floats = [
            0.0,
            0.5,
            -0.5,
            5e-324,
            -5e-324,
            2.0**53,
            2.0**63,
            -(2.0**63),
            2.0**70,
            1.7976931348623157e308,
        ]
        for text in (
            LITERALS[:-3]
            + tuple(map(str, values))
            + ("4.5", "-4.5", "5.0", str(2**70), str(2**70 + 1), "1.0e1")
        ):
            number = Decimal(text)
            for is_whole, stored in ((True, values), (False, floats)):
                for operator in OPERATORS:
                    sql, given = bound(number, is_whole, operator)
                    for value in stored:
                        told = {
                            "=": value == given,
                            "<>": value != given,
                            "<": value < given,
                            ">": value > given,
                            "<=": value <= given,
                            ">=": value >= given,
                        }
                        wanted = compared("whole" if is_whole else "float", value, operator, text)
                        self.assertEqual(told[sql], wanted, (text, operator, value))

    def test_patterns(self):
        chance = random.Random(2)
        for _ in range(3_000):
            text = "".join(chance.choice("ab%_\\\n") for _ in range(chance.randrange(7)))
            pattern = "".join(chance.choice("ab%%_\\.*[") for _ in range(chance.randrange(6)))
            found = Pattern(pattern).matches(text, lambda: None)
            self.assertEqual(found, is_like(text, pattern), (text, pattern))

    def test_patterns_that_take_long_elsewhere(self):
        text = "a" * 200_000
        for pattern in (
            "%a" * 500 + "%b",
            "%a_a_a_a_b%",
            "%" + "a" * 300 + "b%",
            "_%" * 300 + "b",
            "(a+)+$",
            "%" * 5_000 + "b",
            "[a-z]*",
        ):
            looks = []
            begun = time.process_time()
            self.assertFalse(Pattern(pattern).matches(text, lambda: looks.append(1)))
            self.assertLess(time.process_time() - begun, 20, pattern)

    def test_a_pattern_looks_at_the_clock(self):
        class Late(Exception):
            pass

        def look():
            raise Late

        with self.assertRaises(Late):
            Pattern("%a_b%").matches("a" * 1_000_000, look)

    def test_times(self):
        for first, second in itertools.product(TIMES + ("2020-06-30T12:00:00-11:30",), repeat=2):
            told = instant(first) < instant(second), instant(first) == instant(second)
            self.assertEqual(
                told, (moment(first) < moment(second), moment(first) == moment(second))
            )
        for text in (
            "2020-01-01",
            "x",
            None,
            5,
            "2020-02-31T00:00:00+01:00",
            "0001-01-01T00:00:00+23:00",
            "2020-01-01T00:00:00",
        ):
            self.assertIsNone(instant(text))


@unittest.skipIf(MISSING, MISSING)
class Searched(InFolder):
    """What a filter finds over an index."""

    def indexed(self, *attributes, names="all", name="s.city.jsonl", **more):
        lines = [
            line(f"b{n}", json.dumps(each) if isinstance(each, dict) else each)
            for n, each in enumerate(attributes)
        ]
        self.stream, self.index = self.file(HEADER + b"".join(lines), name), self.folder / "i.gpkg"
        cityseq.index(self.stream, self.index, attributes=names, **more)
        return lines

    def ids(self, where, **more):
        with cityseq.Index(self.index) as index:
            return [int(feature.id[1:]) for feature in index.select(where=where, **more)]

    def refused(self, where):
        with self.assertRaises(RequestError, msg=where) as caught:
            self.ids(where)
        return str(caught.exception)

    def test_filters_by_chance(self):
        chance = random.Random(3)
        rows = [by_chance(chance) for _ in range(60)] + [{}]
        rows.append(
            {"whole": 1, "float": 0.5, "text": "a", "flag": True, "day": DAYS[0], "time": TIMES[0]}
        )
        self.indexed(*rows)
        made = Made(chance)
        with cityseq.Index(self.index) as index:
            types = {each.column: (each.type, each.format) for each in index.attributes.values()}
            self.assertEqual(types["float"], ("REAL", None))
            self.assertEqual(
                (types["day"][1], types["time"][1], types["flag"][1]),
                ("date", "date-time", "boolean"),
            )
            for _ in range(400):
                text, fits = made.made(3)
                with self.subTest(text):
                    work = index.work(where=text)
                    found = [row.line - 2 for row in index.rows(work)]
                    self.assertEqual(found, [n for n, row in enumerate(rows) if fits(row) is True])

    def test_types_that_differ(self):
        self.indexed(
            {"n": 1, "r": 1.5, "t": "x", "m": 1, "d": "2020-01-01", "o": None},
            {"n": 2, "m": "no", "d": "x", "big": 10**30},
        )
        for where, words in (
            (
                "t = 1",
                (
                    '"t" has texts',
                    "1 is a number",
                    'feature "b0"',
                    "line 2 of s.city.jsonl",
                    'has "x"',
                ),
            ),
            ("NOT (t = 1)", ('"t"', '"b0"')),
            ("t IN ('x', 1)", ('"t"', "1 is a number")),
            ("t BETWEEN 1 AND 2", ('"t"',)),
            ("t = TRUE", ("TRUE is a boolean",)),
            ("m > 1", ('"m" has texts', 'feature "b1"', 'has "no"')),
            ("big > 1", ('"big" has texts', 'feature "b1"', str(10**30))),
            ("n = 'x'", ('"n" has numbers', '"x" is a text', 'feature "b0"', "has 1")),
            ("n LIKE '1%'", ('"n" has numbers', '"1%" is a text')),
            ("NOT n LIKE '1%'", ('"n" has numbers',)),
            ("r NOT IN ('x')", ('"r" has numbers', "has 1.5")),
            ("n = DATE('2020-01-01')", ('"n" has numbers', "2020-01-01 is a date")),
            ("d = DATE('2020-01-01')", ('"d" has texts', 'feature "b1"', 'has "x"')),
            ("TRUE OR t = 1", ('"t"',)),
            ("nope = 1", ('"nope"', '"n", "r", "t"')),
            ('"nope" = 1', ('"nope"',)),
            ("N = 1", ('"N"', 'it has "n"')),
            ("fid = 1", ('"fid"',)),
            ("id = 'b0'", ('"id"',)),
            ("rowid = 1", ('"rowid"',)),
        ):
            said = self.refused(where)
            for each in words:
                self.assertIn(each, said)
        for where in (
            "o = 1",
            "o = 'x'",
            "o LIKE '%'",
            "NOT o IN (1, 'x')",
            "o > DATE('2020-01-01')",
        ):
            self.assertEqual(self.ids(where), [])
        self.assertEqual(self.ids("o IS NULL"), [0, 1])

    def test_names_of_attributes_are_told(self):
        self.indexed('{"id":1,"Year":2,"year":3}')
        self.assertIn('it has "id_2"', self.refused("id = 1"))
        self.assertEqual(self.ids("id_2 = 1 AND Year = 2 AND year_2 = 3"), [0])

    def test_no_text_is_sql(self):
        texts = [
            "x' OR '1'='1",
            "'; DROP TABLE features; --",
            '"id"',
            "?",
            "%",
            "NULL",
            "\0",
            "\ud800",
        ]
        self.indexed(*({"t": text, "u": 1} for text in texts))
        for number, text in enumerate(texts):
            self.assertEqual(self.ids(f"t = {quoted(text)}"), [number])
            self.assertEqual(self.ids(f"t IN ({quoted(text)})"), [number])
        self.assertEqual(self.ids("t LIKE 'x'' OR %'"), [0])
        self.assertIn("no attribute", self.refused('"x"" OR 1=1 --" = 1'))
        with cityseq.Index(self.index) as index:
            sql, values = index.work(where="t = 'x'' OR ''1''=''1' AND u > 5").where
        self.assertEqual((sql, values), ('(features."t" = ? AND features."u" > ?)', (texts[0], 5)))

    def test_long_and_deep_filters(self):
        self.indexed({"a": 1}, {"a": 2})
        for join in (" OR ", " AND "):
            self.assertEqual(self.ids(join.join(["a = 1"] * 800)), [0])
            self.assertIn("800 comparisons", self.refused(join.join(["a=1"] * 801)))
            self.assertIn("800 comparisons", self.refused(join.join(["TRUE"] * 801)))
        self.assertEqual(self.ids(f"a IN ({','.join(['2'] * 800)})"), [1])
        self.assertIn("800 comparisons", self.refused(f"a IN ({','.join(['2'] * 801)})"))
        self.assertEqual(self.ids("(" * 4_000 + "a=1" + ")" * 4_000), [0])
        self.assertEqual(self.ids("NOT " * 2_400 + "a=1"), [0])
        self.assertEqual(self.ids("NOT (" * 1_601 + "a=1" + ")" * 1_601), [1])
        for word in ("AND", "OR"):
            many = f"a=1 {word} (" * 700 + "a=1" + ")" * 700
            self.assertEqual(self.ids(many), [0])
        self.assertIn("AND in OR in AND", self.refused("NOT (a=1 OR " * 300 + "a=1" + ")" * 300))
        deep = "a=1"
        for level in range(40):
            if level == 19:
                chain = " OR ".join(["a=3"] * 700)
                with cityseq.Index(self.index) as index:
                    work = index.work(
                        where=f"NOT ({chain}) AND ({deep})", box=(0, 0, 9_000, 9_000), ids=["b1"]
                    )
                    self.assertEqual(len(list(index.rows(work))), 1)
                    self.assertTrue(index.has_more(work, index.streams[0], 0, 0))
            deep = f"a=2 {'AND' if level % 2 else 'OR'} ({deep})"
        self.assertIn("AND in OR in AND", self.refused(deep))

    def test_a_filter_that_takes_too_long(self):
        self.indexed(*({"t": "a" * 5_000} for _ in range(200)))
        for where in ("t LIKE '%a_a_a_b%'", "NOT (t LIKE '%b')"):
            with mock.patch.object(database, "SECONDS", -1), mock.patch.object(
                database, "STEPS", 10
            ):
                self.assertIn("takes more than -1 seconds", self.refused(where))
        with mock.patch.object(database, "SECONDS", 1):  # what a caller does takes no time of it
            with cityseq.Index(self.index) as index:
                rows = index.rows(index.work(where="t LIKE 'a%'"))
                next(rows)
                time.sleep(1.2)
                self.assertEqual(sum(1 for _ in rows), 199)

    def test_with_the_other_options(self):
        for name, pack in (
            ("s.city.jsonl", None),
            ("s.city.jsonl.gz", True),
            ("t.city.jsonl.gz", False),
        ):
            lines = self.indexed(*({"a": n % 3, "t": f"x{n}"} for n in range(30)), name=name)
            if pack:
                plain = self.folder / "plain.city.jsonl"
                plain.write_bytes(HEADER + b"".join(lines))
                self.stream.unlink()
                _, said, status = command("pack", "--output", self.stream, plain)
                self.assertEqual(status, 0, said)
                cityseq.index(self.stream, self.index, attributes=["a", "t"])
            wanted = [n for n in range(30) if n % 3 == 1]
            self.assertEqual(self.ids("a = 1"), wanted)
            self.assertEqual(self.ids("a = 1", ids=["b1", "b2", "b4"]), [1, 4])
            self.assertEqual(self.ids("a = 1", box=(0, 0, 1_000, 1_000), types="Building"), wanted)
            self.assertEqual(self.ids("a = 1", box=(5_000, 0, 6_000, 1_000)), [])
            self.assertEqual(self.ids("a = 1", lods=["1"]), [])
            with cityseq.Index(self.index) as index:
                output = self.folder / "o.city.jsonl"
                result = index.filter(output, where="a = 1 AND NOT t LIKE 'x1_'", limit=3)
                self.assertEqual((result.features, result.lines), (3, 31))
                self.assertEqual(
                    output.read_bytes(), HEADER + b"".join(lines[n] for n in (1, 4, 7))
                )
                stream = index.streams[0]
                work = index.work(where="a = 1")
                self.assertEqual(
                    [number for number, _ in index.candidates(work, stream, 2, 3)], [5, 8, 11]
                )
                self.assertEqual(
                    [index.has_more(work, stream, 0, n) for n in (9, 10)], [True, False]
                )

    def test_the_command(self):
        lines = self.indexed(*({"a": n} for n in range(5)))
        out, said, status = command(
            "filter", "--index", self.index, "--where", "a > 1 AND a < 4", "--limit", "1"
        )
        self.assertEqual((out, said, status), (HEADER + lines[2], "", 0))
        _, said, status = command("filter", "--where", "a > 1", self.stream)
        self.assertEqual(
            (status, "make one by 'cityseq-run index --attributes'" in said), (2, True)
        )
        _, said, status = command("filter", "--index", self.index, "--where", "a > '1'")
        self.assertEqual((status, 'feature "b0"' in said), (2, True))
        out, _, _ = command(
            "filter",
            "--index",
            self.index,
            "--where",
            "a = 1",
            "--json",
            "--output",
            self.folder / "o",
        )
        self.assertEqual(json.loads(out)["options"]["where"], "a = 1")
        command("index", "--refresh", self.index)
        self.assertEqual(self.ids("a = 1"), [1])

    def test_two_streams(self):
        paths = [self.file(HEADER + line("b0", '{"a":%d}' % n), f"{n}.city.jsonl") for n in (1, 2)]
        index, folder = self.folder / "i.gpkg", self.folder / "out"
        cityseq.index(paths, index, attributes=["a"])
        _, said, status = command(
            "filter", "--index", index, "--where", "a = 2", "--output-dir", folder
        )
        self.assertEqual(status, 0, said)
        self.assertEqual((folder / "1.city.jsonl").read_bytes(), HEADER)
        self.assertEqual((folder / "2.city.jsonl").read_bytes(), HEADER + line("b0", '{"a":2}'))
        with closing(cityseq.Index(index)) as opened:
            with self.assertRaisesRegex(RequestError, "line 2 of 1.city.jsonl"):
                opened.select(where="a = 'x'")
