"""Attributes of features: their values, and the columns of an index for them."""
import json
import random
import sqlite3
import sys
import threading
import time
import unittest
from contextlib import closing
from decimal import Decimal
from functools import partial
from unittest import mock

import cityseq
from cityseq import OutOfDate, ReadFault, RequestError, WriteFault
from cityseq.attributes import columns, columns_of, members, rows_of
from cityseq.engine.world import NESTED, deep

from .support import HEADER, InFolder, command

OWN = ["fid", "geom", "line", "begin", "length", "id"]
NUMBERS = "0 -0 1 7 -12 1990 1.5 1.50 0.10 -0.0 1e5 1E+2 2.5e-7 123456789012345678 1e400".split()
NUMBERS += [
    "9007199254740993",
    "9223372036854775807",
    "9223372036854775808",
    "-9223372036854775808",
]
NUMBERS += ["-9223372036854775809", "1" * 5_000, "0.1234567890123456789", "100000.0", "1e-400"]
TEXTS = (
    "",
    "a",
    "in use",
    "it's",
    'b"c',
    "\\",
    "ä築🏠",
    'year":5',
    "{",
    "[x]",
    "\0",
    "\ud800",
    ",",
    "null",
)
NAMES = (
    "year",
    "Year",
    "a b",
    "ä",
    "x,y",
    ":",
    ",",
    "",
    'b"c',
    "\\",
    "fid",
    "\0",
    "__class__",
    'year":',
)


def line(name, attributes="", kind="Building"):
    """A feature, whose main city object has attributes as they are spelled."""
    told = f'"attributes":{attributes},' if attributes else ""
    return (
        f'{{"type":"CityJSONFeature","id":"{name}","CityObjects":{{"{name}":{{"type":"{kind}",'
        f"{told}"
        f'"geometry":[{{"type":"MultiSurface","lod":"2.2","boundaries":[[[0,1,2]]]}}]}}}},'
        '"vertices":[[0,0,0],[1000,0,0],[1000,1000,0]]}\n'
    ).encode("utf-8", "surrogatepass")


def spelled_text(chance, text):
    """A text as JSON, with some escapes that it need not have."""
    if chance.randrange(2):
        return json.dumps(text)
    signs = []
    for sign in text:
        if chance.randrange(4) == 0 or sign < " " or "\ud800" <= sign <= "\udfff":
            signs.append(json.dumps(sign)[1:-1] if sign > "\uffff" else f"\\u{ord(sign):04X}")
        else:
            signs.append({"\\": "\\\\", '"': '\\"'}.get(sign, sign))
    return '"' + "".join(signs) + '"'


def spelled_value(chance, deep=2):
    """A value of JSON by chance, as it is spelled."""
    turn = chance.randrange(8 if deep else 6)
    if turn < 3:
        return chance.choice(NUMBERS)
    if turn < 5:
        return spelled_text(chance, chance.choice(TEXTS))
    if turn == 5:
        return chance.choice(("true", "false", "null"))
    items = [spelled_value(chance, deep - 1) for _ in range(chance.randrange(3))]
    if turn == 6:
        return "[" + chance.choice((",", " , ")).join(items) + "]"
    pairs = (f"{spelled_text(chance, chance.choice(NAMES))}:{item}" for item in items)
    return "{" + ",".join(pairs) + "}"


def spelled_object(chance):
    """Attributes by chance: the text, and the pairs of names and spelled values."""
    pairs = [(chance.choice(NAMES), spelled_value(chance)) for _ in range(chance.randrange(6))]
    space = chance.choice(("", "", " ", "\t "))
    members = (
        f"{space}{spelled_text(chance, name)}{space}:{space}{value}" for name, value in pairs
    )
    return "{" + ",".join(members) + space + "}", pairs


def readable(text):
    """A text as the index has it: with NUL or a lone surrogate it is escaped as in JSON."""
    whole = "\0" not in text and not any("\ud800" <= sign <= "\udfff" for sign in text)
    return text if whole else json.dumps(text)[1:-1]


def is_number(spelled):
    return spelled[0] in "-0123456789"


def is_whole(spelled):
    return spelled.lstrip("-").isdigit()


def expected(values):
    """The type and the values of a column, from the spellings of its values, None for none. This is
    the rule of the documents, written anew."""
    met = [value for value in values if value not in (None, "null")]
    numbers = [value for value in met if is_number(value)]
    wholes = [value for value in numbers if is_whole(value)]
    floats = [value for value in numbers if not is_whole(value)]

    def too_large(value):
        if is_whole(value):
            digits = value.lstrip("-")
            return len(digits) > 19 or not -(2**63) <= int(value) < 2**63
        return abs(Decimal(value)) > Decimal(1.7976931348623157e308)

    is_text = any(not is_number(value) and value not in ("true", "false") for value in met)
    is_text = is_text or any(map(too_large, numbers))
    is_text = is_text or floats and any(abs(int(value)) > 2**53 for value in wholes)
    if is_text or not met:

        def told(value):
            return readable(json.loads(value)) if value[0] == '"' else readable(value)

        return "TEXT", [None if value in (None, "null") else told(value) for value in values]
    kind = float if floats else int
    plain = {None: None, "null": None, "true": kind(1), "false": kind(0)}
    return "REAL" if floats else "INTEGER", [
        plain[value] if value in plain else kind(int(value) if is_whole(value) else value)
        for value in values
    ]


class Values(unittest.TestCase):
    """How values are read."""

    def test_names_and_all_give_the_same(self):
        chance = random.Random(1)
        for _ in range(200):
            made = [spelled_object(chance) for _ in range(chance.randrange(1, 6))]
            texts = [text.encode() for text, _ in made]
            if chance.randrange(3) == 0:
                texts.append(chance.choice((b"", b"null", b"[]", b'"year"', b"5", b"[{}]")))
                made.append(("", []))
            known = tuple(chance.sample(NAMES, chance.randrange(1, len(NAMES))))
            some, every = columns_of(texts, known), columns_of(texts, "all")
            for name in known:
                first = [dict(reversed(pairs)).get(name) for _, pairs in made]
                for found in (some[name], every.get(name, [None] * len(texts))):
                    self.assertEqual(len(found), len(texts))
                    for value, spelled in zip(found, first):
                        self.same(value, spelled, (name, texts))
            self.assertEqual(set(every), {name for _, pairs in made for name, _ in pairs})

    def same(self, value, spelled, where):
        """Whether a value is the one that is spelled so."""
        if spelled in (None, "null"):
            self.assertIsNone(value, where)
        elif spelled in ("true", "false"):
            self.assertIs(value, spelled == "true", where)
        elif is_number(spelled) and not isinstance(value, str):
            self.assertEqual(repr(value), spelled, where)
        else:
            told = json.loads(spelled) if spelled[0] == '"' else spelled
            self.assertEqual(value, readable(told), where)

    def test_rows_are_what_a_reader_of_json_gives(self):
        chance = random.Random(2)
        for _ in range(200):
            made = [spelled_object(chance) for _ in range(chance.randrange(1, 5))]
            texts = [text.encode() for text, _ in made]
            for names in ("all", NAMES):
                for row, (_, pairs) in zip(rows_of(texts, names), made):
                    for name, spelled in dict(reversed(pairs)).items():
                        if "1e400" in spelled or "1" * 5_000 in spelled:
                            continue
                        wanted = json.loads(
                            spelled, object_pairs_hook=lambda pairs: dict(reversed(pairs))
                        )
                        self.assertEqual(row[name], wanted)
        (row,) = rows_of([b'{"a":1e400,"b":%b}' % (b"1" * 5_000)], "all")
        self.assertEqual(row, {"a": "1e400", "b": "1" * 5_000})

    def test_members_are_spelled(self):
        self.assertEqual(
            members(b' { "a" : [ 1 , {"b":2.50}] ,"a":1, "\\u0062":1E2}'),
            {"a": '[ 1 , {"b":2.50}]', "b": "1E2"},
        )

    def test_strings_by_their_names(self):
        chance, letters = random.Random(3), ("", "a", "b", ",", ":", "}", "é", "a:", ",b")
        for _ in range(2_000):
            made = [
                [(chance.choice("ab"), chance.choice(letters)) for _ in range(chance.randrange(3))]
                for _ in range(chance.randrange(4))
            ]
            colon = chance.choice((":", ":", ":", " : "))
            texts = [
                ("{%s}" % ",".join(f'"{name}"{colon}"{value}"' for name, value in pairs)).encode()
                for pairs in made
            ]
            found = columns_of(texts, ("a", "b", "\ud800"))
            for name in ("a", "b"):
                first = [dict(reversed(pairs)).get(name) for pairs in made]
                self.assertEqual(found[name], first, texts)
            self.assertEqual(found["\ud800"], [None] * len(texts))

    def test_names_that_could_be_found_between_texts(self):
        text = b'{"a":"b",":":"c",",":"d","e":" ","}":"f"}'
        found = columns_of([text], (",", ":", "}", " ", "a"))
        self.assertEqual(
            [found[n][0] for n in (",", ":", "}", " ", "a")], ["d", "c", "f", None, "b"]
        )

    def test_attributes_nested_deeply(self):
        value = "[" * 1_000 + "]" * 1_000
        found = columns_of([b'{"a":%b,"b":1}' % value.encode()], ("a", "b"))
        self.assertEqual(found, {"a": [value], "b": [1]})
        self.assertEqual(columns_of([b'{"a":%b}' % value.encode()], "all"), {"a": [value]})

    def test_threads_that_read_deeply_at_once(self):
        """Python's limit is one for all threads: none lowers it while another reads."""
        usual, seen = sys.getrecursionlimit(), []

        def read(seconds):
            limit = sys.getrecursionlimit()
            if threading.current_thread() not in begun:
                begun.add(threading.current_thread())
                raise RecursionError
            time.sleep(seconds)
            seen.append((limit, sys.getrecursionlimit()))

        begun = set()
        threads = [
            threading.Thread(target=deep, args=(partial(read, seconds),)) for seconds in (0.1, 0.3)
        ]
        for thread in threads:
            thread.start()
        for thread in threads:
            thread.join()
        self.assertEqual(seen, [(usual + NESTED, usual + NESTED)] * 2)
        self.assertEqual(sys.getrecursionlimit(), usual)

    def test_values_without_members_next_to_objects_in_objects(self):
        for other in (b"null", b"7", b'"x"', b""):
            for count in range(3):
                texts = [b'{"a":{"b":"x"}}', b'{"b":"y"}', *[other] * count]
                found = columns_of(texts, ("a", "b"))
                rest = [None] * count
                self.assertEqual(found["a"], ['{"b":"x"}', None, *rest], texts)
                self.assertEqual(found["b"], [None, "y", *rest], texts)

    def test_a_long_text(self):
        text = "x" * (1 << 20)
        self.assertEqual(columns_of([b'{"a":"%b"}' % text.encode()], ("a",)), {"a": [text]})


class Indexed(InFolder):
    """What the columns of an index have."""

    def indexed(self, *attributes, names="all", **options):
        """The columns of an index: for each the type and the values. The attributes are spelled."""
        lines = [line(f"b{n}", each) for n, each in enumerate(attributes)]
        text, self.index = HEADER + b"".join(lines), self.folder / "i.gpkg"
        self.stream = self.folder / "stream.city.jsonl"
        if not self.stream.exists() or self.stream.read_bytes() != text:
            self.stream.write_bytes(text)
        cityseq.index(self.stream, self.index, attributes=names, **options)
        with closing(sqlite3.connect(self.index)) as base:
            self.assertEqual(base.execute("PRAGMA integrity_check").fetchall(), [("ok",)])
            cursor = base.execute("SELECT * FROM features ORDER BY fid")
            types = {row[1]: row[2] for row in base.execute("PRAGMA table_info(features)")}
            found = zip(*cursor.fetchall())
            return {
                told[0]: (types[told[0]], list(column))
                for told, column in zip(cursor.description, found)
            }

    def selected(self, where, **more):
        with cityseq.Index(self.index) as index:
            return [feature.id for feature in index.select(where=where, **more)]

    def column(self, *values, **options):
        """The type and the values of a column whose values are spelled so."""
        given = ['{"v":%s}' % value if value else "{}" for value in values]
        return self.indexed(*given, **options).get("v")

    def test_types(self):
        for values, kind, wanted in (
            (["1", "null", "", "2"], "INTEGER", [1, None, None, 2]),
            (["true", "false"], "INTEGER", [1, 0]),
            (["true", "7"], "INTEGER", [1, 7]),
            (["1.50", "2"], "REAL", [1.5, 2.0]),
            (["1e2", "true"], "REAL", [100.0, 1.0]),
            (["-0", "5"], "INTEGER", [0, 5]),
            (['"a"', '"\\u00e4"'], "TEXT", ["a", "ä"]),
            (["1", '"a"'], "TEXT", ["1", "a"]),
            (["1.50", "1E2", "-0", "true", '"a"'], "TEXT", ["1.50", "1E2", "-0", "true", "a"]),
            (["true", "0", "false", '"a"'], "TEXT", ["true", "0", "false", "a"]),
            (["[1, 2]", '{"a" : 1}'], "TEXT", ["[1, 2]", '{"a" : 1}']),
            (["1", "9223372036854775808"], "TEXT", ["1", "9223372036854775808"]),
            (["-9223372036854775808", "9223372036854775807"], "INTEGER", [-(2**63), 2**63 - 1]),
            (["1.50", "1e400"], "TEXT", ["1.50", "1e400"]),
            (["9007199254740993", "0.5"], "TEXT", ["9007199254740993", "0.5"]),
            (["9007199254740992", "0.5"], "REAL", [2.0**53, 0.5]),
            (["null", ""], "TEXT", [None, None]),
            (['"a\\u0000b"', '"\\ud800"'], "TEXT", ["a\\u0000b", "\\ud800"]),
        ):
            for names in (["v"], "all"):
                for size in (None, 1):
                    found = self.column(*values, names=names, part_size=size)
                    if found is None:  # no feature has it
                        found = "TEXT", [None] * len(values)
                    self.assertEqual(
                        (found[0], list(map(repr, found[1]))), (kind, list(map(repr, wanted)))
                    )

    def test_any_values_in_any_parts(self):
        chance = random.Random(3)
        choices = [*NUMBERS, "true", "false", "null", "", '"a"', "[1]", "{}"]
        for turn in range(80):
            some = chance.sample(choices, chance.randrange(1, 5))
            values = [chance.choice(some) for _ in range(chance.randrange(1, 12))]
            kind, wanted = expected([value or None for value in values])
            names = ["v"] if turn % 2 else "all"
            found = self.column(*values, names=names, part_size=chance.choice((1, 700, None)))
            found = found or ("TEXT", [None] * len(values))
            self.assertEqual(
                (found[0], list(map(repr, found[1]))), (kind, list(map(repr, wanted))), values
            )

    def test_other_kinds_of_attributes(self):
        kinds = ("", "null", "[]", '"v"', "5", "true", '[{"v":1}]', "{}", '{"v":1}')
        for names in (["v"], "all"):
            _, values = self.indexed(*kinds, names=names)["v"]
            self.assertEqual(values, [None] * 8 + [1])

    def test_a_part_without_features_has_no_attributes(self):
        """So has a stream that is only a header, one of invalid lines, and a part of blank ones."""
        for text in (b"", b"{}\n", b" \n" * 4, b" \n" * 400 + line("b0", '{"v":1}')):
            path, index = self.file(HEADER + text), self.folder / "i.gpkg"
            options = {"keep_going": True, "part_size": 200}
            cityseq.index(path, index, attributes="all", **options)
            with cityseq.Index(index) as opened:
                found = [each.attributes for each in opened.select()]
            self.assertEqual(found, [{"v": 1}] * text.count(b'"v"'))

    def test_only_the_main_city_object_counts(self):
        text = (
            b'{"type":"CityJSONFeature","id":"b","CityObjects":{"p":{"type":"BuildingPart",'
            b'"parents":["b"],"attributes":{"v":1}},"\\u0062":{"type":"Building",'
            b'"children":["p"],"attributes":{"v":2}}},'
            b'"vertices":[]}\n'
        )
        path, index = self.file(HEADER + text), self.folder / "i.gpkg"
        cityseq.index(path, index, attributes=["v"])
        with cityseq.Index(index) as opened:
            self.assertEqual([f.attributes for f in opened.select(where="v = 2")], [{"v": 2}])
            self.assertEqual(list(opened.select(where="v = 1")), [])

    def test_names_of_columns(self):
        names = [
            "year",
            "Year",
            "YEAR_2",
            "id",
            "ID",
            "FID",
            "rowid",
            "bytes",
            "",
            " ",
            'a"b',
            "a,b",
            "\0",
            "x" * 200,
        ]
        given = "{" + ",".join(f"{json.dumps(name)}:{n}" for n, name in enumerate(names)) + "}"
        wanted = [
            "year",
            "Year_2",
            "YEAR_2_2",
            "id_2",
            "ID_3",
            "FID_2",
            "rowid_2",
            "bytes_2",
            "attribute",
            "attribute_2",
            'a"b',
            "a,b",
            "\\u0000",
            "x" * 100,
        ]
        for asked in (names, "all"):
            found = self.indexed(given, names=asked)
            for number, column in enumerate(wanted):
                self.assertEqual(found[column], ("INTEGER", [number]))
            with cityseq.Index(self.index) as index:
                self.assertEqual([each.name for each in index.attributes.values()], names)
                self.assertEqual(list(index.attributes), wanted)
                for number, column in enumerate(wanted):
                    name = column.replace('"', '""')
                    self.assertEqual(len(list(index.select(where=f'"{name}" = {number}'))), 1)

    def test_hostile_names(self):
        names = [
            "'; DROP TABLE features; --",
            '"); DROP TABLE features; --',
            "__class__",
            "\u202e",
            "x" * (1 << 20),
            "ſ",
            "S",
            "\ud800",
            "?",
            ":a",
            "--",
            "/*",
            "sqlite_x",
            "a\nb",
        ]
        given = "{" + ",".join(f"{json.dumps(name)}:{n}" for n, name in enumerate(names)) + "}"
        found = self.indexed(given)
        self.assertEqual(len(found), 14 + len(names))
        with cityseq.Index(self.index) as index:
            self.assertEqual([each.name for each in index.attributes.values()], names)
            for number, column in enumerate(index.attributes):
                name = column.replace('"', '""')
                self.assertEqual(len(list(index.select(where=f'"{name}" = {number}'))), 1, name)
            self.assertIn("attribute ", index.show())

    def test_too_many(self):
        for names, says in (
            ([f"a{n}" for n in range(901)], "at most 900"),
            ([5], "named by texts"),
        ):
            with self.assertRaisesRegex(RequestError, says):
                cityseq.index(self.folder / "missing", self.folder / "i.gpkg", attributes=names)
        names = [f"a{n}" for n in range(900)]
        found = self.indexed("{%s}" % ",".join(f'"{name}":1' for name in names), names=names)
        self.assertEqual(len(found), 914)
        more = ["{%s}" % ",".join(f'"a{n}":1' for n in range(s, s + 300)) for s in (0, 300, 601)]
        self.assertEqual(len(self.indexed(*more)), 914)
        for size in (1, None):
            with self.assertRaisesRegex(RequestError, "more than 900 attributes"):
                self.indexed(*more, '{"one more":1}', part_size=size)
            names = sorted(path.name for path in self.folder.iterdir())
            self.assertEqual(names, ["i.gpkg", "stream.city.jsonl"])

    def test_many_spellings_and_no_room_for_them(self):
        values = ["1.50"] * 300 + ["true"] * 300
        kind, found = self.column(*values, '"a"', part_size=5_000)
        self.assertEqual((kind, found), ("TEXT", [*values, "a"]))
        begin = columns.AttributeColumns.begin

        def begin_with_little_room(made, base):
            begin(made, base)
            base.execute("PRAGMA temp.max_page_count = 2")

        with mock.patch.object(columns.AttributeColumns, "begin", begin_with_little_room):
            with self.assertRaisesRegex(WriteFault, "full"):
                self.column(*values * 100)
        self.assertEqual(
            sorted(each.name for each in self.folder.iterdir()), ["i.gpkg", "stream.city.jsonl"]
        )

    def test_other_columns_and_tables_are_those_of_an_index_without(self):
        given = ['{"v":%d}' % number for number in range(40)] + ["{}"] * 3
        plain = self.indexed(*given, names=None)
        self.assertEqual(
            list(plain),
            OWN + ["zmin", "zmax", "types", "lods", "objects", "geometries", "stream", "id_exact"],
        )
        tables = self.tables()
        self.assertNotIn("cityseq_attributes", tables)
        for names in (["v"], "all"):
            found = self.indexed(*given, names=names)
            self.assertEqual(found.pop("v"), ("INTEGER", [*range(40), None, None, None]))
            self.assertEqual(found, plain)
            more = self.tables()
            for name in ("streams", "reports", "rtree_features_geom_node"):
                self.assertEqual(more[name], tables[name])
        self.assertEqual(self.indexed(*given, names=[]), plain)

    def tables(self):
        """The rows of all tables but `features`, which are the same for the same streams."""
        with closing(sqlite3.connect(self.index)) as base:
            select = "SELECT name FROM sqlite_master WHERE type = 'table'"
            names = [name for name, in base.execute(select)]
            return {name: base.execute(f"SELECT * FROM {name}").fetchall() for name in names}

    def test_dates(self):
        for values, wanted in (
            (['"2020-01-31"', "null"], "date"),
            (['"2020-01-31T10:00:00Z"', '"2020-01-31T10:00:00.5+02:00"'], "date-time"),
            (['"2020-01-31"', '"2020-01-31T10:00:00Z"'], None),
            (['"2020-13-01"'], None),
            (['"2020-01-31 "'], None),
            (["true", "false"], "boolean"),
            (["true", "1"], None),
            (["20200131"], None),
        ):
            self.column(*values)
            with cityseq.Index(self.index) as index:
                self.assertEqual(index.attributes["v"].format, wanted, values)

    def test_an_index_that_somebody_changed(self):
        for change in (
            "UPDATE cityseq_attributes SET column_name = 'nope'",
            "UPDATE cityseq_attributes SET type = 'BLOB'",
            "UPDATE cityseq_attributes SET name = NULL",
            "UPDATE cityseq_attributes SET first_fid = 'x'",
            "UPDATE cityseq_attributes SET format = 'x'",
            "UPDATE features SET v = 7",
            "DROP TABLE cityseq_attributes",
        ):
            self.column("1", "2")
            with closing(sqlite3.connect(self.index)) as base, base:
                base.create_function("ST_IsEmpty", 1, lambda geometry: 0)
                for edge in ("MinX", "MaxX", "MinY", "MaxY"):
                    base.create_function(f"ST_{edge}", 1, lambda geometry: 0.0)
                try:
                    base.execute(change)
                except sqlite3.IntegrityError:
                    continue
            with self.assertRaises((OutOfDate, ReadFault, RequestError), msg=change):
                self.selected("v = 1")


class Python(InFolder):
    """Features and tables."""

    def test_features(self):
        given = ('{"a":1.50,"a":2,"t":"\\u0000"}', "", "[1]", '{"o":{"b":1,"b":2}}')
        path = self.file(HEADER + b"".join(line(f"b{n}", each) for n, each in enumerate(given)))
        found = [feature.attributes for feature in cityseq.features(path)]
        self.assertEqual(found, [{"a": 1.5, "t": "\0"}, {}, {}, {"o": {"b": 1}}])

    def test_the_json_of_a_feature_nested_deeply(self):
        """A valid line may be deeper than Python reads by itself."""
        value, depth = "[" * 1_020 + "]" * 1_020, 0
        text = HEADER + line("b", '{"a":%s}' % value)
        for feature in cityseq.features(text, depth=1_024):
            told = feature.json()["CityObjects"]["b"]["attributes"]["a"]
            while told:
                depth, (told,) = depth + 1, told
        self.assertEqual(depth, 1_019)

    def test_tables(self):
        given = ('{"a":1.50,"id":"x"}', "", '{"a":[1],"Line":null}')
        path = self.file(HEADER + b"".join(line(f"b{n}", each) for n, each in enumerate(given)))
        plain = cityseq.table(path)
        for names, wanted in (
            (
                ["a", "id", "no"],
                {"a": [1.5, None, [1]], "id_2": ["x", None, None], "no": [None] * 3},
            ),
            ("all", {"a": [1.5, None, [1]], "id_2": ["x", None, None], "Line_2": [None] * 3}),
            ("a", {"a": [1.5, None, [1]]}),
            ([], {}),
        ):
            found = cityseq.table(path, attributes=names)
            self.assertEqual({name: found[name] for name in found if name not in plain}, wanted)
            self.assertEqual({name: found[name] for name in plain}, plain)
        self.assertEqual(cityseq.table(HEADER, attributes="all"), cityseq.table(HEADER))

    def test_a_query_and_attributes(self):
        path = self.file(HEADER + line("b", '{"a":1}') + line("r", '{"a":2}', "Road"))
        self.assertEqual(cityseq.table(path, types="Road", attributes="a")["a"], [2])


class Command(InFolder):
    """The options of the command."""

    def setUp(self):
        super().setUp()
        lines = line("b0", '{"a,b":1,"c":"x","all":2}'), line("b1", '{"c":"y","d\\"":3}')
        self.stream = self.file(HEADER + b"".join(lines))
        self.index = self.folder / "i.gpkg"

    def build(self, *words):
        out, said, status = command("index", *words, "--output", self.index, self.stream)
        return out.decode(), said, status

    def shown(self):
        out, _, status = command("index", "--show", self.index)
        self.assertEqual(status, 0)
        return [text for text in out.decode().splitlines() if text.startswith("attribute ")]

    def test_names(self):
        for words, wanted in (
            (["c"], ["c"]),
            (["c,all"], None),
            (['"a,b", c'], ["a,b", "c"]),
            (['"all","d"""'], ["all", 'd"']),
        ):
            out, said, status = self.build("--attributes", *words)
            self.assertEqual(status, 0, said)
            with cityseq.Index(self.index) as index:
                found = [each.name for each in index.attributes.values()]
            self.assertEqual(found, wanted or ["a,b", "c", "all", 'd"'])
        self.build("--attributes", "c", "--attributes", '"a,b"')
        self.assertEqual(self.shown(), ['attribute "c" TEXT', 'attribute "a,b" INTEGER'])

    def test_mistakes(self):
        for value in ("", ",", "a,", '"a', '"a"b', "a,,b"):
            _, said, status = self.build("--attributes", value)
            self.assertEqual((status, "--attributes" in said), (2, True), value)
            self.assertFalse(self.index.exists())
        _, said, status = self.build("--attributes", "c", "--cluster", "tcp://127.0.0.1:1")
        self.assertEqual((status, "do not go together" in said), (2, True))
        _, said, status = self.build("--attributes", "no", "--json")
        self.assertEqual((status, said), (0, ""))
        _, said, status = self.build("--attributes", "no")
        self.assertEqual((status, said), (0, 'no feature has a value of the attribute "no"\n'))

    def test_show_as_json(self):
        self.build("--attributes", "all")
        out, _, _ = command("index", "--show", self.index, "--json")
        self.assertEqual(
            json.loads(out)["attributes"],
            [
                {"name": name, "column": name, "type": kind, "format": None}
                for name, kind in (
                    ("a,b", "INTEGER"),
                    ("c", "TEXT"),
                    ("all", "INTEGER"),
                    ('d"', "INTEGER"),
                )
            ],
        )

    def test_invalid_lines_are_left_out(self):
        self.stream.write_bytes(HEADER + line("b0", '{"c":1}') + b"{}\n" + line("b2", '{"c":3}'))
        _, said, status = self.build("--attributes", "c", "--keep-going")
        self.assertEqual(status, 1, said)
        out, _, _ = command("filter", "--index", self.index, "--where", "c = 3")
        self.assertEqual(out, HEADER + line("b2", '{"c":3}'))

    def test_an_index_without_them(self):
        self.build()
        _, said, status = command("filter", "--index", self.index, "--where", "c = 3")
        self.assertEqual((status, "build it again with --attributes" in said), (2, True))
        self.assertEqual(self.shown(), [])
