"""The texts of LoDs and the features with each: by one pass over the text, by queries of the
library, and as Python's own JSON reader has them."""
import json
import random
import unittest
from collections import Counter
from unittest import mock

import cityseq
from cityseq.engine import records as lods
from cityseq.engine.records import MOST_TEXTS

from . import support
from .support import HEADER, PLAIN, feature

TEMPLATES = (
    b'"geometry-templates":{"templates":[{"type":"MultiPoint","lod":"3.1","boundaries":[0]},'
    b'{"type":"MultiPoint","lod":"2.2","boundaries":[0]}],"vertices-templates":[[0,0,0]]},'
)
WITH_TEMPLATES = HEADER.replace(b'"CityObjects"', TEMPLATES + b'"CityObjects"')
POINTS = '{{"type":"MultiPoint","lod":"{}","boundaries":[0]}}'
SPACED = '{{"lod" :\t"{}" ,"type":"MultiPoint","boundaries":[0]}}'
ESCAPED = '{{"type":"MultiPoint","\\u006co\\u0064":"{}","boundaries":[0]}}'
INSTANCE = (
    '{{"type":"GeometryInstance","template":{},"boundaries":[0],'
    '"transformationMatrix":[1,0,0,0,0,1,0,0,0,0,1,0,0,0,0,1]}}'
)
TEXTS = (
    "0",
    "1.2",
    "1.3",
    "2.2",
    "2.20",
    "",
    "x",
    "\\u0032.2",
    "\\ud83c\\udfe0",
    "築",
    'a\\"lod',
    "\\\\",
)
ATTRIBUTES = (
    '"lod":"2.2"',
    '"lod":"none"',
    '"lod":3',
    '"lod":["lod","lod"]',
    '"a\\"lod":"2.2"',
    '"a":"lod"',
    '"a":"\\"lod\\":\\"2.2\\""',
    '"LOD":"1"',
    '"a":{"lod":{"lod":"0"}}',
)


def building(geometries, attributes=""):
    """A feature of a building with these geometries and attributes."""
    told = f'"attributes":{{{attributes}}},' if attributes else ""
    return (
        f'{{"type":"CityJSONFeature","id":"b","CityObjects":{{"b":{{"type":"Building",{told}'
        f'"geometry":[{",".join(geometries)}]}}}},"vertices":[[0,0,0]]}}\n'
    ).encode()


def geometry_by_chance(chance, kinds):
    kind = chance.choice(kinds)
    return kind.format(chance.randrange(2) if kind is INSTANCE else chance.choice(TEXTS))


def stream_by_chance(seed):
    """A valid stream whose LoDs stand in many ways, with other members of that name."""
    chance = random.Random(seed)
    header = WITH_TEMPLATES if seed % 3 == 0 else HEADER
    kinds = [POINTS] * 9 + [SPACED] + [ESCAPED] * (seed % 5 == 0) + [INSTANCE] * (seed % 6 == 0)
    others = ATTRIBUTES if seed % 4 == 1 else ("",)
    lines = []
    for _ in range(chance.randrange(1, 30)):
        geometries = [geometry_by_chance(chance, kinds) for _ in range(chance.randrange(5))]
        lines.append(chance.choice((b"\n", PLAIN, building(geometries, chance.choice(others)))))
    text = header + b"".join(lines)
    return text[:-1] if seed % 7 == 0 else text


def geometries_of(line):
    """The geometries of a feature."""
    objects = json.loads(line)["CityObjects"].values()
    return [each for one in objects for each in one.get("geometry", [])]


def by_python(text):
    """How many features have each text of an LoD, by Python's JSON reader."""
    header, *lines = text.split(b"\n")
    told, counts = json.loads(header), Counter()
    for line in filter(bytes.strip, lines):
        templates = told.get("geometry-templates", {}).get("templates", [])
        counts.update(
            {
                templates[each["template"]]["lod"]
                if each["type"] == "GeometryInstance"
                else each["lod"]
                for each in geometries_of(line)
            }
        )
    return dict(counts)


def counted(text, **options):
    """What `info` tells of LoDs."""
    info = cityseq.info(text, exact_lods=True, **options)
    return info.lods, info.unasked


def by_queries(text, **options):
    """The same by queries alone."""
    with mock.patch.object(lods, "_passed", lambda header, part: None):
        return counted(text, **options)


class Vectors(unittest.TestCase):
    def test_each_that_is_valid(self):
        seen = 0
        for case in support.cases():
            options = {"line_limit": int(case["line limit"]), "depth": int(case["depth"])}
            if cityseq.check(case["text"], **options).status != 0:
                continue
            seen += 1
            for size in (1, 1 << 20):
                with self.subTest(case["name"], size=size):
                    found = counted(case["text"], part_size=size, **options)
                    self.assertEqual(found, by_queries(case["text"], part_size=size, **options))
                    self.assertEqual(found, (by_python(case["text"]), ()))
        self.assertGreater(seen, 50)


class Chance(unittest.TestCase):
    def test_streams(self):
        for seed in range(300):
            text, chance = stream_by_chance(seed), random.Random(seed)
            wanted = (by_python(text), ())
            for size in (chance.randrange(1, 400), chance.randrange(400, 4_000), 1 << 20):
                with self.subTest(seed=seed, size=size):
                    self.assertEqual(
                        counted(text, part_size=size, jobs=chance.randrange(1, 4)), wanted
                    )
            self.assertEqual(by_queries(text), wanted)

    def test_windows_of_any_length(self):
        for seed in range(60):
            text = stream_by_chance(seed)
            for shortest in (len(lods.NAME), 6, 17, 40):
                with mock.patch.object(lods, "WINDOWS", (shortest, 3 * shortest)):
                    self.assertEqual(counted(text)[0], by_python(text), (seed, shortest))


class Ways(unittest.TestCase):
    """Which way is taken."""

    def is_by_one_pass(self, text):
        with mock.patch.object(lods, "_ask", side_effect=lods._ask) as ask:
            self.assertEqual(counted(text)[0], by_python(text))
        return not ask.called

    def test_one_pass_is_enough(self):
        four = [POINTS.format(text) for text in ("0", "1.2", "1.3", "2.2")]
        for text in (
            HEADER,
            HEADER + PLAIN,
            HEADER + building(four) * 9,
            HEADER + building(four, '"a":"lod","LoD":"1","lod":2'),
            WITH_TEMPLATES + building(four),
            HEADER + building(four, '"street":"Stra\\u00dfe\\n"'),
            HEADER.replace(b'"2.0"', b'"2.0","title":"\\u00e9"') + building(four),
        ):
            self.assertTrue(self.is_by_one_pass(text), text)

    def test_what_is_no_lod(self):
        two, other = [POINTS.format("1"), SPACED.format("2.2")], INSTANCE.format(0)
        for text in (
            HEADER + building(two, '"lod":"1"'),
            HEADER + building([ESCAPED.format("1")], '"lod":"1"'),
            WITH_TEMPLATES + building([other], '"lod":"7"'),
            WITH_TEMPLATES + building([*two, other]),
            WITH_TEMPLATES.replace(b"geometry-t", b"geometry\\u002dt")
            + building([other], '"lod":"7"'),
            WITH_TEMPLATES + building([other.replace("GeometryI", "Geometry\\u0049")], '"lod":"7"'),
        ):
            self.assertFalse(self.is_by_one_pass(text), text)

    def test_parts_of_each_kind_are_joined(self):
        text = (
            HEADER
            + building([POINTS.format("1")]) * 40
            + building([POINTS.format("2")], '"lod":"1"') * 40
        )
        for size in (300, 3_000):
            self.assertEqual(counted(text, part_size=size), ({"1": 40, "2": 40}, ()))


class Texts(unittest.TestCase):
    def test_texts_that_no_query_can_ask_for(self):
        text = HEADER + b"".join(
            feature("b", lod=lod) for lod in ("2.2", "\\u0032.2", "x\\n", "\\ud800")
        )
        text += feature("c").replace(b'"lod"', b'"l\\u006Fd"')
        text += PLAIN.replace(b'"Building"', b'"Building","attributes":{"lod":"none"}')
        for size in (1, 1 << 20):
            self.assertEqual(counted(text, part_size=size), ({"2.2": 3}, ("x\n", "\ud800")))

    def test_many_texts(self):
        attribute = b'"Building","attributes":{"lod":"%d"}'
        others = (PLAIN.replace(b'"Building"', attribute % number) for number in range(500))
        self.assertEqual(counted(HEADER + b"".join(others) + feature("z"))[0], {"2.2": 1})
        for count in (MOST_TEXTS, MOST_TEXTS + 1):
            text = HEADER + b"".join(feature("b", lod=str(number)) for number in range(count))
            for size in (10_000, 1 << 22):
                found = counted(text, part_size=size)[0]
                self.assertEqual(
                    None if found is None else len(found), count if count <= MOST_TEXTS else None
                )

    def test_they_are_counted_on_request(self):
        self.assertIsNone(cityseq.info(HEADER + feature("a")).lods)


if __name__ == "__main__":
    unittest.main()
