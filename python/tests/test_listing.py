"""The kept features of a stream, and the columns of their table."""
import importlib.util
import io
import json
import math
import pickle
import random
import unittest
from decimal import Decimal
from unittest import mock

import cityseq

from .support import HEADER, PLAIN, ROOT, feature

TOWN, BROKEN, DELIVERY, SAMPLE = (
    f"{ROOT}/examples/{name}.city.jsonl" for name in ("town", "broken", "delivery", "sample")
)


def with_id(name):
    """A feature without vertices of any id, escaped as Python's JSON writer does."""
    told = {
        "type": "CityJSONFeature",
        "id": name,
        "CityObjects": {name: {"type": "Building"}},
        "vertices": [],
    }
    return json.dumps(told).encode() + b"\n"


class Features(unittest.TestCase):
    def test_each_has_its_line(self):
        lines = open(SAMPLE, "rb").read().splitlines()
        found = list(cityseq.features(SAMPLE))
        self.assertEqual([each.bytes for each in found], lines[1:])
        self.assertEqual([each.line for each in found], list(range(2, len(lines) + 1)))

    def test_each_tells_what_python_reads(self):
        for each in cityseq.features(SAMPLE):
            told = each.json()
            objects = list(told["CityObjects"].values())
            geometries = [one for each_object in objects for one in each_object.get("geometry", [])]
            self.assertEqual(each.id, told["id"])
            self.assertEqual((each.objects, each.geometries), (len(objects), len(geometries)))
            self.assertEqual(set(each.types), {one["type"] for one in objects})
            self.assertEqual(set(each.lods), {one["lod"][0] for one in geometries})
            axes = zip(*told["vertices"])
            self.assertEqual(each.ranges, tuple((min(axis), max(axis)) for axis in axes))

    def test_an_extent_is_in_world_coordinates(self):
        house = next(iter(cityseq.features(TOWN, ids="house-1")))
        self.assertEqual(house.extent[0], (Decimal(1000), Decimal(1001)))

    def test_a_query_selects(self):
        self.assertEqual([each.id for each in cityseq.features(TOWN, types="Road")], ["road-1"])
        others = cityseq.features(TOWN, types="Road", exclude=True)
        self.assertEqual([each.id for each in others], ["house-1", "house-2", "tree-1"])

    def test_an_invalid_line_ends_it(self):
        found = []
        with self.assertRaises(cityseq.InvalidStream) as raised:
            found.extend(each.id for each in cityseq.features(BROKEN))
        self.assertIn("line 3, byte 144: 25 vertex index out of range", str(raised.exception))
        self.assertEqual(found, ["b1"])
        self.assertEqual(
            [each.line for each in cityseq.features(DELIVERY, keep_going=True)], [2, 5, 9]
        )

    def test_an_invalid_header_is_told(self):
        for text in (b"", b"{}\n", PLAIN):
            with self.assertRaises(cityseq.InvalidStream):
                list(cityseq.features(text, keep_going=True))
        self.assertEqual(list(cityseq.features(HEADER)), [])

    def test_ids_that_are_hostile(self):
        ids = ['<script>"', "\u0000", "\ud800", "\u202e", "x" * 1_000_000, ""]
        text = HEADER + b"".join(with_id(each) for each in ids)
        self.assertEqual([each.id for each in cityseq.features(text)], ids)

    def test_a_read_that_fails_is_told(self):
        class Failing(io.RawIOBase):
            def readable(self):
                return True

            def readinto(self, room):
                raise OSError(5, "no")

        with self.assertRaises(cityseq.ReadFault):
            list(cityseq.features(Failing()))


class Table(unittest.TestCase):
    def test_its_columns_are_of_one_length(self):
        columns = cityseq.table(SAMPLE)
        self.assertEqual({len(column) for column in columns.values()}, {120})
        self.assertEqual(list(columns)[:3], ["id", "line", "length"])

    def test_a_row(self):
        row = {name: column[0] for name, column in cityseq.table(TOWN, ids="house-1").items()}
        self.assertEqual((row["id"], row["line"], row["types"]), ("house-1", 2, ("Building",)))
        self.assertEqual((row["xmin"], row["xmax"]), (1000.0, 1001.0))

    def test_ids_are_read_as_json(self):
        """Of one length and place, or of several."""
        for names in (
            ("a", "b"),
            ("a", "bcd"),
            ("\u00e9", "ab"),
            ("\\u0061", "bcdefg"),
            ("a",),
            (),
        ):
            for space in (b"", b" "):
                lines = [feature(name) for name in names]
                lines[:1] = [line.replace(b'"id":', b'"id":' + space) for line in lines[:1]]
                wanted = [json.loads(line)["id"] for line in lines]
                self.assertEqual(cityseq.table(HEADER + b"".join(lines))["id"], wanted)

    def test_no_vertex_is_no_number(self):
        columns = cityseq.table(HEADER + PLAIN)
        self.assertTrue(math.isnan(columns["xmin"][0]))

    @unittest.skipUnless(importlib.util.find_spec("numpy"), "numpy is not there")
    def test_numpy_changes_nothing(self):
        """The columns have the same values and types, bit by bit."""
        chance = random.Random(1)
        numbers = ("1", "0.001", "-0.25", "1e-18", "1e15", "3e-7", "123456789.123", "0", "1e30")
        for seed in range(120):
            scale, shift = chance.choice(numbers[:-2] + ("1e30",)), chance.choice(numbers)
            lines = [
                feature(
                    f"b\\u00{chance.randrange(32, 99)}",
                    x=chance.choice((0, 7, 1 - 2**53, 2**53 - 1)),
                )
                for _ in range(chance.randrange(9))
            ]
            lines += [PLAIN] * chance.randrange(3) + [with_id("\0")] * chance.randrange(2)
            chance.shuffle(lines)
            header = HEADER.replace(b"[0.001", f"[{scale}".encode())
            text = header.replace(b"[10", f"[{shift}".encode()) + b"".join(lines)
            with mock.patch("cityseq.run.features.ROOM", chance.choice((300, 1_000, 1 << 19))):
                with mock.patch("cityseq.run.features._numpy", lambda: None):
                    plain = cityseq.table(text)
                with mock.patch("cityseq.run.features.MANY", 0), mock.patch(
                    "cityseq.run.features.TOGETHER", chance.choice((1, 3, 100))
                ):
                    self.assertEqual(pickle.dumps(cityseq.table(text)), pickle.dumps(plain), seed)

    def test_it_is_json_where_it_can_be(self):
        columns = cityseq.table(TOWN)
        json.dumps({name: list(column) for name, column in columns.items()})


if __name__ == "__main__":
    unittest.main()
