"""Cuts by an index write what `filter` writes of the whole stream."""
import gzip
import io
import json
import os
import random
import sqlite3
import unittest
from contextlib import closing
from fractions import Fraction
from unittest import mock

import cityseq
from cityseq.indexes import candidates, line_reader

from .support import HEADER, PLAIN, ROOT, InFolder, command, feature
from .test_index import with_id

TOWN, SAMPLE, DELIVERY = (
    f"{ROOT}/examples/{name}.city.jsonl" for name in ("town", "sample", "delivery")
)
SLOW = bool(os.environ.get("CITYSEQ_SLOW_TESTS"))  # 10,000 boxes, and not some hundreds
MOST = 10**36 - 1  # in a box, in units of 10^-18
SCALES = (
    "0.001",
    "-0.001",
    "1",
    "1e-18",
    "-1e-18",
    "1e17",
    "-1e17",
    "0",
    "0.000000000123456789",
    "123456789.123456789",
    "999999999999999999.999999999999999999",
)
TYPES, LODS = ("Building", "Road", "Bridge", "WaterBody"), (
    "0",
    "1.2",
    "2.2",
    "4",
    "x",
    "2",
    "",
    "\u0664",
)


def filtered(source, **options):
    """What `filter` writes of a whole stream, or the report that ends it."""
    output = io.BytesIO()
    try:
        result = cityseq.filter(source, output, **options)
    except cityseq.InvalidStream as fault:
        return str(fault.result.end)
    return output.getvalue(), result.status, result.lines, result.features, result.refused


def cut(index, **query):
    """The same by an index."""
    output = io.BytesIO()
    try:
        result = index.filter(output, **query)
    except cityseq.InvalidStream as fault:
        return str(fault.result.end)
    return output.getvalue(), result.status, result.lines, result.features, result.refused


def number_by_chance(chance):
    """A translation, which may need 36 digits."""
    whole, part = chance.randrange(10 ** chance.randrange(1, 19)), chance.randrange(10**18)
    return f"{chance.choice(('', '-'))}{whole}.{part:018}" if chance.randrange(4) else str(whole)


def feature_by_chance(chance, number):
    """A feature of some vertices, none in a few, far from each other in some."""
    size = 10 ** chance.choice((1, 3, 6, 17, 18))
    middle = [chance.randrange(-size + 1, size) for _ in "xyz"]
    side = chance.choice((1, 5, size))
    vertices = [
        [
            max(min(value + chance.randrange(-side, side + 1), 10**18 - 1), 1 - 10**18)
            for value in middle
        ]
        for _ in range(chance.choice((0, 1, 3)))
    ]
    geometry = [
        {"type": "MultiPoint", "lod": chance.choice(LODS), "boundaries": list(range(len(vertices)))}
    ]
    objects = {
        name: {"type": chance.choice(TYPES), "geometry": geometry * chance.randrange(2)}
        for name in (f"b{number}", "z")
    }
    told = {
        "type": "CityJSONFeature",
        "id": f"b{number}",
        "CityObjects": objects,
        "vertices": vertices,
    }
    return json.dumps(told).encode() + b"\n"


def stream_by_chance(chance):
    """A header of an extreme transform, and some features."""
    scale, shift = [chance.choice(SCALES) for _ in "xyz"], [number_by_chance(chance) for _ in "xyz"]
    header = HEADER.replace(b"[0.001,0.001,0.001]", f"[{','.join(scale)}]".encode())
    header = header.replace(b"[10,20,0]", f"[{','.join(shift)}]".encode())
    return header + b"".join(
        feature_by_chance(chance, number) for number in range(chance.randrange(40))
    )


def edges_of(text):
    """Coordinates in world coordinates that vertices of a stream have, exactly."""
    header, *lines = [json.loads(line, parse_float=Fraction) for line in text.splitlines()]
    vertices = [vertex for line in lines for vertex in line["vertices"]] or [[0, 0, 0]]
    return [
        [
            vertex[axis] * Fraction(header["transform"]["scale"][axis])
            + Fraction(header["transform"]["translate"][axis])
            for vertex in vertices
        ]
        for axis in range(2)
    ]


def written(number):
    """An exact number as a box takes it, no farther from 0 than that allows."""
    units = max(min(int(number * 10**18), MOST), -MOST)
    return f"{'-' * (units < 0)}{abs(units) // 10 ** 18}.{abs(units) % 10 ** 18:018}"


def box_by_chance(chance, edges):
    """A box whose edges touch vertices, or miss them by the least step, or lie anywhere."""
    found = []
    for values in edges:
        ends = [
            chance.choice(values)
            + chance.choice((0, 0, -1, 1)) * Fraction(1, 10**18)
            + chance.choice((0, 0, 0, chance.randrange(-1_000, 1_000)))
            for _ in range(2)
        ]
        found.append(sorted(ends) if chance.randrange(3) else [ends[0], ends[0]])
    (left, right), (low, high) = found
    return ",".join(map(written, (left, low, right, high)))


class ByChance(InFolder):
    """No cut leaves a line out, and the engine leaves out what is too many."""

    def test_boxes(self):
        chance, boxes, kept = random.Random(58), 0, 0
        while boxes < (10_000 if SLOW else 400):
            text = stream_by_chance(chance)
            path = self.file(text)
            cityseq.index(path, self.folder / "it.gpkg")
            edges = edges_of(text)
            with cityseq.Index(self.folder / "it.gpkg") as index:
                for _ in range(50):
                    box = box_by_chance(chance, edges)
                    boxes += 1
                    with self.subTest(header=text.split(b"\n")[0], box=box):
                        wanted = filtered(text, box=box)
                        self.assertEqual(cut(index, box=box), wanted)
                        kept += wanted[3]
        self.assertGreater(kept, boxes // 2)

    def test_queries(self):
        chance = random.Random(59)
        for _ in range(200 if SLOW else 20):
            text = stream_by_chance(chance)
            path, edges = self.file(text), edges_of(text)
            cityseq.index(path, self.folder / "it.gpkg")
            with cityseq.Index(self.folder / "it.gpkg") as index:
                for _ in range(10):
                    query = {}
                    if chance.randrange(2):
                        query["box"] = box_by_chance(chance, edges)
                    if chance.randrange(2):
                        query["types"] = chance.sample(TYPES, chance.randrange(3))
                    if chance.randrange(2):
                        query["lods"] = chance.sample(LODS, chance.randrange(4))
                    if chance.randrange(3) == 0:
                        query["ids"] = [
                            f"b{chance.randrange(40)}" for _ in range(chance.choice((0, 1, 20)))
                        ]
                    with self.subTest(query=query):
                        self.assertEqual(cut(index, **query), filtered(text, **query))
                        with index.select(**query) as features:
                            found = [
                                (each.line, each.bytes, each.id, each.file) for each in features
                            ]
                        wanted = [
                            (each.line, each.bytes, each.id, str(path))
                            for each in cityseq.features(text, **query)
                        ]
                        self.assertEqual(found, wanted)


class Cuts(InFolder):
    """Streams of each kind, and outputs."""

    def indexed(self, *paths, **options):
        cityseq.index([str(path) for path in paths], self.folder / "it.gpkg", **options)
        return cityseq.Index(self.folder / "it.gpkg")

    def test_the_whole_stream(self):
        for path in (TOWN, SAMPLE):
            with self.indexed(path) as index:
                self.assertEqual(cut(index), filtered(path))
                self.assertEqual(cut(index)[0], open(path, "rb").read())

    def test_blank_lines_and_a_last_line_without_lf(self):
        text = HEADER + b"\n" + feature("a") + b" \r\n" + feature("b", "Road") + feature("c")[:-1]
        for path in (self.file(text), self.file(text, "it.city.jsonl.gz")):
            with self.indexed(path) as index:
                for query in (
                    {},
                    {"ids": "c"},
                    {"types": "Road"},
                    {"types": "Building"},
                    {"ids": "no"},
                ):
                    self.assertEqual(cut(index, **query), filtered(text, **query))

    def test_many_lines_by_threads(self):
        text = HEADER + b"".join(
            feature(f"b{i}", "Road" if i % 97 else "Bridge", x=i) for i in range(30_000)
        )
        with self.indexed(self.file(text)) as index:
            for query in (
                {"types": "Bridge"},
                {"types": "Road"},
                {"ids": ["b7", "b29999"]},
                {"ids": [f"b{i}" for i in range(0, 60_000, 3)]},
                {"box": (39, 20, 40, 21)},
            ):
                wanted = filtered(text, **query)
                self.assertEqual(cut(index, **query), wanted)
                for jobs in (1, 3):
                    output = io.BytesIO()
                    index.filter(output, jobs=jobs, **query)
                    self.assertEqual(output.getvalue(), wanted[0])

    def test_whole_streams_are_read_where_that_takes_less_time(self):
        one = HEADER + b"".join(
            feature(f"b{i}", "Road" if i % 97 else "Bridge", x=i) for i in range(6_000)
        )
        other = HEADER + b"\n" + feature("c") + feature("d", "Road")[:-1]
        read = mock.Mock(side_effect=line_reader._all_lines)
        with self.indexed(self.file(one, "one"), self.file(other, "other")) as index:
            with mock.patch.object(candidates, "SMALL", 0), mock.patch.object(
                line_reader, "_all_lines", read
            ), mock.patch.object(line_reader, "MOST", 5_000):
                for is_whole, query in (
                    (True, {}),
                    (True, {"types": "Road"}),
                    (True, {"types": "Road", "lods": "2.2", "box": (0, 0, 100, 100)}),
                    (True, {"ids": [f"b{i}" for i in range(1_000)]}),
                    (False, {"types": "Bridge"}),
                    (False, {"types": "Road", "box": (0, 0, 10, 10)}),
                    (False, {"ids": [f"b{i}" for i in range(100)]}),
                    (False, {"types": "Road", "ids": ["b7"]}),
                ):
                    with self.subTest(query=query):
                        read.reset_mock()
                        whole = one + other[len(HEADER) :]
                        self.assertEqual(cut(index, **query)[0], filtered(whole, **query)[0])
                        self.assertEqual(read.called, is_whole)

    def test_how_many_a_query_selects(self):
        text = HEADER + b"".join(
            feature(f"b{i}", "Road" if i % 2 else "Bridge", x=2_000 * i) for i in range(400)
        )
        with self.indexed(self.file(HEADER + feature("b1")), self.file(text, "it")) as index:
            stream = index.streams[1]
            for query in (
                {},
                {"box": "10,20,100,21"},
                {"box": "10,20,100,21", "types": "Road"},
                {"types": "Road", "lods": "2"},
                {"ids": ["b1", "b200", "x"]},
                {"ids": ["b1", "b5", "b200"], "box": "10,20,100,21"},
            ):
                work = index.work(**query)
                for after in (0, 40):
                    count = len(index.candidates(work, stream, after, 1_000))
                    with self.subTest(query=query, after=after):
                        self.assertGreater(count, 0)
                        self.assertTrue(index.has_more(work, stream, after, count - 1))
                        self.assertFalse(index.has_more(work, stream, after, count))

    def test_texts_with_escapes(self):
        text = HEADER + feature("a", lod="\\u0032.2") + feature("\\u0061", lod="\\u00322")
        with self.indexed(self.file(text)) as index:
            for query in ({"lods": "2.2"}, {"lods": "22"}, {"ids": "a"}, {"lods": "2"}):
                self.assertEqual(cut(index, **query), filtered(text, **query))
            self.assertEqual(cut(index, ids="a")[3], 2)
            self.assertEqual([len(each.places) for each in index.repeated_ids()], [2])

    def test_invalid_lines_are_left_out(self):
        with self.indexed(DELIVERY, keep_going=True) as index:
            for query in ({}, {"types": "Building"}, {"ids": ["p2", "p4"]}):
                self.assertEqual(cut(index, **query), filtered(DELIVERY, keep_going=True, **query))

    def test_it_judges_as_the_index_was_built(self):
        line = (
            b'{"type":"CityJSONFeature","id":"b",'
            b'"CityObjects":{"b":{"type":"Building"},"c":{"type":"Building"}},'
            b'"vertices":[]}\n'
        )
        text = HEADER + PLAIN + line + PLAIN[:-1] + b" " * 5_000 + b"\n"
        path = self.file(text)
        for options in (
            {"tree": True, "keep_going": True},
            {"line_limit": 1_000, "keep_going": True},
            {"depth": 70},
        ):
            with self.indexed(path, **options) as index:
                self.assertEqual(cut(index), filtered(text, **options))

    def test_streams_of_one_header_make_one_output(self):
        one, other = HEADER + feature("a") + feature("b")[:-1], HEADER + feature(
            "b", "Road"
        ) + feature("c")
        with self.indexed(
            self.file(one, "one"), self.file(HEADER, "none"), self.file(other, "other")
        ) as index:
            self.assertEqual(cut(index)[0], one + b"\n" + feature("b", "Road") + feature("c"))
            self.assertEqual(
                cut(index, ids="b"), (HEADER + feature("b") + feature("b", "Road"), 0, 7, 2, 0)
            )
            self.assertEqual(cut(index, types="Road")[0], HEADER + feature("b", "Road"))

    def test_streams_of_many_headers_need_many_outputs(self):
        with self.indexed(TOWN, SAMPLE) as index:
            output = self.folder / "out"
            with self.assertRaises(cityseq.RequestError) as caught:
                index.filter(output)
            self.assertIn("--output-dir", str(caught.exception))
            self.assertFalse(output.exists())

    def test_a_transform_that_no_box_takes(self):
        text = HEADER.replace(b"[0.001,0.001,0.001]", b"[1e-19,0.001,0.001]") + feature("a")
        with self.indexed(self.file(text)) as index:
            self.assertEqual(cut(index, types="Building"), filtered(text, types="Building"))
            self.assertIn("30 transform not fixed", filtered(text, box="0,0,1,1"))
            self.assertEqual(cut(index, box="0,0,1,1"), filtered(text, box="0,0,1,1"))

    def test_bad_requests(self):
        with self.indexed(TOWN) as index:
            for query in (
                {"box": "1,2,3"},
                {"box": (5, 0, 1, 9)},
                {"types": "House"},
                {"ids": "a\nb"},
                {"lods": "\ud800"},
            ):
                with self.assertRaises(cityseq.RequestError):
                    index.filter(io.BytesIO(), **query)
                with self.assertRaises(cityseq.RequestError):
                    with index.select(**query):
                        pass

    def test_outputs_are_whole_or_absent(self):
        output = self.folder / "out.city.jsonl.gz"
        with self.indexed(SAMPLE) as index:
            index.filter(output, types="Building")
            self.assertEqual(gzip.decompress(output.read_bytes()), open(SAMPLE, "rb").read())
            with self.assertRaises(cityseq.WriteFault):
                index.filter(self.folder / "no" / "out")
            with self.assertRaises(cityseq.WriteFault):
                with open("/dev/full", "wb") as full:
                    index.filter(full)


class OutOfDate(InFolder):
    """A stream that is not the one that was indexed, of which nothing is written."""

    def setUp(self):
        super().setUp()
        self.text = HEADER + b"".join(feature(f"b{i}") for i in range(50))
        self.path = self.file(self.text)
        self.index = self.folder / "it.gpkg"
        cityseq.index(self.path, self.index)

    def refused(self, words):
        before = self.path.read_bytes()
        with cityseq.Index(self.index) as index:
            output, path = io.BytesIO(), self.folder / "out"
            for target in (output, path):
                with self.assertRaises(cityseq.OutOfDate) as caught:
                    index.filter(target)
                told = f"{self.path}: index is out of date: {words}, build it again"
                self.assertEqual((str(caught.exception), caught.exception.status), (told, 3))
            with self.assertRaises(cityseq.OutOfDate):
                with index.select() as features:
                    list(features)
            self.assertEqual((output.getvalue(), path.exists()), (b"", False))
        found, said, status = command("filter", "--index", str(self.index))
        self.assertEqual((found, said, status), (b"", told + "\n", 3))
        self.assertEqual(self.path.read_bytes(), before)

    def changed(self, text, keeps_time=False):
        state = os.stat(self.path)
        self.path.write_bytes(text)
        os.utime(self.path, ns=(state.st_atime_ns, state.st_mtime_ns + (0 if keeps_time else 1)))

    def test_longer_and_shorter(self):
        self.changed(self.text + PLAIN)
        self.refused("the stream is longer")
        self.changed(self.text[:-1])
        self.refused("the stream is shorter")

    def test_newer_and_older(self):
        self.changed(self.text)
        self.refused("the stream is newer")
        os.utime(self.path, ns=(0, 0))
        self.refused("the stream is older")

    def test_another_header(self):
        self.changed(self.text.replace(b"[10,20,0]", b"[10,20,1]", 1), keeps_time=True)
        self.refused("the stream has another header")

    def test_other_lines(self):
        begin = len(HEADER)
        for place, sign in (
            (begin + len(feature("b0")) - 1, b" "),
            (begin + 20, b"\n"),
            (len(self.text) - 1, b" "),
            (begin + 10, b"x"),
        ):
            self.changed(self.text[:place] + sign + self.text[place + 1 :], keeps_time=True)
            with self.subTest(place=place):
                self.refused("the stream has other lines")

    def test_a_stream_that_is_gone(self):
        self.path.unlink()
        with cityseq.Index(self.index) as index:
            with self.assertRaises(cityseq.ReadFault) as caught:
                index.filter(self.folder / "out")
        self.assertIn("No such file", str(caught.exception))
        self.assertFalse((self.folder / "out").exists())


class Command(InFolder):
    """The words of the command."""

    def setUp(self):
        super().setUp()
        self.index = str(self.folder / "it.gpkg")

    def test_index_then_filter(self):
        self.assertEqual(
            command("index", "--output", self.index, SAMPLE),
            (b"valid lines=121 features=120\n", "", 0),
        )
        box = "84700,447500,84800,447600"
        whole = command("filter", "--bbox", box, SAMPLE)
        self.assertEqual(command("filter", "--index", self.index, "--bbox", box), whole)
        self.assertGreater(len(whole[0].splitlines()), 2)
        listed = self.file(b"NL.IMBAG.Pand.503100000000000\nNL.IMBAG.Pand.503100000000007\n", "ids")
        words = ("--ids-from", str(listed), "--type", "Building", "--lod", "2.2,1.2", "--jobs", "2")
        self.assertEqual(
            command("filter", "--index", self.index, *words), command("filter", *words, SAMPLE)
        )

    def test_one_output_for_each_stream(self):
        packed = self.file(open(TOWN, "rb").read(), "town.city.jsonl.gz")
        self.assertEqual(command("index", "--output", self.index, str(packed), SAMPLE)[2], 0)
        said = command(
            "filter",
            "--index",
            self.index,
            "--type",
            "Building",
            "--output-dir",
            str(self.folder / "cut"),
        )
        self.assertEqual(
            said, (b"", f"{packed}: it is packed, so the cut reads it from its beginning\n", 0)
        )
        command(
            "filter",
            "--type",
            "Building",
            "--output-dir",
            str(self.folder / "whole"),
            str(packed),
            SAMPLE,
        )
        for name in ("town.city.jsonl.gz", "sample.city.jsonl"):
            self.assertEqual(
                (self.folder / "cut" / name).read_bytes(),
                (self.folder / "whole" / name).read_bytes(),
            )
        self.assertEqual(len(os.listdir(self.folder / "cut")), 2)
        os.utime(packed, ns=(0, 0))
        folder = self.folder / "none"
        words = ("filter", "--quiet", "--index", self.index, "--output-dir", str(folder))
        told = f"{packed}: index is out of date: the stream is older, build it again\n"
        self.assertEqual(command(*words), (b"", told, 3))
        self.assertFalse(folder.exists())
        self.assertEqual(command("filter", "--index", self.index)[2], 2)

    def test_an_invalid_stream_makes_no_index(self):
        output, said, status = command("index", "--output", self.index, DELIVERY)
        self.assertEqual((output, status, os.listdir(self.folder)), (b"", 1, []))
        self.assertIn("line 3, byte 144: 25 vertex index out of range", said)
        output, said, status = command("index", "--keep-going", "--output", self.index, DELIVERY)
        self.assertEqual((output, status), (b"invalid lines=9 features=3 refused=5\n", 1))
        whole = command("filter", "--keep-going", "--quiet", DELIVERY)
        for words in ((), ("--keep-going",)):
            found = command("filter", "--quiet", "--index", self.index, *words)
            self.assertEqual(found, whole)

    def test_options_that_do_not_fit(self):
        self.assertEqual(command("index", "--output", self.index, SAMPLE)[2], 0)
        for words, told in (
            (("--exclude",), "--exclude"),
            ((SAMPLE,), "FILE"),
            (("--tree",), "--tree"),
            (("--extensions",), "--extensions"),
            (("--keep-going",), "--keep-going"),
            (("--line-limit", "9000000"), "--line-limit"),
            (("--depth", "65"), "--depth"),
            (("--sha256",), "--sha256"),
            (("--files-from", SAMPLE), "--files-from"),
            (("--output", self.index), "output"),
            (("--output", SAMPLE), "output"),
            (("--base", "ftp://x"), "URL"),
            (("--output", "x", "--output-dir", "y"), "--output"),
        ):
            output, said, status = command("filter", "--index", self.index, *words, cwd=self.folder)
            self.assertEqual((output, status), (b"", 2))
            self.assertIn(told, said)
        for words, told in (
            (("index", SAMPLE), "--output"),
            (("index", "--output", self.index), "'-'"),
            (("index", "--output", SAMPLE, SAMPLE), "output"),
            (("filter", "--base", "http://x"), "--index"),
            (("index", "--show", self.index, SAMPLE), "--show"),
        ):
            output, said, status = command(*words)
            self.assertEqual((output, status, said.count("\n")), (b"", 2, 1))
            self.assertIn(told, said)
        self.assertEqual(sorted(os.listdir(self.folder)), ["it.gpkg"])

    def test_show(self):
        text = HEADER + with_id("a\u202e") + feature("b", x=5) + with_id("a\u202e")
        path = self.file(text)
        command("index", "--output", self.index, str(path))
        output, said, status = command("index", "--show", self.index)
        self.assertEqual(
            (output.decode().splitlines(), said, status),
            (
                [
                    "streams 1",
                    "features 3",
                    "invalid lines 0",
                    "bbox 10,20,11,21",
                    f"stream {path} lines 4 features 3 invalid 0 bbox 10,20,11,21",
                    'repeated id "a\\u202e" in 2 features',
                    f"    {path} line 2",
                    f"    {path} line 4",
                ],
                "",
                0,
            ),
        )
        os.utime(path, ns=(0, 0))
        self.assertIn(
            "    index is out of date: the stream is older, build it again",
            command("index", "--show", self.index)[0].decode().splitlines(),
        )
        told = json.loads(command("index", "--show", self.index, "--json")[0])
        self.assertEqual(
            (told["kind"], told["version"], told["features"], told["bbox"]),
            ("index", 1, 3, [10, 20, 11, 21]),
        )
        self.assertEqual(
            told["repeated_ids"],
            [{"id": "a\u202e", "places": [{"file": str(path), "line": n} for n in (2, 4)]}],
        )

    def test_show_has_the_digits_of_a_stream(self):
        """The box has no digits that only a float has, and `--bbox` takes it."""
        header = HEADER.replace(b"[10,20,0]", b"[84710.689,447000.123,0]")
        path = self.file(header + feature("b", x=-1))
        command("index", "--output", self.index, str(path))
        box = "84710.688,447000.123,84711.689,447001.123"
        shown = command("index", "--show", self.index)[0].decode().splitlines()
        self.assertEqual(shown[3], f"bbox {box}")
        self.assertIn(f"bbox {box}", command("info", str(path))[0].decode().splitlines())
        self.assertEqual(command("filter", "--bbox", box, str(path))[2], 0)

    def test_json(self):
        output, _, status = command("index", "--json", "--output", self.index, SAMPLE)
        told = json.loads(output)
        self.assertEqual(
            (told["command"], told["verdict"], told["features"], status), ("index", "valid", 120, 0)
        )
        target = str(self.folder / "out")
        told = json.loads(
            command(
                "filter", "--json", "--index", self.index, "--type", "Road", "--output", target
            )[0]
        )
        self.assertEqual(
            (told["file"], told["lines"], told["features"], told["status"]), (SAMPLE, 121, 0, 0)
        )

    def test_an_index_that_was_changed_by_another_program(self):
        command("index", "--output", self.index, SAMPLE)
        for change in (
            "begin = begin + 1",
            "begin = -1",
            "begin = 'x'",
            "length = length - 1",
            "length = 1 << 60",
            "length = -1",
            "begin = 0",
            "length = 'x'",
            "line = 'x'",
        ):
            with closing(sqlite3.connect(self.index)) as base:
                for name in (
                    "IsEmpty",
                    "MinX",
                    "MaxX",
                    "MinY",
                    "MaxY",
                ):  # which the triggers of the layer name
                    base.create_function(f"ST_{name}", 1, lambda _: 0)
                base.execute(f"UPDATE features SET {change}")
                base.execute("UPDATE cityseq_index SET changed = 0")
                base.commit()
            output, said, status = command("filter", "--index", self.index)
            with self.subTest(change=change):
                self.assertEqual((output, status), (b"", 3))
                self.assertIn("index is out of date", said)
            command("index", "--output", self.index, SAMPLE)


if __name__ == "__main__":
    unittest.main()
