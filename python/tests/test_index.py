"""Indexes: what is in the file, against what Python reads in streams, and what bad input gets."""
import gzip
import hashlib
import io
import json
import os
import random
import resource
import shutil
import signal
import sqlite3
import struct
import subprocess
import sys
import time
import unittest
import zlib
from contextlib import closing
from fractions import Fraction
from unittest import mock

import cityseq
from cityseq.engine.records import id_of
from cityseq.indexes import builder
from cityseq.sources import regular

from . import support
from .support import HEADER, PLAIN, ROOT, InFolder, command, feature

TOWN, SAMPLE, BROKEN, DELIVERY = (
    f"{ROOT}/examples/{name}.city.jsonl" for name in ("town", "sample", "broken", "delivery")
)
NOBODY = 65_534  # a user that may do little
HOSTILE = [
    '<script>"',
    "\u0000",
    "a\u0000b",
    "\ud800",
    "\udfff\u0000",
    "\u202e",
    "",
    "a\\u0000b",
    "'; DROP TABLE features; --",
    "x" * 1_000_000,
    "\U0001f3e0",
    "\n",
    "x" * 1_024,
    "x" * 1_025,
]
COLUMNS = "stream, line, begin, length, id, id_exact, objects, geometries, types, lods, zmin, zmax"


def with_id(name):
    """A feature without vertices of any id, escaped as Python's JSON writer does."""
    told = {
        "type": "CityJSONFeature",
        "id": name,
        "CityObjects": {name: {"type": "Building"}},
        "vertices": [],
    }
    return json.dumps(told).encode() + b"\n"


def query(path, select, *given):
    """The rows of a query, of a database that is opened as any other."""
    with closing(sqlite3.connect(path)) as base:
        return base.execute(select, given).fetchall()


def rows_of(path):
    """The features of an index, streams and reports aside."""
    return query(path, f"SELECT {COLUMNS} FROM features ORDER BY fid")


def dump(path):
    """All that is in an index, but for times."""
    return [
        query(path, f"SELECT * FROM {table}")
        for table in (
            "features",
            "streams",
            "reports",
            "cityseq_index",
            "rtree_features_geom",
            "gpkg_extensions",
            "gpkg_geometry_columns",
            "gpkg_spatial_ref_sys",
        )
    ]


class Files(InFolder):
    """What is in the file."""

    def setUp(self):
        super().setUp()
        self.index = str(self.folder / "it.gpkg")

    def built(self, *texts, **options):
        """The index of these streams."""
        paths = [str(self.file(text, f"s{number}.city.jsonl")) for number, text in enumerate(texts)]
        cityseq.index(paths, self.index, **options)
        return paths

    def test_lines_are_where_it_says(self):
        results = cityseq.index([TOWN, SAMPLE], self.index)
        self.assertEqual(
            [(each.file, each.lines, each.features) for each in results],
            [(TOWN, 5, 4), (SAMPLE, 121, 120)],
        )
        texts = {number: open(path, "rb").read() for number, path in ((1, TOWN), (2, SAMPLE))}
        found = rows_of(self.index)
        self.assertEqual(
            [(row[0], row[1]) for row in found],
            [(1, n) for n in range(2, 6)] + [(2, n) for n in range(2, 122)],
        )
        for stream, line, begin, length, id, exact, objects, geometries, types, lods, _, _ in found:
            text = texts[stream]
            told = json.loads(text.split(b"\n")[line - 1])
            self.assertEqual(
                text[begin - 1 : begin] + text[begin + length : begin + length + 1], b"\n\n"
            )
            self.assertEqual(json.loads(text[begin : begin + length]), told)
            parts = told["CityObjects"].values()
            each = [one for part in parts for one in part.get("geometry", [])]
            self.assertEqual(
                (id, exact, objects, geometries), (told["id"], None, len(parts), len(each))
            )
            self.assertEqual(set(types.split(",")), {part["type"] for part in parts})

    def test_extents_are_rounded_outward(self):
        cityseq.index(SAMPLE, self.index)
        with open(SAMPLE, "rb") as file:
            transform = json.loads(file.readline(), parse_float=Fraction)["transform"]
            stream = [json.loads(line) for line in file]
        found = query(
            self.index,
            "SELECT geom, zmin, zmax, minx, maxx, miny, maxy FROM features"
            " JOIN rtree_features_geom r ON r.id = fid ORDER BY fid",
        )
        for told, (geometry, zmin, zmax, *tree) in zip(stream, found):
            xmin, xmax, ymin, ymax = support.box_of_polygon(geometry)
            axes = zip(zip(*told["vertices"]), transform["scale"], transform["translate"])
            wanted = [
                edge
                for values, scale, shift in axes
                for edge in (min(values) * scale + shift, max(values) * scale + shift)
            ]
            for low, exact, high in zip((xmin, ymin, zmin), wanted[::2], wanted[1::2]):
                self.assertLessEqual(Fraction(low), exact)
            edges = ((xmin, xmax, wanted[:2]), (ymin, ymax, wanted[2:4]), (zmin, zmax, wanted[4:]))
            for low, high, (least, most) in edges:
                self.assertTrue(Fraction(low) <= least and most <= Fraction(high))
                self.assertTrue(abs(low - float(least)) < 1e-9 and abs(high - float(most)) < 1e-9)
            self.assertTrue(
                tree[0] <= xmin and xmax <= tree[1] and tree[2] <= ymin and ymax <= tree[3]
            )

    def test_streams(self):
        cityseq.index(SAMPLE, self.index)
        (row,) = query(
            self.index,
            "SELECT path, path_exact, packing, size, mtime_ns, header_length, header_sha256,"
            " scale, translate, reference_system, lines, features, refused, first_fid FROM streams",
        )
        header, state = open(SAMPLE, "rb").readline(), os.stat(SAMPLE)
        self.assertEqual(
            row,
            (
                SAMPLE,
                None,
                None,
                state.st_size,
                state.st_mtime_ns,
                len(header),
                hashlib.sha256(header).hexdigest(),
                '["0.001", "0.001", "0.001"]',
                '["84616.468", "447422.999", "-0.452"]',
                "https://www.opengis.net/def/crs/EPSG/0/7415",
                121,
                120,
                0,
                1,
            ),
        )
        box = query(self.index, "SELECT xmin, ymin, xmax, ymax FROM streams")[0]
        info = [Fraction(edge) for edge in cityseq.info(SAMPLE, exact_lods=False).box.split(",")]
        for found, wanted in zip(box, info):
            self.assertAlmostEqual(found, float(wanted), 9)

    def test_the_system_of_coordinates(self):
        def systems(*names):
            told = json.loads(HEADER)
            headers = []
            for name in names:
                told["metadata"] = {"referenceSystem": name} if name else {}
                headers.append(json.dumps(told).encode() + b"\n" + feature("a"))
            self.built(*headers)
            return [
                row[0]
                for row in query(
                    self.index,
                    "SELECT srs_id FROM gpkg_geometry_columns UNION ALL"
                    " SELECT srs_id FROM gpkg_contents WHERE data_type = 'features' UNION ALL"
                    " SELECT DISTINCT substr(hex(geom), 9, 8) FROM features",
                )
            ]

        rd, utm = (f"https://www.opengis.net/def/crs/EPSG/0/{code}" for code in (7415, 32631))
        self.assertEqual(systems(rd), [7415, 7415, "F71C0000"])
        self.assertEqual(systems(rd, rd), [7415, 7415, "F71C0000"])
        self.assertEqual(systems("urn:ogc:def:crs:EPSG::4326"), [4326, 4326, "E6100000"])
        for others in (
            (None,),
            ("EPSG:7415",),
            (rd + "x",),
            (rd, utm),
            (rd, None),
            ("https://www.opengis.net/def/crs/OGC/0/CRS84",),
        ):
            self.assertEqual(systems(*others), [-1, -1, "FFFFFFFF"])
        self.assertEqual(query(self.index, "PRAGMA foreign_key_check"), [])

    def test_numbers_that_no_decimal_has(self):
        """Valid numbers, of which Python's decimals have no exponent."""
        for numbers, shift in (
            (("1e99999999999999999999", "-0.5e-99999999999999999999"), "10"),
            (("0", "0"), "0e99999999999999999999"),
            (("0", "0"), "-0.00E-99999999999999999999"),
        ):
            metadata = ',"metadata":{"x":[%s,%s]}}\n' % numbers
            header = HEADER[:-2] + metadata.encode()
            header = header.replace(b'"translate":[10', f'"translate":[{shift}'.encode())
            path = self.file(header + feature("a"))
            cityseq.index(path, self.index)
            left = 0 if "99" in shift else 10
            self.assertEqual(
                query(self.index, "SELECT xmin, xmax, ymin, ymax FROM streams"),
                [(left, left + 1, 20, 21)],
            )
            info = cityseq.info(path)
            self.assertEqual((info.translate[0], info.box), (left, f"{left},20,{left + 1},21"))
            output = io.BytesIO()
            with cityseq.Index(self.index) as index:
                index.filter(output, box=(left, 20, left + 1, 21))
            self.assertEqual(output.getvalue(), path.read_bytes())
            for words in (("info", "--json"), ("info",)):
                self.assertEqual(command(*words, str(path))[1:], ("", 0))

    def test_reference_systems_that_are_no_text(self):
        for spelling, wanted in (
            ("\\ud800", "\\ud800"),
            ("a\\u0000b", "a\\u0000b"),
            ("x\\ud83c\\udfe0", "x\U0001f3e0"),
        ):
            header = HEADER[:-2] + b',"metadata":{"referenceSystem":"%s"}}\n' % spelling.encode()
            self.built(header + feature("a"))
            found = query(self.index, "SELECT reference_system FROM streams")
            self.assertEqual(found, [(wanted,)])
            output, said, status = command("index", "--json", "--show", self.index)
            self.assertEqual((json.loads(output)["features"], said, status), (1, "", 0))

    def test_hostile_ids(self):
        names = HOSTILE + ["\u0000"]
        self.built(HEADER + b"".join(map(with_id, names)))
        found = [
            id_of(*row)
            for row in query(self.index, "SELECT id, id_exact FROM features ORDER BY fid")
        ]
        self.assertEqual(found, names)
        for (text,) in query(self.index, "SELECT id FROM features"):
            self.assertTrue("\0" not in text and len(text.encode()) <= 6 * 1_024)
        with cityseq.Index(self.index) as index:
            for number, name in enumerate(names):
                if "\n" in name or any("\ud800" <= sign <= "\udfff" for sign in name):
                    continue  # which no query can have
                with index.select(ids=[name]) as features:
                    lines = [each.line for each in features]
                self.assertEqual(lines, [n + 2 for n, other in enumerate(names) if other == name])

    def test_ids_that_come_twice(self):
        one = HEADER + with_id("a") + with_id("\ud800") + with_id("b") + with_id("a\u0000")
        other = (
            HEADER
            + with_id("a")
            + with_id("\ud800")
            + with_id("c")
            + with_id("a\\u0000")
            + with_id("a")
        )
        first, second = self.built(one, other)
        with cityseq.Index(self.index) as index:
            found = {each.id: each.places for each in index.repeated_ids()}
        self.assertEqual(
            found,
            {"a": ((first, 2), (second, 2), (second, 6)), "\ud800": ((first, 3), (second, 3))},
        )

    def test_no_vertices_no_place(self):
        self.built(HEADER + PLAIN + feature("a"))
        self.assertEqual(
            query(self.index, "SELECT id, geom IS NULL, zmin IS NULL FROM features"),
            [("b", 1, 1), ("a", 0, 0)],
        )
        self.assertEqual(query(self.index, "SELECT id FROM rtree_features_geom"), [(2,)])

    def test_a_transform_that_no_box_takes(self):
        header = HEADER.replace(b"[0.001,0.001,0.001]", b"[1e-19,0.001,0.001]")
        self.built(header + feature("a"))
        self.assertEqual(
            query(self.index, "SELECT id, geom IS NULL, zmin FROM features"), [("a", 1, 0.0)]
        )

    def test_a_stream_without_features(self):
        self.built(HEADER, HEADER[:-1], HEADER + b"\n \n")
        self.assertEqual(
            query(self.index, "SELECT lines, features FROM streams"), [(1, 0), (1, 0), (3, 0)]
        )
        self.assertEqual(query(self.index, "SELECT rtreecheck('rtree_features_geom')"), [("ok",)])

    def test_threads_and_parts_change_nothing(self):
        texts = [
            HEADER + b"".join(feature(f"{n}-{i}", x=i) + b"\n" * (i % 3 == 0) for i in range(200))
            for n in range(3)
        ]
        self.built(*texts, jobs=1)
        wanted = dump(self.index)
        for jobs, size in ((1, 700), (3, None), (3, 1), (4, 5_000)):
            self.built(*texts, jobs=jobs, part_size=size)
            self.assertEqual(dump(self.index)[0], wanted[0])

    def test_packed_streams(self):
        text = HEADER + b"".join(feature(f"b{i}", x=i) for i in range(300))
        plain, packed = str(self.file(text)), str(self.file(text, "packed.city.jsonl.gz"))
        for paths in ([packed], [packed, plain], [plain, packed]):
            cityseq.index(paths, self.index, part_size=4_000)
            for number in range(1, len(paths) + 1):
                found = query(
                    self.index, "SELECT begin, length FROM features WHERE stream = ?", number
                )
                lines = b"".join(text[begin : begin + length] + b"\n" for begin, length in found)
                self.assertEqual(HEADER + lines, text)
        self.assertEqual(query(self.index, "SELECT packing FROM streams"), [(None,), ("gzip",)])

    def test_invalid_lines_are_listed(self):
        long = PLAIN[:-1] + b" " * 3_000 + b"\n"
        text = (
            HEADER
            + feature("a")
            + long
            + feature("b", last=9)
            + b"\n"
            + feature("c")
            + long
            + feature("d")
        )
        for path in (self.file(text), self.file(text, "it.city.jsonl.gz")):
            for size in (None, 1, 400):
                (result,) = cityseq.index(
                    path, self.index, keep_going=True, line_limit=2_000, part_size=size
                )
                self.assertEqual((result.status, result.features, result.refused), (1, 3, 3))
                rows = query(self.index, "SELECT begin, length, line FROM features")
                self.assertEqual(
                    [text[begin : begin + length] + b"\n" for begin, length, _ in rows],
                    [feature(name) for name in "acd"],
                )
                self.assertEqual([line for *_, line in rows], [2, 6, 8])
                self.assertEqual(
                    query(self.index, "SELECT stream, line, code, id FROM reports"),
                    [(1, 3, 2, "b"), (1, 4, 25, "b"), (1, 7, 2, "b")],
                )

    def test_random_streams(self):
        for seed in range(60):
            text = support.stream_by_chance(seed)
            path = str(self.file(text))
            wanted, fault = [], None
            try:
                for each in cityseq.features(path, keep_going=True, line_limit=1_000):
                    wanted.append((each.line, each.bytes, each.id))
            except cityseq.InvalidStream as raised:
                fault = raised
            with self.subTest(seed=seed):
                try:
                    cityseq.index(
                        path, self.index, keep_going=True, line_limit=1_000, part_size=500
                    )
                except cityseq.InvalidStream:
                    self.assertIsNotNone(fault)
                    continue
                found = query(self.index, "SELECT line, begin, length, id, id_exact FROM features")
                self.assertEqual(
                    [
                        (line, text[begin : begin + length], id_of(id, exact))
                        for line, begin, length, id, exact in found
                    ],
                    wanted,
                )

    def test_an_index_that_moves_with_its_streams(self):
        folder = self.folder / "one"
        (folder / "below").mkdir(parents=True)
        shutil.copy2(SAMPLE, folder / "below" / "s.city.jsonl")
        cityseq.index(folder / "below" / "s.city.jsonl", folder / "it.gpkg")
        os.rename(folder, self.folder / "two")
        with cityseq.Index(self.folder / "two" / "it.gpkg") as index:
            self.assertEqual(index.streams[0].told_path, "below/s.city.jsonl")
            with index.select() as features:
                self.assertEqual(sum(1 for _ in features), 120)

    def test_a_name_that_is_no_text(self):
        path = os.fsencode(self.folder) + b"/\xff\n.city.jsonl"
        with open(path, "wb") as file:
            file.write(HEADER + PLAIN)
        cityseq.index(os.fsdecode(path), self.index)
        with cityseq.Index(self.index) as index:
            self.assertEqual(os.fsencode(index.streams[0].path), os.path.realpath(path))
            self.assertIn("\\udcff\\u000a.city.jsonl lines 2", index.show())


class Refreshed(InFolder):
    """Streams whose time has changed, and that of an index."""

    def setUp(self):
        super().setUp()
        self.index = self.folder / "it.gpkg"
        self.texts = [HEADER + feature(name) for name in "ab"]
        self.paths = [self.file(text, f"{n}.jsonl") for n, text in enumerate(self.texts)]
        cityseq.index(self.paths, self.index)

    def copied(self, path, text, shift=1_000_000_000):
        """Writes a file anew, with another time."""
        time_before = path.stat().st_mtime_ns
        path.write_bytes(text)
        os.utime(path, ns=(0, time_before + shift))

    def cut(self):
        output = io.BytesIO()
        with cityseq.Index(self.index) as index:
            index.filter(output)
        return output.getvalue()

    def test_the_same_content_gets_its_new_time(self):
        wanted, before = self.cut(), dump(self.index)
        refresh = ("index", "--refresh", str(self.index))
        self.assertEqual(command(*refresh), (b"streams 2 refreshed 0\n", "", 0))
        self.copied(self.paths[0], self.texts[0], -1_000_000_000)
        self.copied(self.paths[1], self.texts[1])
        with self.assertRaises(cityseq.OutOfDate):
            self.cut()
        self.assertEqual(command(*refresh), (b"streams 2 refreshed 2\n", "", 0))
        self.assertEqual(self.cut(), wanted)
        times = [(path.stat().st_mtime_ns,) for path in self.paths]
        self.assertEqual(query(self.index, "SELECT mtime_ns FROM streams"), times)
        for one, other in zip(before, dump(self.index)):
            if one != before[1]:
                self.assertEqual(one, other)

    def test_other_content_writes_nothing(self):
        self.copied(self.paths[0], self.texts[0])
        for text, words in (
            (self.texts[1].replace(b"1000", b"1001"), "other content"),
            (self.texts[1] + b"\n", "longer"),
            (self.texts[1][:-1], "shorter"),
        ):
            self.copied(self.paths[1], text)
            before = self.index.read_bytes()
            output, said, status = command("index", "--refresh", str(self.index))
            told = f"{self.paths[1]}: index is out of date: the stream"
            self.assertEqual((output, status), (b"", 3))
            self.assertTrue(said.startswith(told) and words in said, said)
            self.assertEqual(self.index.read_bytes(), before)
        self.paths[1].unlink()
        output, said, status = command("index", "--refresh", str(self.index))
        self.assertEqual((output, status), (b"", 3))
        self.assertIn("No such file", said)

    def test_an_index_that_another_program_changed(self):
        with closing(sqlite3.connect(self.index)) as base:
            base.execute("UPDATE streams SET reference_system = 'other' WHERE fid = 1")
            base.commit()
        self.copied(self.paths[0], self.texts[0])
        before = self.index.read_bytes()
        output, said, status = command("index", "--refresh", str(self.index))
        self.assertEqual((output, status), (b"", 3))
        self.assertIn("the index was changed", said)
        self.assertEqual(self.index.read_bytes(), before)

    def test_the_hash(self):
        """The BLAKE2b of the CRC-32s of all blocks, whoever reads them."""
        from cityseq.sources.regular import digest_of

        lines = [feature(f"b{number}") for number in range(2_000)]
        for name, text in (
            ("blank", HEADER + b"\n" * 300_000 + feature("c")),
            ("many", HEADER + b"".join(lines)),
            ("long", HEADER + with_id("x" * 200_000) + b"".join(lines) + with_id("y" * 300_000)),
            ("open", HEADER + b"".join(lines) + PLAIN.rstrip(b"\n")),
            ("header", HEADER),
            ("open header", HEADER.rstrip(b"\n")),
            ("packed", gzip.compress(HEADER + b"".join(lines))),
        ):
            path = self.file(text, f"{name}.jsonl")
            blocks = [text[at : at + 65_536] for at in range(0, len(text), 65_536)]
            sums = b"".join(struct.pack("<I", zlib.crc32(block)) for block in blocks)
            wanted = hashlib.blake2b(sums, digest_size=16).hexdigest()
            self.assertEqual(digest_of(path).content, wanted)
            for size in (None, 1_000, 70_000, 10**6):
                with self.subTest(name=name, size=size):
                    cityseq.index(path, self.index, part_size=size)
                    found = query(self.index, "SELECT content FROM streams")
                    self.assertEqual(found, [(wanted,)])

    def test_the_judging_threads_hash(self):
        """They have nearly all blocks at hand. Only the others are read again."""
        from cityseq.indexes import index_run

        lines = [feature(f"b{number}") for number in range(20_000)]
        path, read = self.file(HEADER + b"".join(lines), "many.jsonl"), []
        read_own = regular.RegularFile.read_own

        def noted(file, begin, end):
            read.append(end - begin)
            return read_own(file, begin, end)

        with mock.patch.object(regular.RegularFile, "read_own", noted), mock.patch.object(
            index_run.Hashes, "submit", side_effect=AssertionError
        ):
            cityseq.index(path, self.index)
        self.assertLess(sum(read), path.stat().st_size / 4)

    def test_a_stream_that_changes_while_it_is_hashed(self):
        from cityseq.indexes import index_run
        from cityseq.sources import regular

        before = self.index.read_bytes()
        content, path = regular.HashedFile.content, self.paths[0]

        def changed(file_of_stream):
            with open(path, "ab") as file:
                file.write(b"\n")
            return content(file_of_stream)

        packed = self.file(HEADER + PLAIN, "packed.jsonl.gz")
        told = mock.Mock()
        told.submit.return_value.result.return_value = regular.Digest("", (1, 2), (1, 3))
        with mock.patch.object(regular.HashedFile, "content", changed):
            self.refused_as_changed(path)
        with mock.patch.object(index_run, "Hashes") as made:
            made.return_value.__enter__.return_value = told
            self.refused_as_changed(packed)
        self.assertEqual(self.index.read_bytes(), before)

    def refused_as_changed(self, path):
        with self.assertRaises(cityseq.ReadFault) as caught:
            cityseq.index(path, self.index)
        self.assertIn("changed while it was read", str(caught.exception))

    def test_words(self):
        for words in (
            ("--refresh", str(self.index), str(self.paths[0])),
            ("--refresh", str(self.index), "--show", str(self.index)),
            ("--refresh", str(self.index), "--output", "x"),
            ("--refresh", str(self.index), "--json"),
        ):
            output, said, status = command("index", *words, cwd=self.folder)
            self.assertEqual((output, status, said.count("\n")), (b"", 2, 1))
            self.assertIn("--refresh", said)

    def test_folders_that_move_together(self):
        for name in ("one", "one/data", "one/idx", "far"):
            (self.folder / name).mkdir()
        near = self.file(self.texts[0], "one/data/a.jsonl")
        far = self.file(self.texts[1], "far/b.jsonl")
        cityseq.index([near, far], self.folder / "one/idx/it.gpkg")
        with cityseq.Index(self.folder / "one/idx/it.gpkg") as index:
            told = [stream.told_path for stream in index.streams]
        self.assertEqual(told, ["../data/a.jsonl", str(far.resolve())])
        os.rename(self.folder / "one", self.folder / "two")
        output = io.BytesIO()
        with cityseq.Index(self.folder / "two/idx/it.gpkg") as index:
            index.filter(output)
        self.assertEqual(output.getvalue(), self.texts[0] + feature("b"))

    def test_an_index_below_the_root(self):
        """Then all paths would be near."""
        self.assertEqual(builder._path_columns("/b/s.jsonl", "/a/it.gpkg"), ("/b/s.jsonl", None))
        self.assertEqual(builder._path_columns("/a/s.jsonl", "/a/it.gpkg"), ("s.jsonl", None))


class Trees(unittest.TestCase):
    """The spatial index, which is written at once, as SQLite itself checks it."""

    def test_any_number_of_features(self):
        from cityseq.indexes.bulk import Tree, cells_of, keys_of

        chance = random.Random(1)
        for count in (0, 1, 50, 51, 52, 103, 51 * 51, 51 * 51 + 1, 9_000):
            base = sqlite3.connect(":memory:")
            base.execute("CREATE VIRTUAL TABLE t USING rtree(id, minx, maxx, miny, maxy)")
            boxes = []
            for number in range(1, count + 1):
                x, y = (
                    chance.choice((-1, 1)) * chance.random() * 10 ** chance.randrange(-20, 37)
                    for _ in "xy"
                )
                boxes.append((number, x, x + abs(x) * chance.random(), y, y + chance.random()))
            numbers, *edges = [list(column) for column in zip(*boxes)] or [[]] * 5
            keys = keys_of(edges[0], edges[2])
            rows = [
                struct.pack(">Q", key) + cell
                for key, cell in sorted(zip(keys, cells_of(numbers, *edges)))
            ]
            pieces = (b"".join(rows[at : at + 70]) for at in range(0, count, 70))
            Tree(base, "t").write(pieces, count, count + 5)
            with self.subTest(count=count):
                self.assertEqual(base.execute("SELECT rtreecheck('t')").fetchall(), [("ok",)])
                self.assertEqual(base.execute("SELECT count(*) FROM t").fetchone(), (count,))
                for number, xmin, xmax, ymin, ymax in boxes[::37]:
                    found = base.execute(
                        "SELECT id FROM t"
                        " WHERE minx <= ? AND maxx >= ? AND miny <= ? AND maxy >= ?",
                        (xmin, xmax, ymin, ymax),
                    ).fetchall()
                    self.assertIn((number,), found)
                base.execute("INSERT INTO t VALUES (?, 1, 2, 3, 4)", (count + 1,))
                base.execute("DELETE FROM t WHERE id = 1")
                self.assertEqual(base.execute("SELECT rtreecheck('t')").fetchall(), [("ok",)])

    def test_keys(self):
        """The bits of both numbers as 32-bit floats, in the order of the floats, in turn."""
        from cityseq.indexes.bulk import keys_of

        def ordered(number):
            (bits,) = struct.unpack(">I", struct.pack(">f", number))
            return (bits ^ 0xFFFFFFFF if bits >> 31 else bits | 0x80000000) >> 8

        chance = random.Random(4)
        numbers = [0.0, -0.0, 1e-45, -1.0] + [
            chance.choice((-1, 1)) * chance.random() * 10 ** chance.randrange(-40, 37)
            for _ in range(200)
        ]
        others = numbers[::-1]
        wanted = [
            int("".join(b + a for a, b in zip(f"{ordered(x):024b}", f"{ordered(y):024b}")), 2)
            for x, y in zip(numbers, others)
        ]
        self.assertEqual(list(keys_of(numbers, others)), wanted)
        self.assertEqual(list(keys_of([], [])), [])

    def test_rounding_is_outward(self):
        from cityseq.engine.world import ceiling_of, floor_of

        chance = random.Random(2)
        for _ in range(5_000):
            count = chance.choice((-1, 1)) * chance.randrange(10 ** chance.randrange(1, 60))
            unit = 10 ** chance.randrange(19)
            low, high = floor_of(count, unit), ceiling_of(count, unit)
            exact = Fraction(count, unit)
            self.assertTrue(Fraction(low) <= exact <= Fraction(high))
            nearest = float(exact)
            self.assertTrue(
                nearest in (low, high) and (low == high) == (Fraction(nearest) == exact)
            )
        self.assertEqual([str(end(0, 1_000)) for end in (floor_of, ceiling_of)], ["0.0", "0.0"])

    def test_intervals_are_rounded_outward(self):
        from cityseq.engine.world import Axis, ceiling_of, floor_of

        chance = random.Random(3)
        for _ in range(5_000):
            scale, shift, *ends = (
                chance.choice((-1, 1)) * chance.randrange(10 ** chance.randrange(1, 37))
                for _ in range(4)
            )
            found = Axis(scale, shift).interval(min(ends), max(ends))
            exact = [end * scale + shift for end in ends]
            self.assertEqual(
                found, (floor_of(min(exact), 10**18), ceiling_of(max(exact), 10**18))
            )

    def test_columns_are_rounded_as_each_number_is(self):
        from cityseq.engine.world import ceiling_of, ceilings_of, floor_of, floors_of

        chance = random.Random(5)
        for _ in range(3_000):
            unit = chance.choice((1_000, 10 ** chance.randrange(19), chance.randrange(1, 10**18)))
            least = chance.choice((-1, 1)) * chance.randrange(10 ** chance.randrange(1, 40))
            # near each other, around a power of two, or far from each other
            least = chance.choice((least, least, unit << chance.randrange(60)))
            width = chance.choice((1, 3, abs(least) + 1))
            counts = [least + chance.randrange(-width, width) for _ in range(chance.randrange(4))]
            self.assertEqual(floors_of(counts, unit), [floor_of(each, unit) for each in counts])
            self.assertEqual(ceilings_of(counts, unit), [ceiling_of(each, unit) for each in counts])


class BadInput(InFolder):
    """Nothing is left in half, and the old index stays."""

    def setUp(self):
        super().setUp()
        self.index = self.folder / "it.gpkg"

    def refused(self, kind, words, paths, output=None, **options):
        before = self.index.read_bytes() if self.index.exists() else None
        with self.assertRaises(kind) as caught:
            cityseq.index(paths, output or self.index, **options)
        self.assertIn(words, str(caught.exception))
        self.assertEqual(self.index.read_bytes() if self.index.exists() else None, before)
        self.assertEqual(support.unfinished(self.folder), [])

    def test_invalid_streams(self):
        for _ in range(2):
            for options in ({}, {"jobs": 1}, {"part_size": 100}):
                self.refused(
                    cityseq.InvalidStream, "line 3, byte 144: 25", [TOWN, BROKEN, SAMPLE], **options
                )
                self.refused(
                    cityseq.InvalidStream, "line 1, byte", self.file(PLAIN), keep_going=True
                )
            cityseq.index(TOWN, self.index)

    def test_what_cannot_be_indexed(self):
        cityseq.index(TOWN, self.index)
        fifo = self.folder / "fifo"
        os.mkfifo(fifo)
        for paths in (
            "-",
            [],
            b"bytes",
            [TOWN, b"x"],
            TOWN.encode(),
            fifo,
            "/dev/null",
            [TOWN, TOWN],
        ):
            self.refused(cityseq.RequestError, "", paths)
        self.refused(cityseq.RequestError, "the output is a file that is read", self.index)
        self.refused(cityseq.RequestError, "jobs", TOWN, jobs=0)
        self.refused(cityseq.RequestError, "path", TOWN, output="-")
        self.refused(cityseq.ReadFault, "No such file", [TOWN, "no such file"])
        self.refused(cityseq.ReadFault, "Is a directory", self.folder)

    def test_outputs_that_cannot_be_written(self):
        self.refused(
            cityseq.WriteFault, "No such file", TOWN, output=self.folder / "no" / "it.gpkg"
        )
        self.refused(cityseq.WriteFault, "Is a directory", TOWN, output=self.folder)
        self.refused(cityseq.WriteFault, "regular file", TOWN, output="/dev/full")

    def test_a_full_disk(self):
        cityseq.index(TOWN, self.index)
        before = self.index.read_bytes()

        def limit():
            signal.signal(signal.SIGXFSZ, signal.SIG_IGN)
            resource.setrlimit(resource.RLIMIT_FSIZE, (1 << 20, 1 << 20))

        for count in (5_000, 90_000):  # which fails at the end, and before
            path = str(self.file(HEADER + b"".join(feature(f"b{i}") for i in range(count))))
            _, said, status = command("index", "--output", str(self.index), path, preexec_fn=limit)
            self.assertEqual((status, said.count("\n")), (4, 1))
            self.assertIn(f"{self.index}: write fault: ", said)
            self.assertEqual(self.index.read_bytes(), before)
            self.assertEqual(sorted(os.listdir(self.folder)), ["it.gpkg", "stream.city.jsonl"])

    def test_an_interrupt(self):
        cityseq.index(TOWN, self.index)
        before = self.index.read_bytes()
        text = HEADER + b"".join(feature(f"b{i}") for i in range(1_000)) * 100
        words = [
            sys.executable,
            "-m",
            "cityseq",
            "index",
            "--output",
            str(self.index),
            str(self.file(text)),
        ]
        for number, said in (
            (signal.SIGINT, "interrupted\n"),
            (signal.SIGTERM, "stopped by SIGTERM\n"),
        ):
            child = subprocess.Popen(
                words,
                stderr=subprocess.PIPE,
                stdout=subprocess.PIPE,
                env={**os.environ, "PYTHONPATH": f"{ROOT}/python"},
                preexec_fn=support.heed_interrupts,
            )
            while child.poll() is None and not any(
                (self.folder / name).stat().st_size > 100_000
                for name in support.unfinished(self.folder)
            ):
                time.sleep(0.005)
            child.send_signal(number)
            output, found = child.communicate(timeout=30)
            self.assertEqual((output, found.decode(), child.returncode), (b"", said, 128 + number))
            self.assertEqual(self.index.read_bytes(), before)
            self.assertEqual(sorted(os.listdir(self.folder)), ["it.gpkg", "stream.city.jsonl"])

    def test_an_interrupt_of_the_opening(self):
        """No file is there before what removes it is in place."""
        path, good = str(self.folder / "new.gpkg"), self.file(HEADER + feature("a"), "good.jsonl")
        before = sorted(os.listdir(self.folder))
        builder.Builder(path)
        self.assertEqual(sorted(os.listdir(self.folder)), before)

        def interrupted(*_):
            self.assertEqual(len(support.unfinished(self.folder)), 1)
            raise KeyboardInterrupt

        with mock.patch.object(builder.geopackage, "create", interrupted):
            with self.assertRaises(KeyboardInterrupt):
                cityseq.index(good, path)
        self.assertEqual(sorted(os.listdir(self.folder)), before)

    def test_a_part_of_another_run(self):
        """It is neither read nor written, and no link of that name is followed."""
        path, good = str(self.folder / "new.gpkg"), self.file(HEADER + feature("a"), "good.jsonl")
        theirs = self.file(b"theirs", "theirs")
        os.symlink(theirs, f"{path}.part")
        cityseq.index(good, path)
        self.assertEqual((theirs.read_bytes(), os.path.islink(f"{path}.part")), (b"theirs", True))
        self.assertFalse(os.path.islink(path))

    def test_what_is_no_index(self):
        no_database, database, empty = (
            str(self.folder / name) for name in ("text", "base", "empty")
        )
        self.file(b"text", "text")
        self.file(b"", "empty")
        with closing(sqlite3.connect(database)) as base:
            base.execute("CREATE TABLE streams (fid)")
        for path, words in (
            (no_database, "no index of cityseq"),
            (empty, "no index of cityseq"),
            (database, "no index of cityseq"),
            (str(self.folder), "Is a directory"),
            ("no such file", "No such file"),
        ):
            with self.assertRaises(cityseq.ReadFault) as caught:
                cityseq.Index(path)
            self.assertIn(words, str(caught.exception))
            output, said, status = command("filter", "--index", path)
            self.assertEqual((output, status, said.count("\n")), (b"", 3, 1))
            self.assertIn(words, said)

    def test_another_version(self):
        cityseq.index(TOWN, self.index)
        with closing(sqlite3.connect(self.index)) as base:
            base.execute("UPDATE cityseq_index SET version = 1")
            base.commit()
        with self.assertRaises(cityseq.ReadFault) as caught:
            cityseq.Index(self.index)
        self.assertIn(
            "it is an index of version 1, and not of version 5: build it again",
            str(caught.exception),
        )

    def test_a_file_that_is_cut_short(self):
        cityseq.index(SAMPLE, self.index)
        whole = self.index.read_bytes()
        for size in (20, 4_096, 40_960, len(whole) - 4_096):
            self.index.write_bytes(whole[:size])
            with self.assertRaises(cityseq.ReadFault):
                with cityseq.Index(self.index) as index:
                    index.show()
                    with index.select() as features:
                        list(features)

    def test_no_rights(self):
        def as_nobody():
            if os.geteuid() == 0:
                os.setuid(NOBODY)

        self.folder.chmod(0o755)
        stream = self.file(HEADER + PLAIN)
        if command("check", str(stream), preexec_fn=as_nobody)[2] != 0:
            self.skipTest("nobody may not read this package")
        cityseq.index(stream, self.index)
        before = self.index.read_bytes()
        self.index.chmod(0)
        self.folder.chmod(0o555)
        self.addCleanup(self.folder.chmod, 0o755)
        for words, status, fault in (
            (("filter", "--index", str(self.index)), 3, "read fault: Permission denied"),
            (("index", "--show", str(self.index)), 3, "read fault: Permission denied"),
            (
                ("index", "--output", str(self.index), str(stream)),
                4,
                "write fault: Permission denied",
            ),
        ):
            found = command(*words, preexec_fn=as_nobody)
            self.assertEqual(found, (b"", f"{self.index}: {fault}\n", status))
        self.index.chmod(0o644)
        self.assertEqual(self.index.read_bytes(), before)


if __name__ == "__main__":
    unittest.main()
