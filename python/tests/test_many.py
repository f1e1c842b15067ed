"""Indexes of many features: sorted rows, columns by numpy, columns that rows lack, and hashes."""
import math
import random
import re
import sqlite3
import struct
import tempfile
import unittest
from contextlib import closing
from decimal import Decimal
from fractions import Fraction
from unittest import mock

import cityseq
from cityseq.engine import WriteFault
from cityseq.engine.records import RECORD, Records, id_of
from cityseq.engine.world import Axis, World, ceiling_of, floor_of
from cityseq.indexes import builder, bulk, candidates, geopackage
from cityseq.indexes.geopackage import UNIFORM, geometry_start

from .support import HEADER, InFolder, feature
from .test_index import dump, query, with_id

HAS_NUMPY = bulk.vectors_for(bulk.MANY) is not None
WITHOUT = "numpy is not there"


class Sorted(unittest.TestCase):
    """Rows come out as Python sorts them."""

    def rows(self, count, chance):
        """Rows by chance, some of which begin alike, and then ascend."""
        for number in range(count):
            key = chance.choice((0, chance.randrange(50), chance.getrandbits(64)))
            yield struct.pack(f">Q{bulk.CELL.size}s", key, struct.pack(">Q", number))

    def test_any_number_of_rows(self):
        chance = random.Random(1)
        for together in (1, 7, 4_096):
            for many in (2, 10**9):
                for count in (0, 1, 2, 63, 64, 65, 1_000):
                    rows = list(dict.fromkeys(self.rows(count, chance)))
                    with self.subTest(together=together, many=many, count=count):
                        self.assertEqual(self.sorted(rows, many, together), sorted(rows))

    def sorted(self, rows, many, together=7):
        """The rows, through blocks of 64 rows and pieces of 2. numpy sorts from so many on."""
        small = mock.patch.multiple(bulk, BLOCK=64, PIECE=2, TOGETHER=together)
        with small, mock.patch.object(bulk, "MANY", many), bulk.Sorter() as sorter:
            for begin in range(0, len(rows), 7):
                sorter.add(b"".join(rows[begin : begin + 7]))
            self.assertEqual(sorter.count, len(rows))
            found = b"".join(sorter.rows())
        return [found[at : at + bulk.ROW] for at in range(0, len(found), bulk.ROW)]

    def test_few_rows_need_no_file(self):
        with mock.patch.object(tempfile, "TemporaryFile", side_effect=AssertionError):
            one, other = b"a" * bulk.ROW, b"b" * bulk.ROW
            self.assertEqual(self.sorted([other, one], 10), [one, other])

    def test_a_full_folder(self):
        fault = OSError(28, "No space left on device")
        for broken in (
            mock.patch.object(tempfile, "TemporaryFile", side_effect=fault),
            mock.patch.object(bulk.Sorter, "_write", side_effect=fault),
        ):
            with broken, mock.patch.object(bulk, "BLOCK", 2), bulk.Sorter() as sorter:
                with self.assertRaises(WriteFault) as raised:
                    sorter.add(bytes(2 * bulk.ROW))
            self.assertEqual(raised.exception.file, tempfile.gettempdir())


@unittest.skipUnless(HAS_NUMPY, WITHOUT)
class Vectors(InFolder):
    """numpy makes what the plain functions make, bit by bit."""

    SCALES = (1, 10**15, -(10**15), 10**17 + 1, 7 * 10**20, 3)
    SHIFTS = (0, 84_616_468 * 10**15, -447_422_999 * 10**15, 10**35, 5)

    def made(self, count, reach, chance, share):
        """The records of features by chance: those of a share have vertices up to this size."""
        raw, flags = [], [chance.random() < share for _ in range(count)]
        for number, has_place in enumerate(flags):
            axes = []
            for _ in range(3):
                pair = sorted(chance.randrange(-reach, reach) for _ in range(2))
                axes += (1, *pair) if has_place else (0, 0, 0)
            spans = (30, 4, 60, 20)
            sets = (chance.randrange(3), 1, 1 << chance.randrange(9), chance.choice((4, 4, 6)))
            raw.append(RECORD.pack(number + 2, number * 301, 300, *spans, *sets, *axes))
        return Records(chance.randrange(1 << 40), b"".join(raw), [b"id"] * count)

    def told(self, made):
        """Columns, with each as a list."""
        return {
            name: list(value) if hasattr(value, "__next__") else value
            for name, value in made._asdict().items()
        }

    def test_the_columns_of_any_part(self):
        from cityseq.indexes import vectors

        chance = random.Random(1)
        for _ in range(400):
            count = chance.randrange(1, 30)
            share = chance.choice((0, 0.5, 1, 1))
            records = self.made(count, 10 ** chance.randrange(1, 19), chance, share)
            world = World([Decimal(1)] * 3, [Decimal()] * 3)
            world.x, world.y, world.z = (
                chance.choice(
                    (Axis(chance.choice(self.SCALES), chance.choice(self.SHIFTS)),) * 9 + (None,)
                )
                for _ in "xyz"
            )
            first = chance.randrange(1, 1 << 31)
            given = (records, 17, range(first, first + count), world, geometry_start(28992))
            plain, fast = bulk.columns_of(*given), vectors.columns_of(*given)
            self.assertEqual(self.told(plain), self.told(fast))

    def test_rounding(self):
        from cityseq.indexes.vectors import EXACT, _rounded, np

        chance = random.Random(2)
        for _ in range(3_000):
            unit = chance.choice((1, 1_000, 10 ** chance.randrange(16), chance.randrange(1, EXACT)))
            counts = [
                chance.choice((-1, 1)) * chance.randrange(2 ** chance.randrange(1, 53))
                for _ in range(5)
            ]
            floats = np.array(counts, "f8")
            below, above = (
                _rounded(floats, float(unit), way).tolist() for way in (-np.inf, np.inf)
            )
            self.assertEqual(below, [floor_of(count, unit) for count in counts])
            self.assertEqual(above, [ceiling_of(count, unit) for count in counts])
            for count, low, high in zip(counts, below, above):
                self.assertTrue(Fraction(low) <= Fraction(count, unit) <= Fraction(high))

    def test_an_index_with_and_without_numpy(self):
        text = HEADER + b"".join(
            feature(f"b{number}", x=number % 77) if number % 5 else with_id(f"c{number}")
            for number in range(2_000)
        )
        path = self.file(text, "s.city.jsonl")
        dumps = []
        for many in (1, 10**9):
            for block in (1 << 16, 100):
                index = str(self.folder / f"{many}-{block}.gpkg")
                with mock.patch.object(bulk, "MANY", many), mock.patch.object(bulk, "BLOCK", block):
                    cityseq.index(path, index)
                dumps.append((dump(index), query(index, "PRAGMA integrity_check")))
        self.assertEqual(len(dumps[0][0][0]), 2_000)
        for other in dumps[1:]:
            self.assertEqual(other, dumps[0])


class Uniform(InFolder):
    """Columns with one value in all rows take no bytes, wherever another value comes first."""

    def built(self, texts, size=300):
        """The rows of an index of streams, in parts of so many bytes, beside those of `features`,
        and the bytes of the index."""
        index = str(self.folder / "it.gpkg")
        paths = [str(self.file(text, f"s{number}.city.jsonl")) for number, text in enumerate(texts)]
        cityseq.index(paths, index, part_size=size)
        wanted = [
            (number, each.line, each.id, ",".join(each.types), each.lods)
            for number, path in enumerate(paths, 1)
            for each in cityseq.features(path)
        ]
        select = "SELECT stream, line, id, id_exact, types, lods FROM features ORDER BY fid"
        rows = [
            (stream, line, id_of(text, exact), types, lods)
            for stream, line, text, exact, types, lods in query(index, select)
        ]
        self.assertEqual([row[:4] for row in rows], [each[:4] for each in wanted])
        for row, each in zip(rows, wanted):
            classes = sorted({lod[0] for lod in each[4]})
            self.assertEqual(row[4], ",".join(classes))
        self.assertEqual(query(index, "PRAGMA integrity_check"), [("ok",)])
        return index, rows

    def test_another_value_at_any_place(self):
        usual = [feature(f"b{number}") for number in range(40)]
        for other in (
            feature("o", kind="Road"),
            feature("o", lod="1"),
            with_id("o"),
            with_id("\u0000").replace(b"\\u0000", b"o" * 1_100),
        ):
            for place in (0, 1, 20, 39, 40):
                lines = [*usual[:place], other, *usual[place:]]
                with self.subTest(other=other[:60], place=place):
                    index, _ = self.built([HEADER + b"".join(lines)])
                    with cityseq.Index(index) as opened:
                        with opened.select(types="Building") as features:
                            found = [each.id for each in features]
                    self.assertEqual(len(found), 41 - (b"Road" in other))

    def test_streams(self):
        one = HEADER + b"".join(feature(f"b{number}") for number in range(20))
        index, rows = self.built([one, HEADER, one, one + feature("c", kind="Road")])
        self.assertEqual([row[0] for row in rows], [1] * 20 + [3] * 20 + [4] * 21)
        with cityseq.Index(index) as opened, opened.select(types="Road") as features:
            self.assertEqual([each.id for each in features], ["c"])

    def test_no_features(self):
        index, rows = self.built([HEADER])
        self.assertEqual(rows, [])
        names = {row[1] for row in query(index, "PRAGMA table_info(features)")}
        self.assertTrue(names.issuperset(UNIFORM))

    def test_they_take_no_bytes(self):
        """Not even where ids have escapes."""

        def size(*kinds):
            lines = [
                feature(f"b\\u00{2 + number % 6}1{number:05}", kind=kinds[number % len(kinds)])
                for number in range(20_000)
            ]
            index, _ = self.built([HEADER + b"".join(lines)], size=100_000)
            (pages,) = query(index, "PRAGMA page_count")[0]
            return pages * builder.PAGE / len(lines)

        same, mixed = size("Building"), size("Building", "SolitaryVegetationObject")
        self.assertGreater(mixed - same, 15)  # half of the names, and five bytes

    def high(self, heights, shift=b"0"):
        """An index of features with these heights, as counts of millimetres above a shift."""
        lines = [
            re.sub(rb",[05]\]", b",%d]" % height, feature(f"b{number}"))
            for number, height in enumerate(heights)
        ]
        header = HEADER.replace(b"[10,20,0]", b"[10,20,%s]" % shift)
        return self.built([header + b"".join(lines)], size=4_000)[0]

    def test_heights(self):
        """They are the doubles next to the exact heights, whether rows have them or not."""
        chance = random.Random(5)
        for _ in range(25):
            shift = f"{chance.uniform(-999, 999):.{chance.randrange(9)}f}"
            heights = [chance.randrange(-9_999, 9_999)] * chance.randrange(1, 40)
            heights += heights[:1] if chance.random() < 0.5 else [4]
            index = self.high(heights, shift.encode())
            wanted = []
            for height in heights:
                exact = Fraction(shift) + Fraction(height, 1_000)
                near = float(exact)
                low = near if near <= exact else math.nextafter(near, -math.inf)
                high = near if near >= exact else math.nextafter(near, math.inf)
                wanted.append((low, high, "real", "real"))
            select = "SELECT zmin, zmax, typeof(zmin), typeof(zmax) FROM features ORDER BY fid"
            self.assertEqual(query(index, select), wanted)

    def test_equal_heights_take_no_bytes(self):
        def size(heights):
            (pages,) = query(self.high(heights), "PRAGMA page_count")[0]
            return pages * builder.PAGE / len(heights)

        flat, hilly = [7] * 10_000, [*range(7, 10_007)]
        self.assertGreater(size(hilly) - size(flat), 17)  # two doubles, and a byte for each

    def test_heights_that_a_default_may_change(self):
        """SQLite reads the text of some floats as another one."""
        chance = random.Random(6)
        numbers = [struct.unpack("<d", chance.randbytes(8))[0] for _ in range(2_000)]
        numbers += [0.0, -0.0, 5.0, -0.452, 1e300, math.inf, -math.inf, math.nan]
        kept = 0
        with closing(sqlite3.connect(":memory:")) as base:
            for number in numbers:
                default = geopackage.as_default(base, number)
                if default is None:
                    continue
                kept += 1
                base.execute("CREATE TABLE features (fid INTEGER)")
                base.execute("INSERT INTO features VALUES (1)")
                geopackage.add_columns(base, 0, 1, (default,))
                self.assertEqual(base.execute("SELECT zmin FROM features").fetchone(), (number,))
                base.execute("DROP TABLE features")
            self.assertIsNone(geopackage.as_default(base, None))
            self.assertIsNone(geopackage.as_default(base, math.inf))
        self.assertGreater(kept, 1_900)

    def test_another_program_adds_a_row(self):
        """A row that it adds has the defaults, and the index notes that it was changed."""
        index, _ = self.built([HEADER + feature("a") + feature("b")])
        with closing(sqlite3.connect(index)) as base:
            for name in ("IsEmpty", "MinX", "MaxX", "MinY", "MaxY"):  # which triggers call
                base.create_function(f"ST_{name}", 1, lambda geometry: 1)
            base.execute("INSERT INTO features (line, begin, length, id) VALUES (9, 1, 1, 'x')")
            base.commit()
        self.assertEqual(query(index, "SELECT types FROM features WHERE id = 'x'"), [("Building",)])
        with cityseq.Index(index) as opened:
            self.assertTrue(opened.is_changed)


class ManyIds(InFolder):
    """Features are found by their ids."""

    ALIKE = ("plumless", "buckeroo")

    def test_ids_that_are_repeated(self):
        names = ["a", *self.ALIKE, "b", self.ALIKE[0], "a"]
        path = self.file(HEADER + b"".join(map(feature, names)), "s.city.jsonl")
        index = str(self.folder / "it.gpkg")
        cityseq.index(path, index)
        with cityseq.Index(index) as opened:
            for name in ("a", *self.ALIKE, "b", "none"):
                with opened.select(ids=[name]) as features:
                    lines = [each.line for each in features]
                wanted = [line for line, other in enumerate(names, 2) if other == name]
                self.assertEqual(lines, wanted)
            found = [(each.id, [line for _, line in each.places]) for each in opened.repeated_ids()]
        self.assertEqual(found, [("a", [2, 7]), (self.ALIKE[0], [3, 6])])

    def test_how_ids_are_found(self):
        """SQLite searches the features by their ids, and reads no others."""
        path = self.file(HEADER + b"".join(map(feature, "abc")), "s.city.jsonl")
        index = str(self.folder / "it.gpkg")
        cityseq.index(path, index)
        with cityseq.Index(index) as opened, opened._base.reading():
            candidates.want(opened._base, b"a\nc")
            plan = opened._base.execute(f"EXPLAIN QUERY PLAN {candidates.WANTED}").fetchall()
            found = opened._base.execute(candidates.WANTED).fetchall()
        self.assertEqual(found, [(1,), (3,)])
        self.assertIn("SEARCH features USING INDEX features_id (id=?)", [row[3] for row in plan])

    def test_ids_by_chance(self):
        chance = random.Random(3)
        names = [f"i{chance.randrange(3_000)}" for _ in range(4_000)]
        path = self.file(HEADER + b"".join(map(feature, names)), "s.city.jsonl")
        index = str(self.folder / "it.gpkg")
        cityseq.index(path, index)
        wanted = {f"i{chance.randrange(3_500)}" for _ in range(500)}
        with cityseq.Index(index) as opened:
            with opened.select(ids=sorted(wanted)) as features:
                found = [(each.id, each.line) for each in features]
            twice = {each.id: len(each.places) for each in opened.repeated_ids()}
        self.assertEqual(
            found, [(name, line) for line, name in enumerate(names, 2) if name in wanted]
        )
        counts = {name: names.count(name) for name in names}
        self.assertEqual(twice, {name: count for name, count in counts.items() if count > 1})

    def test_without_the_index_of_ids(self):
        path = self.file(HEADER + b"".join(map(feature, "aba")), "s.city.jsonl")
        index = str(self.folder / "it.gpkg")
        cityseq.index(path, index)
        with closing(sqlite3.connect(index)) as base:
            base.execute("DROP INDEX features_id")
        with cityseq.Index(index) as opened:
            with opened.select(ids=["a"]) as features:
                self.assertEqual([each.line for each in features], [2, 4])
            self.assertEqual([each.id for each in opened.repeated_ids()], ["a"])
