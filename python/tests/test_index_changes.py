"""What changes while a cut reads it, or was changed since the index was built."""
import gzip
import importlib.util
import io
import json
import os
import shutil
import sqlite3
import subprocess
import unittest
from contextlib import closing
from unittest import mock

import cityseq
from cityseq.indexes import line_reader

from .support import HEADER, InFolder, command, feature
from .test_cut import DELIVERY, cut, filtered

OGRINFO = shutil.which("ogrinfo")
WORDS = "index is out of date: the index was changed, build it again"
GUARDED = [
    f"cityseq_{table}_{event}"
    for table in ("features", "streams")
    for event in ("insert", "update", "delete")
]


def changed(path, *statements, without=()):
    """Changes an index as a program without GeoPackage functions does. Drops triggers first, so
    that they do not note it."""
    with closing(sqlite3.connect(path)) as base:
        for name in without:
            base.execute(f"DROP TRIGGER {name}")
        for statement in statements:
            base.execute(statement)
        base.commit()


class Streams(InFolder):
    """Streams that change while they are read."""

    def setUp(self):
        super().setUp()
        self.index = self.folder / "it.gpkg"
        # far enough from each other that they are not read together
        self.text = HEADER + b"".join(
            feature(f"b{i}", "Road" if i in (0, 999) else "Building") for i in range(1_000)
        )

    def write_in_place(self, path):
        """Changes the last line of a file without a change of its size. It stays valid, if the file
        is not packed."""
        with open(path, "r+b") as file:
            text = file.read()
            file.seek(0)
            file.write(
                text[:-50].replace(b"b999", b"B999") + text[-50:].swapcase()
                if text.startswith(b"\x1f")
                else text.replace(b"b999", b"B999")
            )

    def interposed(self, path):
        """Makes the first line that is read change the file."""
        whole, left = line_reader.lines_of, [path]

        def lines_of(*given):
            for found in whole(*given):
                yield found
                while left:
                    self.write_in_place(left.pop())

        for module in ("cut", "lookup"):
            place = __import__(f"cityseq.indexes.{module}", fromlist=["lines_of"])
            self.addCleanup(setattr, place, "lines_of", whole)
            place.lines_of = lines_of

    def test_a_change_during_a_cut(self):
        for name in ("s.city.jsonl", "s.city.jsonl.gz"):
            path = self.file(self.text, name)
            cityseq.index(path, self.index)
            self.interposed(path)
            output = self.folder / "out"
            with cityseq.Index(self.index) as index, self.assertRaises(cityseq.ReadFault) as caught:
                index.filter(output, types="Road")
            self.assertIn(str(path), str(caught.exception))
            self.assertEqual(output.exists(), False)
            if name.endswith("jsonl"):
                self.assertEqual(
                    str(caught.exception), f"{path}: read fault: changed while it was read"
                )

    def test_a_change_after_the_last_line(self):
        path = self.file(self.text)
        cityseq.index(path, self.index)
        with cityseq.Index(self.index) as index:
            with self.assertRaisesRegex(cityseq.ReadFault, "changed while it was read"):
                with index.select(ids="b5") as features:
                    for each in features:
                        self.assertEqual(each.id, "b5")
                        self.write_in_place(path)

    def test_a_change_between_two_features(self):
        path = self.file(self.text)
        cityseq.index(path, self.index)
        with cityseq.Index(self.index) as index, index.select(types="Road") as features:
            next(features)
            os.utime(path, ns=(0, 0))
            with self.assertRaisesRegex(cityseq.ReadFault, "changed while it was read"):
                list(features)

    def test_an_index_in_use_while_its_pool_closes(self):
        """It can be used until the call ends, and is closed then. The others are closed at once."""
        from cityseq.indexes.index_pages import IndexPool

        cityseq.index(self.file(self.text), self.index)
        pool = IndexPool(str(self.index), None)
        with pool.index() as used:
            with pool.index() as free:
                self.assertIsNot(used, free)
            pool.close()
            with self.assertRaisesRegex(cityseq.ReadFault, "closed database"):
                list(free.repeated_ids())
            self.assertEqual(list(used.repeated_ids()), [])
        with self.assertRaisesRegex(cityseq.ReadFault, "closed database"):
            list(used.repeated_ids())
        with pool.index() as later:
            self.assertEqual(list(later.repeated_ids()), [])
        with self.assertRaisesRegex(cityseq.ReadFault, "closed database"):
            list(later.repeated_ids())

    @unittest.skipIf(importlib.util.find_spec("aiohttp") is None, "aiohttp is not there")
    def test_a_change_while_a_server_answers(self):
        from cityseq.indexes.index_pages import Page
        from cityseq.serve.context import Catalogue
        from cityseq.serve.items import find
        from cityseq.serve.settings import Settings

        path = self.file(self.text)
        cityseq.index(path, self.index)
        catalogue = Catalogue(Settings((str(self.index),)))
        (collection,) = catalogue
        with collection.pool.index() as index:
            page = Page(collection, index.work(), 0, 5)
        self.assertEqual(len(page.block().raws), 5)
        self.write_in_place(path)
        with self.assertRaisesRegex(cityseq.ReadFault, "changed while it was read"):
            page.block()
        catalogue.close()
        cityseq.index(path, self.index)
        whole = Page.block

        def block(page):
            found = whole(page)
            self.write_in_place(path)
            return found

        catalogue = Catalogue(Settings((str(self.index),)))
        (collection,) = catalogue
        with mock.patch.object(Page, "block", block):
            with self.assertRaisesRegex(cityseq.ReadFault, "changed while it was read"):
                find(collection, "b5")
        catalogue.close()

    def test_a_packed_stream_that_rotted(self):
        # some MB, since the end of a shorter file is read with its beginning
        lines = [feature(f"b{i}")[:-1] + b" " * 30_000 + b"\n" for i in range(100)]
        whole = gzip.compress(HEADER + b"".join(lines), 0)  # stored, and so readable
        for name, rotten in (("b7", "B7"), ("b99", "B99")):
            path = self.folder / "s.city.jsonl.gz"
            path.write_bytes(whole)
            cityseq.index(path, self.index)
            state = os.stat(path)
            path.write_bytes(whole.replace(f'"{name}"'.encode(), f'"{rotten}"'.encode()))
            os.utime(path, ns=(state.st_atime_ns, state.st_mtime_ns))
            self.assertEqual(os.stat(path).st_size, state.st_size)
            with cityseq.Index(self.index) as index:
                for query in ({"ids": "b0"}, {"types": "Building"}):
                    with self.assertRaisesRegex(cityseq.ReadFault, "archive is broken"):
                        index.filter(io.BytesIO(), **query)
                    with self.assertRaisesRegex(cityseq.ReadFault, "archive is broken"):
                        with index.select(**query) as features:
                            list(features)

    def test_blocks_of_a_packed_stream_have_checksums_of_their_own(self):
        text = HEADER + b"".join(feature(f"b{i}") for i in range(2_000))
        path = self.folder / "s.city.jsonl.gz"
        cityseq.filter(text, path)
        cityseq.index(path, self.index)
        state = os.stat(path)
        with open(path, "r+b") as file:
            file.seek(-60, os.SEEK_END)
            file.write(b"rotten")
        os.utime(path, ns=(state.st_atime_ns, state.st_mtime_ns))
        with cityseq.Index(self.index) as index:
            self.assertEqual(cut(index, ids="b3"), filtered(text, ids="b3"))
            with self.assertRaises(cityseq.ReadFault):
                index.filter(io.BytesIO(), ids="b1999")

    def test_a_header_that_takes_no_box(self):
        crooked = HEADER.replace(b"[10,20,0]", b"[1e-300,20,0]") + feature("a")
        flat = HEADER.replace(b"[0.001,0.001,0.001]", b"[0.001,0.001,1e-300]") + feature("b")
        empty = crooked[: -len(feature("a"))]
        for text, is_flat in ((crooked, False), (empty, False), (flat, True)):
            path = self.file(text)
            cityseq.index(path, self.index)
            with cityseq.Index(self.index) as index:
                for box in ("0,0,100,100", "-2,-2,-1,-1"):
                    wanted = filtered(path, box=box)
                    self.assertEqual(isinstance(wanted, str), not is_flat)
                    if is_flat:
                        with index.select(box=box) as features:
                            self.assertEqual(len(list(features)), wanted[3])
                        continue
                    self.assertIn("30 transform not fixed", wanted)
                    with self.assertRaises(cityseq.InvalidStream) as caught:
                        with index.select(box=box) as features:
                            list(features)
                    self.assertEqual(str(caught.exception), f"{path}: {wanted}")
                with index.select(types="Building") as features:
                    self.assertEqual(len(list(features)), index.streams[0].features)


class Bases(InFolder):
    """Streams of one index below a URL."""

    def test_two_streams_of_one_url(self):
        for folder in ("a", "b", "idx"):
            (self.folder / folder).mkdir()
        paths = [self.file(HEADER + feature(name), f"{name}/tile.jsonl") for name in "ab"]
        above, below = self.folder / "it.gpkg", self.folder / "idx" / "it.gpkg"
        for index in (above, below):
            cityseq.index(paths, index)
        with cityseq.Index(above, base="http://127.0.0.1:9/x") as index:
            self.assertEqual(len(index.streams), 2)  # at a/tile.jsonl and b/tile.jsonl
        with self.assertRaises(cityseq.RequestError) as caught:
            cityseq.Index(below, base="http://127.0.0.1:9/x")
        words = r"b/tile.jsonl: it has the same URL as \S+/a/tile.jsonl: "
        self.assertRegex(str(caught.exception), words)
        output, said, status = command("filter", "--index", below, "--base", "http://127.0.0.1:9/")
        self.assertEqual((output, status, said.count("\n")), (b"", 2, 1))
        with cityseq.Index(below) as index:
            self.assertEqual(cut(index)[0], HEADER + feature("a") + feature("b"))


class Ends(InFolder):
    """Last lines without LF, of several streams with one output."""

    def test_a_false_candidate_brings_no_lf(self):
        one, other, last = feature("a", lod="2.2")[:-1], feature("b", lod="2.1"), feature("c")
        paths = [
            self.file(HEADER + text, name)
            for name, text in (("A", one), ("B", other), ("C", last.replace(b"2.2", b"1.1")))
        ]
        for streams in (paths[:2], paths[::2], paths):
            cityseq.index(streams, self.folder / "it.gpkg")
            with cityseq.Index(self.folder / "it.gpkg") as index:
                self.assertEqual(cut(index, lods="2.2")[0], HEADER + one)
                self.assertEqual(
                    cut(index, lods="2.1")[0], HEADER + (other if paths[1] in streams else b"")
                )
        self.assertEqual(index.streams[0].features, 1)

    def test_an_lf_before_the_next_kept_line(self):
        lines = [feature("a", lod="2.2"), feature("b", lod="2.1"), feature("c", lod="2.2")]
        paths = [self.file(HEADER + line[:-1], f"s{number}") for number, line in enumerate(lines)]
        cityseq.index(paths, self.folder / "it.gpkg")
        with cityseq.Index(self.folder / "it.gpkg") as index:
            self.assertEqual(cut(index)[0], HEADER + b"".join(lines)[:-1])
            self.assertEqual(cut(index, lods="2.2")[0], HEADER + lines[0] + lines[2][:-1])
            self.assertEqual(cut(index, lods="2.1")[0], HEADER + lines[1][:-1])


class Indexes(InFolder):
    """Indexes that another program has changed."""

    def setUp(self):
        super().setUp()
        self.index = self.folder / "it.gpkg"
        self.paths = [
            self.file(HEADER + b"".join(feature(f"{name}{i}", x=i) for i in range(60)), name)
            for name in ("one", "two")
        ]
        self.built()

    def built(self):
        cityseq.index(self.paths, self.index)

    def refused(self, **query):
        output = self.folder / "out"
        for target in (io.BytesIO(), output):
            with self.assertRaises(cityseq.OutOfDate) as caught:
                with cityseq.Index(self.index) as index:
                    index.filter(target, **query)
        with self.assertRaises(cityseq.OutOfDate):
            with cityseq.Index(self.index) as index, index.select(**query) as features:
                list(features)
        self.assertFalse(output.exists())
        return str(caught.exception)

    def test_any_change_is_noted(self):
        for statement in (
            "DELETE FROM features WHERE fid = 5",
            "DELETE FROM features",
            "INSERT INTO features SELECT * FROM temp.copied",
            "INSERT INTO streams SELECT * FROM temp.more",
            "UPDATE streams SET reference_system = NULL",
            "UPDATE features SET stream = 2 WHERE fid = 2",
            "DELETE FROM rtree_features_geom",
            "DELETE FROM rtree_features_geom WHERE id = 3",
            "UPDATE rtree_features_geom_node SET data = zeroblob(length(data)) WHERE nodeno = 1",
        ):
            with self.subTest(statement):
                self.built()
                with closing(sqlite3.connect(self.index)) as base:
                    for name in ("IsEmpty", "MinX", "MaxX", "MinY", "MaxY"):
                        base.create_function(f"ST_{name}", 1, lambda _: 0)
                    base.executescript(
                        "CREATE TEMP TABLE more AS SELECT * FROM streams LIMIT 1;"
                        "UPDATE temp.more SET fid = 9, features = 0, first_fid = 121;"
                        "CREATE TEMP TABLE copied AS SELECT * FROM features LIMIT 1;"
                        "UPDATE temp.copied SET fid = 900, geom = NULL"
                    )
                    cursor = base.execute(statement)
                    base.commit()
                self.assertNotEqual(cursor.rowcount, 0)
                said = self.refused(box="0,0,99,99")
                self.assertEqual(said, f"{self.index}: {WORDS}")

    def test_a_program_without_its_functions_changes_nothing(self):
        """The triggers of the layer name functions of GeoPackage, so such a program fails."""
        with self.assertRaises(sqlite3.OperationalError):
            changed(self.index, "UPDATE features SET geom = NULL")
        with cityseq.Index(self.index) as index:
            self.assertFalse(index.is_changed)

    def test_the_builder_and_a_reader_note_nothing(self):
        with closing(sqlite3.connect(self.index)) as base:
            self.assertEqual(base.execute("SELECT changed FROM cityseq_index").fetchall(), [(0,)])
            names = {
                name
                for name, in base.execute("SELECT name FROM sqlite_master WHERE type = 'trigger'")
            }
        self.assertTrue(names.issuperset(GUARDED))
        with cityseq.Index(self.index) as index:
            self.assertEqual((index.is_changed, "changed" in index.show()), (False, False))

    def test_rows_that_no_trigger_noted(self):
        """A file from elsewhere may say anything, and still gives no other lines."""
        for statements in (
            ["DELETE FROM features WHERE fid = (SELECT max(fid) FROM features)"],
            ["UPDATE features SET stream = 0 WHERE fid = 2"],
            ["UPDATE features SET stream = 7 WHERE fid = 2"],
            ["UPDATE features SET stream = 1 WHERE stream = 2"],
            [
                "UPDATE features SET begin = (SELECT begin FROM features WHERE fid = 3),"
                " length = (SELECT length FROM features WHERE fid = 3) WHERE fid = 2"
            ],
            [
                "UPDATE features SET length = length + 1 +"
                " (SELECT length FROM features WHERE fid = 3) WHERE fid = 2"
            ],
            ["UPDATE streams SET features = features + 1"],
            ["UPDATE streams SET first_fid = 2 WHERE fid = 1"],
        ):
            with self.subTest(statements[0]):
                self.built()
                layer = [f"rtree_features_geom_{name}" for name in ("update3", "update4")]
                changed(self.index, *statements, without=[*GUARDED, *layer])
                with closing(sqlite3.connect(self.index)) as base:
                    for name in GUARDED:
                        base.execute(
                            f"CREATE TRIGGER {name} AFTER DELETE ON reports" " BEGIN SELECT 1; END"
                        )
                    base.commit()
                output, said, status = command(
                    "filter",
                    "--index",
                    str(self.index),
                    "--quiet",
                    "--output-dir",
                    str(self.folder / "out"),
                )
                self.assertEqual((output, status, said.count("\n")), (b"", 3, 1))
                self.assertIn("index is out of date", said)
                self.assertFalse((self.folder / "out").exists())

    def test_a_line_that_is_blank_now(self):
        text = HEADER + b"".join(feature(f"b{i}") for i in range(9))
        path = self.file(text)
        cityseq.index(path, self.index)
        state = os.stat(path)
        blank = b" " * (len(feature("b3")) - 1) + b"\n"
        path.write_bytes(text.replace(feature("b3"), blank))
        os.utime(path, ns=(state.st_atime_ns, state.st_mtime_ns))
        with cityseq.Index(self.index) as index:
            self.assertEqual(cut(index, ids="b4"), filtered(text, ids="b4"))
            with self.assertRaisesRegex(cityseq.OutOfDate, "the stream has other lines"):
                index.filter(io.BytesIO())

    def test_a_change_during_a_cut_by_a_map_program(self):
        """It uses a mode of the journal in which it need not wait for readers."""
        with closing(sqlite3.connect(self.index)) as base:
            base.execute("PRAGMA journal_mode = WAL")
        with cityseq.Index(self.index) as index, index.select(types="Building") as features:
            next(features)
            changed(self.index, "UPDATE cityseq_index SET changed = 1")
            with self.assertRaisesRegex(cityseq.OutOfDate, "the index was changed"):
                list(features)

    def test_without_the_triggers(self):
        changed(self.index, without=GUARDED[:1])
        self.assertIn(WORDS, self.refused())

    def test_show_tells_it(self):
        changed(self.index, "DELETE FROM features WHERE fid = 5")
        self.assertIn(WORDS, command("index", "--show", str(self.index))[0].decode().splitlines())

    @unittest.skipIf(OGRINFO is None, "ogrinfo is not there: gdal-bin")
    def test_ogrinfo_deletes_a_row(self):
        for statement in ("DELETE FROM features WHERE fid = 5", "DELETE FROM streams"):
            self.built()
            words = [OGRINFO, "-q", self.index, "-sql", statement]
            ran = subprocess.run(words, capture_output=True)
            self.assertEqual(ran.returncode, 0)
            output, said, status = command(
                "filter", "--index", str(self.index), "--output-dir", str(self.folder / "out")
            )
            self.assertEqual((output, status), (b"", 3))
            self.assertNotEqual(said, "")
        self.assertIn("it has no streams", said)


class LeftOut(InFolder):
    """What a cut says of invalid lines, and that it leaves nothing."""

    def setUp(self):
        super().setUp()
        self.index = str(self.folder / "it.gpkg")

    def test_invalid_lines_are_told(self):
        command("index", "--quiet", "--keep-going", "--output", self.index, DELIVERY)
        whole = command("filter", "--keep-going", "--quiet", DELIVERY)
        output, said, status = command("filter", "--index", self.index)
        self.assertEqual((output, status), (whole[0], whole[2]))
        words = f"5 invalid lines were left out: index --show {self.index}\n"
        self.assertTrue(said.endswith(f"/delivery.city.jsonl: {words}"), said)
        self.assertEqual(said.count("\n"), 1)
        self.assertEqual(command("filter", "--quiet", "--index", self.index), whole)
        shown = command("index", "--show", self.index)[0].decode()
        line = '    left out: line 3, byte 144: 25 vertex index out of range, feature "p2"\n'
        self.assertIn(line, shown)
        self.assertEqual(shown.count("left out"), 5)

    def test_the_options_are_those_of_the_index(self):
        command(
            "index",
            "--quiet",
            "--keep-going",
            "--tree",
            "--depth",
            "70",
            "--output",
            self.index,
            DELIVERY,
        )
        told = json.loads(
            command(
                "filter", "--json", "--index", self.index, "--output", str(self.folder / "out")
            )[0]
        )
        options = {name: told["options"][name] for name in ("keep_going", "tree", "depth")}
        self.assertEqual(
            (options, told["refused"], told["verdict"]),
            ({"keep_going": True, "tree": True, "depth": 70}, 5, "invalid"),
        )
        told = json.loads(command("index", "--show", self.index, "--json")[0])
        (stream,) = told["streams"]
        self.assertEqual((told["fault"], len(stream["reports"])), (None, 5))
        self.assertEqual(
            stream["reports"][0],
            {"line": 3, "byte": 144, "code": 25, "id": "p2", "text": "vertex index out of range"},
        )

    def test_a_later_stream_that_fails_leaves_no_output(self):
        text = HEADER + feature("a")
        paths = [self.file(text, f"{name}.jsonl") for name in "abc"]
        folder = self.folder / "new" / "cut"
        command("index", "--quiet", "--output", self.index, *map(str, paths))
        state = os.stat(paths[1])
        paths[1].write_bytes(text.replace(b"[10,20,0]", b"[10,20,1]"))
        os.utime(paths[1], ns=(state.st_atime_ns, state.st_mtime_ns))
        output, said, status = command("filter", "--index", self.index, "--output-dir", str(folder))
        self.assertEqual((output, status), (b"", 3))
        self.assertIn("another header", said)
        self.assertFalse((self.folder / "new").exists())
        folder.mkdir(parents=True)
        (folder / "a.jsonl").write_bytes(b"before")
        command("filter", "--index", self.index, "--output-dir", str(folder))
        self.assertEqual([path.read_bytes() for path in folder.iterdir()], [b"before"])


if __name__ == "__main__":
    unittest.main()
