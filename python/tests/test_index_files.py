"""Files of indexes: what a new one may replace, who may read one, and hostile ones."""
import io
import os
import signal
import sqlite3
import subprocess
import sys
import time
import unittest
from contextlib import closing
from unittest import mock

import cityseq
from cityseq.indexes import builder
from cityseq.indexes import database as replacement

from . import serving, support
from .support import HEADER, ROOT, InFolder, asked, command, feature
from .test_attributes import line
from .test_cut import SAMPLE, TOWN, cut
from .test_index import NOBODY

EDITOR = """
import os, sqlite3, sys
base = sqlite3.connect(sys.argv[1], isolation_level=None)
base.execute(f"PRAGMA journal_mode = {sys.argv[2]}")
base.execute("PRAGMA cache_size = 1")
base.execute("PRAGMA wal_autocheckpoint = 0")
base.execute("BEGIN")
base.execute("UPDATE streams SET reference_system = printf('%5000d', fid)")
base.execute("CREATE TABLE much AS WITH RECURSIVE n(i) AS (SELECT 1 UNION ALL SELECT i + 1 FROM n"
             " WHERE i < 200) SELECT randomblob(3000) FROM n")
if sys.argv[2] == "WAL":
    base.execute("COMMIT")
print("done", flush=True)
if sys.argv[3] == "waits":
    sys.stdin.read()
os._exit(0)  # as one that was killed
"""


def rows_of(path, select):
    with closing(sqlite3.connect(path)) as base:
        return base.execute(select).fetchall()


class Replaced(InFolder):
    """A new index takes the place of an older one, and of nothing else."""

    def setUp(self):
        super().setUp()
        self.index = self.folder / "it.gpkg"
        self.path = self.file(HEADER + b"".join(feature(f"b{i}", "Tunnel") for i in range(50)))
        patch = mock.patch.object(replacement, "WAIT", 0.05)
        patch.start()
        self.addCleanup(patch.stop)

    def edited(self, journal, how):
        """An index of another stream that an editor has open or left unfinished."""
        cityseq.index(SAMPLE, self.index)
        editor = subprocess.Popen(
            [sys.executable, "-c", EDITOR, self.index, journal, how],
            stdin=subprocess.PIPE,
            stdout=subprocess.PIPE,
        )
        self.assertEqual(editor.stdout.readline(), b"done\n")
        editor.stdout.close()
        if how == "ends":
            editor.stdin.close()
            editor.wait()
        return editor

    def test_changes_that_an_editor_left(self):
        for journal, end in (("WAL", "-wal"), ("DELETE", "-journal")):
            with self.subTest(journal):
                self.edited(journal, "ends")
                self.assertTrue(os.path.getsize(f"{self.index}{end}"))
                cityseq.index(self.path, self.index)
                self.assertEqual(sorted(os.listdir(self.folder)), ["it.gpkg", "stream.city.jsonl"])
                with cityseq.Index(self.index) as index:
                    self.assertEqual(cut(index, types="Tunnel")[3], 50)
                self.assertEqual(rows_of(self.index, "PRAGMA integrity_check"), [("ok",)])
                self.index.unlink()

    def test_a_cut_of_what_an_editor_left(self):
        """Only a program that may write can take back the changes of one that was killed."""
        self.edited("DELETE", "ends")
        words = "another program ended while it changed the index: build it again"
        found = command("filter", "--index", str(self.index))
        self.assertEqual(found, (b"", f"{self.index}: read fault: {words}\n", 3))

    def test_an_editor_that_has_it_open(self):
        for journal in ("WAL", "DELETE"):
            with self.subTest(journal):
                editor = self.edited(journal, "waits")
                before = self.index.read_bytes()
                with self.assertRaises(cityseq.WriteFault) as caught:
                    cityseq.index(self.path, self.index)
                self.assertIn("another program has it open", str(caught.exception))
                self.assertEqual(
                    (self.index.read_bytes(), support.unfinished(self.folder)), (before, [])
                )
                editor.stdin.close()
                editor.wait()
                cityseq.index(self.path, self.index)
                with cityseq.Index(self.index) as index:
                    self.assertEqual(cut(index, types="Tunnel")[3], 50)
                self.index.unlink()

    def test_an_editor_that_opens_it_meanwhile(self):
        """It is seen before the new index gets its name."""
        cityseq.index(SAMPLE, self.index)
        made = builder.Builder(str(self.index))
        made.open()
        with closing(sqlite3.connect(self.index, isolation_level=None)) as editor:
            editor.execute("PRAGMA journal_mode = WAL")
            editor.execute("UPDATE streams SET reference_system = 'x'")
            with self.assertRaises(cityseq.WriteFault):
                made.finish(asked("check"), "0")
            made.discard()
            self.assertEqual(editor.execute("SELECT count(*) FROM features").fetchone(), (120,))
        self.assertEqual(support.unfinished(self.folder), [])

    def test_a_reader_does_not_matter(self):
        cityseq.index(SAMPLE, self.index)
        with cityseq.Index(self.index) as index, index.select() as features:
            next(features)
            cityseq.index(self.path, self.index)
            self.assertEqual(len(list(features)), 119)

    def test_changes_of_an_index_that_is_gone(self):
        for end in ("-wal", "-journal"):
            left = self.file(b"\xd9\xd5\x05\xf9 something", f"it.gpkg{end}")
            with self.assertRaisesRegex(cityseq.WriteFault, f"it.gpkg{end} of another program"):
                cityseq.index(self.path, self.index)
            left.unlink()
        self.assertEqual(os.listdir(self.folder), ["stream.city.jsonl"])

    def test_what_is_no_index_is_not_overwritten(self):
        other = self.file(HEADER + feature("a"), "other.city.jsonl")
        text, base = self.file(b"text", "text"), self.folder / "base.gpkg"
        with closing(sqlite3.connect(base)) as made:
            made.execute("CREATE TABLE features (fid)")
            made.commit()
        for path in (other, text, base):
            before = path.read_bytes()
            found = command("index", "--output", str(path), str(self.path))
            words = "it is there, and no index of cityseq: remove it, or name another output"
            self.assertEqual(found, (b"", f"{path}: {words}\n", 2))
            self.assertEqual((path.read_bytes(), support.unfinished(self.folder)), (before, []))
        empty = self.file(b"", "empty")
        cityseq.index(self.path, empty)
        with cityseq.Index(empty) as index:
            self.assertEqual(len(index.streams), 1)

    def test_two_builders_at_once(self):
        """The second one begins and ends while the first one reads."""
        left, found = [self.path], []

        def progress(_):
            if left:
                self.assertEqual(len(support.unfinished(self.folder)), 1)
                cityseq.index(left.pop(), self.index, on_report=found.append)
                with cityseq.Index(self.index) as index:
                    found.append(cut(index)[3])

        cityseq.index(SAMPLE, self.index, progress=progress)
        with cityseq.Index(self.index) as index:
            found.append(cut(index)[3])
        self.assertEqual(found, [50, 120])
        self.assertEqual(sorted(os.listdir(self.folder)), ["it.gpkg", "stream.city.jsonl"])

    def test_a_linked_folder(self):
        (self.folder / "n" / "q").mkdir(parents=True)
        (self.folder / "away").mkdir()
        inner = self.file(HEADER + feature("in"), "n/s.city.jsonl")
        (self.folder / "away" / "link").symlink_to(self.folder / "n" / "q")
        path = f"{self.folder}/away/link/../s.city.jsonl"
        cityseq.index(path, self.index)
        with cityseq.Index(self.index) as index:
            self.assertEqual(index.streams[0].told_path, "n/s.city.jsonl")
            self.assertEqual(cut(index)[0], inner.read_bytes())


class Read(InFolder):
    """Who may read an index."""

    def setUp(self):
        super().setUp()
        self.index = self.folder / "it.gpkg"
        cityseq.index(SAMPLE, self.index)

    def as_nobody(self):
        if os.geteuid() == 0:
            os.setuid(NOBODY)

    def test_one_in_a_folder_that_cannot_be_written(self):
        """A map program leaves an index in a mode in which SQLite makes a file next to it."""
        with closing(sqlite3.connect(self.index)) as base:
            base.execute("PRAGMA journal_mode = WAL")
        self.folder.chmod(0o555)
        self.addCleanup(self.folder.chmod, 0o755)
        if command("check", SAMPLE, preexec_fn=self.as_nobody)[2] != 0:
            self.skipTest("nobody may not read this package")
        words = ("filter", "--index", str(self.index), "--id", "no")
        found = command(*words, preexec_fn=self.as_nobody)
        self.assertEqual(found, (open(SAMPLE, "rb").readline(), "", 0))

    def test_a_cut_overwrites_neither_a_stream_nor_the_index(self):
        stream, index = self.file(HEADER + feature("a"), "s.city.jsonl"), self.folder / "s.gpkg"
        cityseq.index(stream, index)
        link = self.folder / "link"
        link.symlink_to(stream)
        before = stream.read_bytes(), index.read_bytes()
        with cityseq.Index(index) as opened, open(stream, "ab") as file:
            for output in (stream, str(index), link, os.fsencode(stream), file):
                with self.assertRaisesRegex(cityseq.RequestError, "is a file that is read"):
                    opened.filter(output, ids="b")
                self.assertEqual((stream.read_bytes(), index.read_bytes()), before)

    def test_no_pipe_is_opened(self):
        fifo = self.folder / "fifo"
        os.mkfifo(fifo)
        found = command("filter", "--index", str(fifo))
        self.assertEqual(found, (b"", f"{fifo}: read fault: it is no index of cityseq\n", 3))
        state = os.stat(fifo)
        with closing(sqlite3.connect(self.index)) as base:
            base.execute(
                "UPDATE streams SET path = ?, size = 0, mtime_ns = ?",
                (str(fifo), state.st_mtime_ns),
            )
            base.execute("UPDATE cityseq_index SET changed = 0")
            base.commit()
        output, said, status = command("filter", "--index", str(self.index))
        self.assertEqual(
            (output, said, status), (b"", f"{fifo}: read fault: it is no regular file\n", 3)
        )


class Hostile(InFolder):
    """Indexes of strangers. Each ends with status 3 and one line that names the file."""

    def setUp(self):
        super().setUp()
        self.index = self.folder / "it.gpkg"
        cityseq.index(TOWN, self.folder / "good.gpkg")
        self.good = (self.folder / "good.gpkg").read_bytes()

    def made(self, *statements):
        self.index.write_bytes(self.good)
        with closing(sqlite3.connect(self.index, isolation_level=None)) as base:
            for name in ("IsEmpty", "MinX", "MaxX", "MinY", "MaxY"):
                base.create_function(f"ST_{name}", 1, lambda _: 0)
            for statement in statements:
                base.execute(statement)
            base.execute("UPDATE cityseq_index SET changed = 0")

    def refused(self):
        for path, words in ((str(self.index), {}), (str(self.index), {"box": "0,0,9,9"})):
            with self.assertRaises(cityseq.ReadFault) as caught:
                with cityseq.Index(path) as index:
                    index.show()
                    index.filter(io.BytesIO(), **words)
            said = str(caught.exception)
            self.assertIn(str(self.folder), said)
            self.assertNotIn("\n", said)
            self.assertLess(len(said), 500)
        return said

    def test_values_that_no_index_has(self):
        for column, values in {
            "path": ("'a' || char(0) || 'b'", "x'00ff'", "''", "printf('%5000d', 1)"),
            "path_exact": ("7", "'text'", "x'61006200'", "x''"),
            "packing": ("'bzip2'", "x'00'"),
            "size": ("'x'", "x'01'", "-1", "1.5"),
            "mtime_ns": ("'x'", "x'01'", "0.5"),
            "header_length": ("'x'", "x'01'", "0", "-5", "1 << 62"),
            "header_sha256": ("''", "x'00'", "'" + "g" * 64 + "'"),
            "scale": (
                "'x'",
                "'[]'",
                "'[1,2,3]'",
                '\'["a","1","1"]\'',
                "x'00'",
                "'" + "[" * 5_000 + "'",
            ),
            "translate": ("'{}'", "x'00'"),
            "reference_system": ("x'00ff'",),
            "lines": ("'x'", "-1"),
            "features": ("'x'", "-1", "x'00'"),
            "refused": ("'x'", "x'00'"),
            "first_fid": ("'x'", "7"),
            "xmin": ("'x'", "x'00'", "9e999", "-1e38"),
            "zmax": ("'x'", "x'00'", "1e308"),
        }.items():
            for value in values:
                with self.subTest(column=column, value=value[:40]):
                    self.made(f"UPDATE streams SET {column} = {value}")
                    said = self.refused()
                    if column != "first_fid":
                        self.assertIn(column, said)

    def test_options_that_no_index_has(self):
        for change in (
            "tree = 2",
            "keep_going = 'x'",
            "line_limit = 0",
            "line_limit = 1 << 40",
            "line_limit = 'x'",
            "depth = 0",
            "depth = 5000",
            "depth = x'00'",
            "version = 'x'",
            "version = x'00'",
            "version = 9",
            "places = 'x'",
            "places = 7",
        ):
            with self.subTest(change):
                self.made(f"UPDATE cityseq_index SET {change}")
                if change.startswith("places"):
                    with cityseq.Index(self.index) as index:
                        with self.assertRaises(cityseq.OutOfDate):
                            index.filter(io.BytesIO(), box="0,0,9,9")
                else:
                    self.refused()

    def test_rows_and_tables_that_are_not_there(self):
        for statement in (
            "DELETE FROM streams",
            "DELETE FROM cityseq_index",
            "INSERT INTO cityseq_index SELECT * FROM cityseq_index",
            "DROP TABLE reports",
            "DROP TABLE rtree_features_geom",
            "ALTER TABLE streams RENAME COLUMN lines TO rows",
            "ALTER TABLE features RENAME TO others",
        ):
            with self.subTest(statement):
                self.made(statement)
                self.refused()

    def test_an_index_of_an_older_cityseq(self):
        self.made("ALTER TABLE cityseq_index DROP COLUMN places")
        self.assertIn("its table cityseq_index has no places: build it again", self.refused())

    def test_views_in_place_of_tables(self):
        endless = "WITH RECURSIVE n(i) AS (SELECT 1 UNION ALL SELECT i + 1 FROM n)"
        for table in ("features", "streams", "reports", "cityseq_index"):
            with self.subTest(table):
                columns = [row[1] for row in self._columns(table)]
                self.index.write_bytes(self.good)
                with closing(sqlite3.connect(self.index, isolation_level=None)) as base:
                    base.execute(f"DROP TABLE {table}")
                    selected = ", ".join(f"i AS {name}" for name in columns)
                    base.execute(f"CREATE VIEW {table} AS {endless} SELECT {selected} FROM n")
                self.assertIn("it is no index of cityseq", self.refused())

    def _columns(self, table):
        return rows_of(self.folder / "good.gpkg", f"PRAGMA table_info({table})")

    def test_rows_of_features_that_no_index_has(self):
        for change in (
            "stream = 'x'",
            "line = x'00'",
            "begin = 'x'",
            "length = x'00'",
            "begin = -1",
            "length = 1 << 62",
            "line = 3",  # of all
            "line = line - 1",
            "line = line + 9",
        ):
            with self.subTest(change):
                self.made(f"UPDATE features SET {change}")
                with self.assertRaises(cityseq.OutOfDate):
                    with cityseq.Index(self.index) as index:
                        index.filter(io.BytesIO())
        self.made("UPDATE features SET id = x'00ff', line = 'x'")  # all have one id
        with self.assertRaises(cityseq.OutOfDate):
            with cityseq.Index(self.index) as index:
                index.show()

    def test_attributes_that_no_index_has(self):
        path = self.file(HEADER + line("b", '{"year":1,"name":"x"}'))
        cityseq.index(path, self.folder / "good.gpkg", attributes="all")
        self.good = (self.folder / "good.gpkg").read_bytes()
        for change in (
            "name_exact = x'ff'",
            "name_exact = x''",
            "type = 'BLOB'",
            "format = 'x'",
            "first_fid = -1",
            "column_name = 'no'",
            "column_name = 'geom'",
            "column_name = 'zmin'",
            "column_name = 'name'",  # of both
        ):
            with self.subTest(change):
                self.made(f"UPDATE cityseq_attributes SET {change}")
                self.refused()

    @unittest.skipIf(serving.MISSING, serving.MISSING)
    def test_a_header_that_no_index_has(self):
        """A server takes the transform and the system from the index."""
        path = self.file(HEADER + feature("b"))
        cityseq.index(path, self.folder / "good.gpkg")
        self.good = (self.folder / "good.gpkg").read_bytes()
        for change, status in (
            ("lines = lines", 200),
            ('scale = \'["1","1","1"]\'', 502),
            ('translate = \'["1e999999999999999999999","1","1"]\'', 502),
            ("reference_system = 'https://www.opengis.net/def/crs/EPSG/0/7415'", 502),
        ):
            self.made(f"UPDATE streams SET {change}")
            with self.subTest(change), serving.Within(self.index) as server:
                for name in ("items", "items?f=html", "items/b?f=city-json"):
                    answer = server.ask(f"/collections/stream/{name}")
                    self.assertEqual(answer.status, status, answer.body)

    def test_a_report_that_no_index_has(self):
        for values in (
            "1, 'x', 1, 1, 'a', NULL",
            "1, 1, x'00', 1, 'a', NULL",
            "1, 1, 1, 1, x'00ff', NULL",
            "1, 1, 1, 1, 'a', x'00ff'",
        ):
            with self.subTest(values):
                self.made(
                    "INSERT INTO reports (stream, line, byte, code, text, id)" f" VALUES ({values})"
                )
                with self.assertRaises(cityseq.ReadFault):
                    with cityseq.Index(self.index) as index:
                        index.show()

    def test_a_signal_ends_a_long_query(self):
        """SQLite asks Python, so that it can run the handler of the signal."""
        code = (
            "import sys; from cityseq.indexes import database\n"
            "from cityseq.cli import end_by_signals, main\n"
            "def check(self, total):\n"
            "    with self.reading():\n"
            "        print('begun', flush=True)\n"
            "        self.execute('WITH RECURSIVE n(i) AS (SELECT 1 UNION ALL SELECT i + 1 FROM n)"
            " SELECT max(i) FROM n').fetchall()\n"
            "database.Database.check = check\n"
            "end_by_signals()\n"
            "sys.exit(main(['filter', '--index', sys.argv[1]]))\n"
        )
        for number, words in (
            (signal.SIGTERM, b"stopped by SIGTERM\n"),
            (signal.SIGINT, b"interrupted\n"),
        ):
            ran = subprocess.Popen(
                [sys.executable, "-c", code, self.folder / "good.gpkg"],
                stdout=subprocess.PIPE,
                stderr=subprocess.PIPE,
                env={**os.environ, "PYTHONPATH": f"{ROOT}/python"},
                preexec_fn=support.heed_interrupts,
            )
            self.assertEqual(ran.stdout.readline(), b"begun\n")
            time.sleep(0.05)
            ran.send_signal(number)
            _, said = ran.communicate(timeout=20)
            self.assertEqual((said, ran.returncode), (words, 128 + number))


if __name__ == "__main__":
    unittest.main()
