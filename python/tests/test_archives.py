"""Packed archives that can be cut: how they are packed and verified, and what cuts read of them."""
import gzip
import io
import itertools
import os
import random
import shutil
import signal
import sqlite3
import subprocess
import sys
import threading
import time
import unittest
from contextlib import closing, contextmanager
from unittest import mock

import cityseq
from cityseq.cli.file_commands import packed_name
from cityseq.engine import OutOfDate, ReadFault
from cityseq.indexes import line_reader as blocks_of
from cityseq.sources.packed import BLOCK, LAST, Packing, Unpacker, pack

from .serving import MISSING, Serving
from .support import HEADER, ROOT, InFolder, command, feature, heed_interrupts, ran, unfinished
from .test_packed import blocks
from .test_web import Handler, Server

BGZIP = shutil.which("bgzip")
try:
    import pysam
except ImportError:
    pysam = None


def long_feature(number, size=20_000, kind="Building"):
    """A feature of about so many bytes, far from those with other numbers, that packs badly."""
    chance = random.Random(number)
    line = feature(f"b{number}", kind, x=2_000 * number).replace(
        b"[1000,", b"[%d," % (2_000 * number)
    )
    line = line.replace(b"[0,1000,5]", b"[%d,1000,5]" % (2_000 * number))
    note = "".join(chance.choices("abcdefghijklmnopqrstuvwxyz0123456789", k=size))
    return line.replace(b'"CityObjects"', b'"note":"%s","CityObjects"' % note.encode())


def stream(count=60, size=20_000):
    """A stream of long features in a row along x, each 2 m from the one before."""
    return HEADER + b"".join(long_feature(number, size) for number in range(count))


def packed(text, chance=None):
    """A text in blocks, with empty ones between others if there is a chance."""
    if chance is None:
        return pack(text, Packing.GZIP) + LAST
    made, begin = b"", 0
    while begin < len(text):
        size = chance.choice((0, 1, 77, 3_000, BLOCK, 1 << 16))
        made += pack(text[begin : begin + size], Packing.GZIP) if size else LAST
        begin += size
    return made + LAST


class Archives(InFolder):
    def setUp(self):
        super().setUp()
        self.index = str(self.folder / "i.gpkg")

    def archive(self, text, name="s.city.jsonl.gz", chance=None):
        """A file of blocks."""
        path = self.folder / name
        path.write_bytes(packed(text, chance))
        return path

    def indexed(self, text, chance=None):
        """An archive of blocks that has an index."""
        path = self.archive(text, chance=chance)
        cityseq.index(path, self.index)
        return path

    def cut(self, base=None, **query):
        output = io.BytesIO()
        with cityseq.Index(self.index, base=base) as index:
            index.filter(output, **query)
        return output.getvalue()

    @staticmethod
    def whole(text, **query):
        output = io.BytesIO()
        cityseq.filter(text, output, **query)
        return output.getvalue()


class Cuts(Archives):
    """A cut of an archive is that of its text, and unpacks only what it needs."""

    def test_any_blocks_and_queries(self):
        """Also with empty blocks, and lines over many blocks."""
        for seed in range(12):
            chance = random.Random(seed)
            lines = [
                long_feature(
                    number, chance.choice((0, 300, 70_000)), chance.choice(("Road", "Bridge"))
                )
                for number in range(chance.randrange(1, 25))
            ]
            text = HEADER + b"".join(lines)
            text = text if seed % 3 else text[:-1]
            self.indexed(text, chance)
            with cityseq.Index(self.index) as index:
                self.assertTrue(index.streams[0].has_blocks)
            ids = [f"b{number}" for number in chance.sample(range(25), 5)]
            x = chance.randrange(50)
            for query in ({}, {"ids": ids}, {"types": ["Road"]}, {"box": f"{x},0,{x + 7},99"}):
                with self.subTest(seed=seed, query=query):
                    self.assertEqual(self.cut(**query), self.whole(text, **query))
            with cityseq.Index(self.index) as index, index.select(ids=ids) as found:
                wanted = [each.bytes for each in cityseq.features(text, ids=ids)]
                self.assertEqual([each.bytes for each in found], wanted)

    def test_it_unpacks_the_blocks_of_the_selected_lines_alone(self):
        text = stream()
        path = self.indexed(text)
        size = path.stat().st_size
        read = []
        place = blocks_of.BlockPlace.read

        def noted(self, begin, end):
            packed_read = self._packed.read
            with mock.patch.object(
                self._packed, "read", lambda *edges: read.append(edges) or packed_read(*edges)
            ):
                return place(self, begin, end)

        with mock.patch.object(blocks_of.BlockPlace, "read", noted):
            found = self.cut(ids=["b30"])
        self.assertEqual(found, HEADER + long_feature(30))
        self.assertEqual(len(read), 2)  # the header, and the line
        self.assertLess(sum(end - begin for begin, end in read), 4 * BLOCK)
        self.assertGreater(size, 12 * BLOCK)

    def test_a_stream_of_many_lines_is_read_whole(self):
        """Where a query selects all, of a stream that is worth an estimate."""
        text = HEADER + b"".join(long_feature(number, 400) for number in range(300))
        self.indexed(text)
        with mock.patch("cityseq.indexes.candidates.SMALL", 1):
            self.assertEqual(self.cut(), text)

    def test_an_archive_of_other_making_works_as_before(self):
        text = stream(9)
        for made in (
            gzip.compress(text),
            pack(text[:70_000], Packing.GZIP) + gzip.compress(text[70_000:]),
            gzip.compress(text[:70_000]) + packed(text[70_000:]),
        ):
            path = self.folder / "s.city.jsonl.gz"
            path.write_bytes(made)
            said = command("index", "--output", self.index, str(path))
            told = (
                f"{path}: a cut unpacks all of it; run 'cityseq-run pack' on it and index it again,"
                " to make cuts fast\n"
            )
            self.assertEqual(said, (b"valid lines=10 features=9\n", told, 0))
            with cityseq.Index(self.index) as index:
                self.assertFalse(index.streams[0].has_blocks)
            with closing(sqlite3.connect(self.index)) as base:
                select = "SELECT name FROM sqlite_master WHERE name LIKE '%blocks%'"
                self.assertEqual(base.execute(select).fetchall(), [])
            self.assertEqual(self.cut(ids=["b5"]), HEADER + long_feature(5))
            self.assertEqual(command("index", "-q", "--output", self.index, str(path))[1], "")

    def test_it_is_said_once_for_many(self):
        paths = [self.file(stream(1), f"{name}.city.jsonl.gz") for name in "ab"]
        paths.append(self.archive(stream(2)))
        said = command("index", "--output", self.index, *map(str, paths))[1]
        self.assertIn("2 packed streams: a cut unpacks all of it", said)
        self.assertEqual(said.count("\n"), 1)
        words = ("filter", "--index", self.index, "--output-dir", str(self.folder / "o"))
        told = "2 of 3 streams are packed, so the cut reads each from its beginning\n"
        self.assertEqual(command(*words)[1], told)

    def test_many_streams_of_one_header(self):
        texts = [stream(7), stream(11), HEADER + long_feature(3, kind="Road")]
        paths = [
            self.archive(texts[0], "a.gz"),
            self.folder / "b.jsonl",
            self.archive(texts[2], "c.gz"),
        ]
        paths[1].write_bytes(texts[1])
        cityseq.index(paths, self.index)
        wanted = HEADER + long_feature(3) * 2 + long_feature(3, kind="Road")
        self.assertEqual(self.cut(ids=["b3"]), wanted)

    @contextmanager
    def on_the_web(self):
        """A web server of the folder, and its URL."""
        server = Server(("127.0.0.1", 0), Handler)
        server.folder, server.mode = str(self.folder), None
        server.ranges, server.seen, server.connections = [], [], 0
        thread = threading.Thread(target=server.serve_forever)
        thread.start()
        try:
            yield server, f"http://127.0.0.1:{server.server_address[1]}"
        finally:
            server.shutdown()
            thread.join()
            server.server_close()

    def test_of_a_web_server(self):
        text = stream()
        self.indexed(text)
        with self.on_the_web() as (server, base):
            self.assertEqual(self.cut(base, ids=["b40"]), HEADER + long_feature(40))
            self.assertEqual(len(server.ranges), 2)
            asked = sum(end - begin for begin, end in server.ranges)
            self.assertLess(asked, 5 * BLOCK)
            box = "40,0,45,99"
            self.assertEqual(self.cut(base, box=box), self.whole(text, box=box))

    @unittest.skipIf(MISSING, MISSING)
    def test_the_server_serves_it(self):
        """From a file, and from a web server."""
        self.indexed(stream())
        wanted = HEADER + long_feature(7) + long_feature(40)
        with self.on_the_web() as (_, base):
            for words in ((), ("--base", base)):
                with Serving(*words, self.index) as server:
                    found = server.ask("/collections/s/items?ids=b7,b40&f=city-json-seq")
                    self.assertEqual((found.status, found.body), (200, wanted))


class Rotten(Archives):
    """Bytes that rotted, and indexes that were changed."""

    def rotten(self, place):
        """Changes a byte of the archive, and keeps its time."""
        path = self.folder / "s.city.jsonl.gz"
        before = path.stat()
        made = bytearray(path.read_bytes())
        made[place] ^= 0x10
        path.write_bytes(made)
        os.utime(path, ns=(before.st_atime_ns, before.st_mtime_ns))

    def test_rotten_bytes_are_an_error_of_the_cut(self):
        """Wherever they are in a block that is read, but for the head of a member, which says
        nothing of the text."""
        text = stream(8, 300)
        path = self.indexed(text, random.Random(3))
        size = path.stat().st_size
        with closing(sqlite3.connect(self.index)) as base:
            begins = [row[0] for row in base.execute("SELECT place FROM blocks")]
        heads = {begin + at for begin in begins for at in range(18)}
        for place in range(0, size - len(LAST), 7):
            self.rotten(place)
            try:
                if place in heads:
                    with cityseq.Index(self.index) as index:
                        self.assertTrue(index.streams[0].has_blocks)
                else:
                    output = self.folder / "o"
                    with self.subTest(place=place), self.assertRaises(ReadFault):
                        with cityseq.Index(self.index) as index:
                            index.filter(output)
                    self.assertFalse(output.exists())
            finally:
                self.rotten(place)

    def test_rotten_bytes_elsewhere_do_not_matter(self):
        self.indexed(stream())
        self.rotten((self.folder / "s.city.jsonl.gz").stat().st_size - 100_000)
        self.assertEqual(self.cut(ids=["b2"]), HEADER + long_feature(2))

    def test_a_changed_index(self):
        """What the triggers note, and what they do not see."""
        for change in (
            "UPDATE blocks SET place = place + 1 WHERE begin > 0",
            "DELETE FROM blocks WHERE begin = 0",
            "INSERT INTO blocks VALUES (9, 0, 0)",
        ):
            self.indexed(stream(9))
            with closing(sqlite3.connect(self.index)) as base, base:
                base.execute(change)
            with self.subTest(change=change), self.assertRaises(OutOfDate):
                self.cut(ids=["b5"])

    def test_an_index_from_a_stranger(self):
        """Any values, without the triggers' notes, give a fault or the right lines."""
        text = stream(9)
        for change in (
            "UPDATE blocks SET place = 'x' WHERE begin > 0",
            "UPDATE blocks SET place = -5 WHERE begin = 0",
            "UPDATE blocks SET place = 0",
            "UPDATE blocks SET place = place + 7 WHERE begin > 0",
            "UPDATE blocks SET place = place * 1000 WHERE begin > 60000",
            "UPDATE blocks SET begin = begin + 1 WHERE begin > 0",
            "UPDATE blocks SET begin = begin * 3 WHERE begin > 0",
            "UPDATE blocks SET begin = x'00' WHERE begin = 0",
            "DELETE FROM blocks WHERE begin > 0",
            "DELETE FROM blocks WHERE begin = 0",
        ):
            self.indexed(text)
            with closing(sqlite3.connect(self.index)) as base, base:
                base.execute(change)
                base.execute("UPDATE cityseq_index SET changed = 0")
            faults = 0
            for query in ({"ids": ["b5"]}, {"ids": ["b1", "b8"]}, {}):
                with self.subTest(change=change, query=query):
                    try:
                        self.assertEqual(self.cut(**query), self.whole(text, **query))
                    except ReadFault:
                        faults += 1
            self.assertGreater(faults, 0, change)

    def test_a_view_is_no_table(self):
        self.indexed(stream(3))
        with closing(sqlite3.connect(self.index)) as base, base:
            base.execute("DROP TABLE blocks")
            base.execute("CREATE VIEW blocks AS SELECT 1 AS stream, 0 AS begin, 0 AS place")
        with cityseq.Index(self.index) as index:
            self.assertFalse(index.streams[0].has_blocks)
        self.assertEqual(self.cut(ids=["b1"]), HEADER + long_feature(1))

    def test_an_index_without_the_table(self):
        """An older index has none."""
        text = stream(3)
        self.file(text, "s.city.jsonl.gz")
        cityseq.index(self.folder / "s.city.jsonl.gz", self.index)
        self.assertEqual(self.cut(ids=["b1"]), HEADER + long_feature(1))


class Packs(Archives):
    """The command `pack`."""

    def test_what_is_packed(self):
        text = stream(30)
        plain, other = self.file(text, "a.city.jsonl"), self.file(text, "b.city.jsonl.gz")
        output, said, status = command("pack", str(plain), str(other))
        self.assertEqual((said, status), ("", 0))
        for name in ("a.city.jsonl.gz", "b.city.jsonl.gz"):
            made = (self.folder / name).read_bytes()
            self.assertEqual(b"".join(blocks(made)), text)
            self.assertTrue(made.endswith(LAST))
            line = f"{self.folder / name}: packed text={len(text)} bytes={len(made)}\n"
            self.assertIn(line.encode(), output)
        self.assertEqual(plain.read_bytes(), text)
        cityseq.index(other, self.index)
        self.assertEqual(self.cut(ids=["b9"]), HEADER + long_feature(9))

    def test_any_length(self):
        """Also none, and those around the length of a block and of what a thread packs."""
        for size in (0, 1, BLOCK - 1, BLOCK, BLOCK + 1, 16 * BLOCK, 16 * BLOCK + 1, 33 * BLOCK + 5):
            text = random.Random(size).randbytes(size)
            path = self.file(text, f"x{size}")
            words = ("pack", "-j", "3", "--level", "1", "--output", str(self.folder / "x.gz"))
            self.assertEqual(command(*words, str(path))[1:], ("", 0))
            made = (self.folder / "x.gz").read_bytes()
            self.assertEqual(b"".join(blocks(made)), text)
            lengths = [len(each) for each in blocks(made)]
            self.assertEqual(lengths[:-2], [BLOCK] * len(lengths[:-2]))

    def test_standard_input(self):
        output = self.folder / "x.gz"
        self.assertEqual(command("pack", "-", "--output", str(output), given=HEADER)[1:], ("", 0))
        self.assertEqual(gzip.decompress(output.read_bytes()), HEADER)

    def test_what_is_refused(self):
        path, there = self.file(HEADER, "x"), self.file(b"mine", "x.gz.txt")
        there.rename(self.folder / "x.gz")
        for words, told in (
            ((), "name each FILE"),
            (("-",), "name the archive by --output"),
            ((str(path),), "is there: remove it, or name it by --output"),
            ((str(path), str(self.folder / "." / "x")), "two files have the same archive"),
            ((str(path), "--output", str(self.folder / "y")), "ends in .gz"),
            ((str(path), "y", "--output", str(self.folder / "y.gz")), "the archive of one FILE"),
            (("--verify", str(path), "--level", "3"), "--verify writes nothing"),
        ):
            output, said, status = command("pack", *words)
            self.assertEqual((output, status), (b"", 2), words)
            self.assertIn(told, said)
        self.assertEqual((self.folder / "x.gz").read_bytes(), b"mine")
        self.assertEqual(command("pack", str(path), "--output", str(self.folder / "x.gz"))[2], 0)

    def test_the_output_is_whole_or_absent(self):
        """And an archive that is cut short stays as it is."""
        text = stream(30)
        cut = self.folder / "cut.jsonl.gz"
        cut.write_bytes(gzip.compress(text)[:-9])
        before = cut.read_bytes()
        good = self.file(text, "good.jsonl")
        output, said, status = command("pack", str(cut), str(self.folder / "none"), str(good))
        self.assertEqual(status, 3)
        self.assertIn("cut short", said)
        self.assertIn("none: read fault: No such file", said)
        self.assertEqual(cut.read_bytes(), before)
        self.assertEqual(output.count(b"\n"), 1)
        self.assertEqual(
            sorted(os.listdir(self.folder)), ["cut.jsonl.gz", "good.jsonl", "good.jsonl.gz"]
        )
        locked = str(self.folder / "no" / "x.gz")
        self.assertEqual(command("pack", str(good), "--output", locked)[2], 4)

    def test_a_packed_file_is_left_alone(self):
        path = self.archive(stream(2))
        before = path.stat()
        told = f"{path}: is packed in blocks\n".encode()
        self.assertEqual(command("pack", str(path)), (told, "", 0))
        self.assertEqual(path.stat().st_ino, before.st_ino)

    def test_what_only_begins_with_blocks(self):
        text = stream(8)
        path, made = self.archive(text), packed(text)
        path.write_bytes(made + gzip.compress(b"\n"))
        output, said, status = command("pack", str(path))
        self.assertEqual((said, status), ("", 0))
        self.assertIn(b": packed text=%d bytes=" % len(text + b"\n"), output)
        self.assertEqual(b"".join(blocks(path.read_bytes())), text + b"\n")
        for end in (len(made) - len(LAST), len(made) - len(LAST) - 1, 100):
            path.write_bytes(made[:end])
            output, said, status = command("pack", str(path))
            self.assertEqual((output, status), (b"", 3), end)
            self.assertIn("cut short", said)
            self.assertEqual(path.read_bytes(), made[:end])

    def test_names(self):
        for name, wanted in (("a", "a.gz"), ("a.gz", "a.gz"), ("b/a.jsonl.zst", "b/a.jsonl.gz")):
            self.assertEqual(packed_name(name), wanted)

    def test_an_interrupt_leaves_nothing(self):
        path = self.folder / "large"
        with open(path, "wb") as file:
            file.truncate(4 << 30)
        words = [sys.executable, "-m", "cityseq", "pack", "--level", "9", str(path)]
        with subprocess.Popen(
            words,
            cwd=os.path.join(ROOT, "python"),
            stderr=subprocess.PIPE,
            preexec_fn=heed_interrupts,
        ) as run:
            for _ in range(400):
                if unfinished(self.folder):
                    break
                time.sleep(0.05)
            self.assertTrue(unfinished(self.folder))
            run.send_signal(signal.SIGINT)
            said = run.communicate(timeout=60)[1]
        self.assertEqual((said, run.returncode), (b"interrupted\n", 130))
        self.assertEqual(os.listdir(self.folder), ["large"])


class Verifies(Archives):
    """`pack --verify`, and archives that are cut short."""

    def said(self, made, name="x.gz", by=command):
        path = self.folder / name
        path.write_bytes(made)
        output, said, status = by("pack", "--verify", str(path))
        return (output.decode() + said).replace(f"{path}: ", "").rstrip("\n"), status

    def test_whole_archives(self):
        text = stream(20)
        made = packed(text)
        count = len(blocks(made))
        told = f"whole text={len(text)} bytes={len(made)} blocks={count}"
        self.assertEqual(self.said(made), (told, 0))
        other = gzip.compress(text)
        self.assertEqual(self.said(other), (f"whole text={len(text)} bytes={len(other)}", 0))
        self.assertEqual(self.said(LAST), ("whole text=0 bytes=28 blocks=1", 0))
        self.assertEqual(os.listdir(self.folder), ["x.gz"])

    def test_archives_that_are_not_whole(self):
        text = stream(20)
        made = packed(text)
        last = "read fault: the archive is cut short: its empty last block is missing"
        self.assertEqual(self.said(made[: -len(LAST)]), (last, 3))
        self.assertEqual(self.said(made[:-1])[1], 3)
        self.assertEqual(self.said(made[: BLOCK // 2])[1], 3)
        self.assertEqual(self.said(text, "x.jsonl"), ("read fault: what is there is no archive", 3))
        self.assertEqual(command("pack", "--verify", str(self.folder / "none.gz"))[2], 3)
        longer = bytearray(made)
        longer[16] ^= 1
        words = "read fault: the archive is broken: a block has another length than it says"
        self.assertEqual(self.said(bytes(longer)), (words, 3))
        for place in range(18, len(made) - len(LAST), 4_001):
            rotten = bytearray(made)
            rotten[place] ^= 4
            with self.subTest(place=place):
                self.assertEqual(self.said(bytes(rotten), by=ran)[1], 3)

    def test_each_command_sees_that_the_last_block_is_missing(self):
        """After the last line, so that each line before has been judged."""
        text = HEADER + feature("a") + feature("b", last=9)
        path = self.folder / "x.city.jsonl.gz"
        path.write_bytes(pack(text, Packing.GZIP))
        for words in (
            ("check", "--keep-going"),
            ("info",),
            ("filter", "--keep-going", "-o", str(self.folder / "o")),
        ):
            self.assertIn(command(*words, str(path))[2], (1, 3))
        output, said, status = command("check", "--keep-going", str(path))
        self.assertEqual(status, 3)
        self.assertIn("line 3", said)
        self.assertIn("cut short", said)
        path.write_bytes(pack(HEADER + feature("a"), Packing.GZIP))
        self.assertEqual(command("index", "--output", self.index, str(path))[2], 3)
        self.assertEqual(os.listdir(self.folder), ["x.city.jsonl.gz"])
        for made in (path.read_bytes(), path.read_bytes() + LAST):
            status = command("check", "-", given=made)[2]
            self.assertEqual(status, 0 if made.endswith(LAST) else 3)

    def test_wherever_blocks_end(self):
        """A cut after any block is seen, also where blocks are followed by zeros."""
        text = stream(20, 9_000)
        made = packed(text, random.Random(1))
        ends = list(
            itertools.accumulate(len(pack(each, Packing.GZIP)) or 28 for each in blocks(made))
        )
        for end in ends:
            for zeros in (b"", b"\0" * 9):
                unpacker = Unpacker(io.BytesIO(made[:end] + zeros), Packing.GZIP)
                read = lambda: b"".join(iter(lambda: unpacker.read(1 << 16), b""))  # noqa: E731
                if made[:end].endswith(LAST):
                    self.assertEqual(read(), text[: sum(map(len, blocks(made[:end])))])
                else:
                    self.assertRaises(EOFError, read)


class OtherPrograms(Archives):
    """Other programs read what `pack` writes, and it reads what they write."""

    def setUp(self):
        super().setUp()
        self.text = stream(30)
        self.path = self.file(self.text, "s.city.jsonl")
        self.assertEqual(command("pack", str(self.path))[2], 0)
        self.packed = str(self.path) + ".gz"

    @unittest.skipIf(BGZIP is None, "bgzip is not there")
    def test_bgzip(self):
        subprocess.run([BGZIP, "--test", self.packed], check=True)
        subprocess.run([BGZIP, "--reindex", self.packed], check=True)
        words = [BGZIP, "--offset", "300000", "--size", "1000", self.packed]
        part = subprocess.run(words, check=True, stdout=subprocess.PIPE).stdout
        self.assertEqual(part, self.text[300_000:301_000])
        other = self.folder / "other.city.jsonl"
        other.write_bytes(self.text)
        subprocess.run([BGZIP, str(other)], check=True)
        cityseq.index(f"{other}.gz", self.index)
        with cityseq.Index(self.index) as index:
            self.assertTrue(index.streams[0].has_blocks)
        self.assertEqual(self.cut(ids=["b22"]), HEADER + long_feature(22))
        self.assertEqual(command("pack", "--verify", f"{other}.gz")[2], 0)

    @unittest.skipIf(pysam is None, "pysam is not there")
    def test_pysam(self):
        with pysam.BGZFile(self.packed, "rb") as file:
            self.assertEqual(file.read(), self.text)
        with pysam.BGZFile(str(self.folder / "theirs.gz"), "wb") as file:
            file.write(self.text)
        self.assertEqual(command("pack", "--verify", str(self.folder / "theirs.gz"))[2], 0)

    def test_gzip_of_python(self):
        with gzip.open(self.packed) as file:
            self.assertEqual(file.read(), self.text)
