"""Packed files: told by what they begin with, unpacked many at once, and packed so that one can
begin in the middle."""
import gzip
import io
import os
import random
import struct
import subprocess
import sys
import unittest
import zlib
from concurrent.futures import Future
from unittest import mock

import cityseq
from cityseq.run.streams import Stream, _Order, results
from cityseq.sources.packed import BLOCK, LAST, Packer, Packing, Unpacker, pack

from . import support
from .support import HEADER, PLAIN, InFolder, asked, command, feature, numbered

try:
    import zstandard
except ImportError:
    zstandard = None

GOOD = HEADER + feature("a") + feature("b", "Road")


def blocks(packed):
    """The texts of the blocks of BGZF, by the length that each has in its extra field (the SAM
    specification, section 4.1)."""
    place, texts = 0, []
    while place < len(packed):
        head = struct.unpack_from("<4BI2BH2B2H", packed, place)
        assert head[:4] == (31, 139, 8, 4) and head[7:11] == (6, 66, 67, 2), head
        size = head[11] + 1
        text = zlib.decompress(packed[place + 18 : place + size - 8], -15)
        assert struct.unpack_from("<2I", packed, place + size - 8) == (zlib.crc32(text), len(text))
        assert size <= 1 << 16 and len(text) <= 1 << 16
        texts.append(text)
        place += size
    return texts


class Unpackers(unittest.TestCase):
    """What is read of archives."""

    def read(self, packed, packing=Packing.GZIP, most=1_000):
        unpacker = Unpacker(io.BytesIO(packed), packing)
        return b"".join(iter(lambda: unpacker.read(most), b"")), unpacker.taken

    def test_members_and_zeros(self):
        chance = random.Random(1)
        one, two = (
            chance.randbytes(300_000) if hasattr(chance, "randbytes") else os.urandom(300_000),
            b"x" * 500_000,
        )
        for text, packed in (
            (one, gzip.compress(one)),
            (one + two, gzip.compress(one) + gzip.compress(two)),
            (b"", gzip.compress(b"")),
            (two, gzip.compress(two) + b"\0" * 5_000),
            (one + two, gzip.compress(one) + b"\0" * 9 + gzip.compress(two)),
            (one + two, pack(one, Packing.GZIP) + pack(two, Packing.GZIP) + LAST),
            (b"", b""),
        ):
            for most in (1_000, 1 << 20):
                self.assertEqual(self.read(packed, most=most), (text, len(packed)))

    def test_archives_that_are_broken(self):
        packed = gzip.compress(b"x" * 100_000)
        for broken in (
            packed[:-1],
            packed[:-8],
            packed[:15],
            packed[:1],
            packed + b"y",
            packed + packed[:5],
            packed[:-8] + b"12345678",
            packed[:30] + b"\xff\xff\xff" + packed[33:],
            b"no archive",
        ):
            self.assertRaises((OSError, EOFError), self.read, broken)

    @unittest.skipIf(zstandard is None, "zstandard is not there")
    def test_zstandard(self):
        one, two = os.urandom(300_000), b"x" * 5_000_000
        packed = zstandard.ZstdCompressor().compress(one) + zstandard.ZstdCompressor().compress(two)
        self.assertEqual(self.read(packed, Packing.ZSTD), (one + two, len(packed)))
        self.assertEqual(
            self.read(pack(one, Packing.ZSTD) + pack(two, Packing.ZSTD), Packing.ZSTD)[0], one + two
        )
        ours = pack(one, Packing.ZSTD)
        for broken in (
            packed[:-1],
            packed[:100],
            packed + b"y",
            b"no archive",
            ours[:1_000] + b"\xff" * 9 + ours[1_009:],
        ):
            self.assertRaises((OSError, EOFError), self.read, broken, Packing.ZSTD)

    def test_archives_that_are_cut_short(self):
        """Wherever that is, also between two members or within a head or a checksum."""
        text = b"".join(feature(f"b{number}") for number in range(3_000))
        archives = [
            (Packing.GZIP, gzip.compress(text)),
            (Packing.GZIP, pack(text, Packing.GZIP) + LAST),
        ]
        if zstandard is not None:
            archives.append((Packing.ZSTD, pack(text, Packing.ZSTD)))
        for packing, packed in archives:
            ends = {*range(1, len(packed), 1_000), *range(len(packed) - 30, len(packed))}
            for end in sorted(ends):
                if packing is Packing.GZIP and self.ends_a_member(packed, end):
                    continue  # an archive that ends there is whole
                with self.subTest(packing=packing, end=end):
                    self.assertRaises((OSError, EOFError), self.read, packed[:end], packing)

    @staticmethod
    def ends_a_member(packed, end):
        """Whether some whole members of a gzip archive end at this byte."""
        rest = packed[:end]
        while rest:
            member = zlib.decompressobj(wbits=31)
            member.decompress(rest)
            if not member.eof:
                return False
            rest = member.unused_data
        return True


class Packers(InFolder):
    """What is written."""

    def test_blocks(self):
        for text in (b"", b"x", b"x" * BLOCK, os.urandom(BLOCK * 3 + 1)):
            self.assertEqual(b"".join(blocks(pack(text, Packing.GZIP))), text)

    def test_short_texts_are_gathered(self):
        file = io.BytesIO()
        packer = Packer(file, Packing.GZIP)
        for _ in range(3_000):
            packer.write(PLAIN)
        packer.write_packed(pack(HEADER, Packing.GZIP))
        packer.write(b"end")
        packer.finish()
        texts = blocks(file.getvalue())
        self.assertEqual(b"".join(texts), PLAIN * 3_000 + HEADER + b"end")
        self.assertEqual((len(texts) < 3_000 * len(PLAIN) // BLOCK * 2 + 5, texts[-1]), (True, b""))

    def test_outputs(self):
        text = HEADER + b"".join(feature(f"b{number}") for number in range(9_000))
        for jobs in (1, 4):
            path = self.folder / f"{jobs}.gz"
            cityseq.filter(text, path, jobs=jobs, part_size=300_000)
            texts = blocks(path.read_bytes())
            self.assertEqual((b"".join(texts), gzip.decompress(path.read_bytes())), (text, text))
            self.assertTrue(path.read_bytes().endswith(LAST))
            self.assertGreater(len(texts), len(text) // BLOCK)
            if zstandard is not None:
                path = self.folder / f"{jobs}.zst"
                cityseq.filter(text, path, jobs=jobs, part_size=300_000)
                self.assertEqual(cityseq.check(path).features, 9_000)

    def test_zstandard_that_is_not_there(self):
        path = self.file(GOOD, "a.zst")
        with mock.patch.dict(sys.modules, {"zstandard": None}):
            for call in (
                lambda: cityseq.check(path),
                lambda: cityseq.filter(GOOD, self.folder / "b.zst"),
            ):
                with self.assertRaises(cityseq.CityseqError) as caught:
                    call()
                self.assertIn("install python3-zstandard", str(caught.exception))


class Contents(InFolder):
    """A file is told by what it begins with, whatever its name is, and a path by its type."""

    def test_gzip_and_its_names(self):
        packed = self.folder / "packed.jsonl"
        packed.write_bytes(gzip.compress(GOOD))
        self.assertEqual(cityseq.check(packed).features, 2)
        self.assertEqual(command("check", packed)[0], b"valid lines=3 features=2\n")
        plain = self.folder / "plain.gz"
        plain.write_bytes(GOOD)
        self.assertRaises(cityseq.ReadFault, cityseq.check, plain)
        self.assertEqual(
            cityseq.check(gzip.compress(GOOD)).hints[0][:20], "It is packed by gzip"
        )  # bytes are the stream itself

    @unittest.skipIf(zstandard is None, "zstandard is not there")
    def test_zstandard(self):
        for name in ("a.zst", "a.jsonl"):
            path = self.file(zstandard.ZstdCompressor().compress(GOOD), name)
            self.assertEqual(cityseq.check(path).features, 2)
            path.write_bytes(path.read_bytes()[:-3])
            self.assertRaises(cityseq.ReadFault, cityseq.check, path)

    def test_a_path_as_bytes(self):
        self.file(GOOD, "a.jsonl")
        with os.scandir(os.fsencode(self.folder)) as entries:
            (entry,) = entries
        self.assertEqual(cityseq.check(entry).features, 2)
        self.assertEqual([result.status for result in cityseq.check_files([entry, entry])], [0, 0])
        output = os.fsencode(self.folder / "out.gz")
        cityseq.filter(entry, output)
        with gzip.open(output) as file:
            self.assertEqual(file.read(), GOOD)
        self.assertRaises(
            cityseq.RequestError, cityseq.filter, entry, os.fsencode(self.folder / "a.jsonl")
        )


class AnySource(InFolder):
    """Packed streams are known by their first bytes, wherever they come from."""

    def packed(self):
        """Yields archives of a stream."""
        yield gzip.compress(GOOD)
        yield pack(GOOD, Packing.GZIP) + LAST
        if zstandard is not None:
            yield zstandard.ZstdCompressor().compress(GOOD)

    def test_file_objects(self):
        for packed in self.packed():
            path = self.file(packed, "packed.jsonl")
            self.assertEqual(cityseq.check(io.BytesIO(packed)).features, 2)
            self.assertEqual(cityseq.check(support.Slow(packed, 1)).features, 2)
            with open(path, "rb") as file:
                self.assertEqual(cityseq.check(file).features, 2)
            with open(path, "rb", buffering=0) as file:
                self.assertEqual([each.id for each in cityseq.features(file)], ["a", "b"])
            with self.assertRaises(cityseq.ReadFault):
                cityseq.check(io.BytesIO(packed[:-1]))

    def test_standard_input(self):
        for packed in self.packed():
            path = self.file(packed, "packed.jsonl")
            for words in (("check",), ("check", "-")):
                self.assertEqual(
                    command(*words, given=packed), (b"valid lines=3 features=2\n", "", 0)
                )
            with open(path, "rb") as file:
                ran = subprocess.run(
                    [sys.executable, "-m", "cityseq", "filter", "-"],
                    stdin=file,
                    stdout=subprocess.PIPE,
                    timeout=60,
                    env={**os.environ, "PYTHONPATH": os.path.join(support.ROOT, "python")},
                )
            self.assertEqual((ran.stdout, ran.returncode), (GOOD, 0))
            self.assertEqual(command("check", given=packed[:-1])[2], 3)

    def test_what_only_begins_like_an_archive(self):
        for text in (b"\x1f", b"\x28\xb5\x2f", b"\x28"):
            result = cityseq.check(io.BytesIO(text))
            self.assertEqual((result.status, result.lines), (1, 0))

    def test_progress_counts_packed_bytes(self):
        done = []
        packed = gzip.compress(GOOD)
        cityseq.check(io.BytesIO(packed), progress=done.append)
        self.assertEqual(sum(done), len(packed))


class Wholes(InFolder):
    """Many packed files, each judged by one thread."""

    def files(self, count=9):
        for number in range(count):
            text = support.stream_by_chance(number) if number % 3 else HEADER + b"[]\n" * 3_000
            yield text, self.file(text, f"{number}.jsonl.gz")

    def test_they_are_judged_as_their_texts(self):
        texts, paths = zip(*self.files())
        for jobs in (1, 3):
            reports, done = [], []
            found = list(
                cityseq.check_files(
                    paths,
                    jobs=jobs,
                    keep_going=True,
                    line_limit=1_000,
                    on_report=reports.append,
                    progress=done.append,
                )
            )
            wanted = [cityseq.check(text, keep_going=True, line_limit=1_000) for text in texts]
            self.assertEqual(
                [(one.status, one.lines, one.features, one.refused) for one in found],
                [(one.status, one.lines, one.features, one.refused) for one in wanted],
            )
            self.assertEqual(
                [(report.file, report.line, report.code) for report in reports],
                [
                    (str(path), report.line, report.code)
                    for path, one in zip(paths, wanted)
                    for report in one.reports
                ],
            )
            self.assertEqual(sum(done), sum(os.path.getsize(path) for path in paths))
            self.assertEqual(
                [
                    numbered(one.reports)
                    for one in cityseq.check_files(
                        paths, jobs=jobs, keep_going=True, line_limit=1_000
                    )
                ],
                [numbered(one.reports) for one in wanted],
            )

    def test_reports_come_in_the_order_of_the_files(self):
        """Also that of a file whose header is invalid, which ends before the files before it."""
        first = self.file(HEADER + b"[]\n" * 50_000, "first.gz")
        paths = [first, *(self.file(b"[]\n", f"{number}.gz") for number in range(3))]
        told = []
        for _ in cityseq.check_files(paths, jobs=4, keep_going=True, on_report=told.append):
            pass
        self.assertEqual(
            [report.file for report in told], [str(first)] * 50_000 + list(map(str, paths[1:]))
        )

    def test_several_are_unpacked_at_once(self):
        import threading

        threads, read = set(), Unpacker.read

        def noted(unpacker, most=-1):
            threads.add(threading.get_ident())
            return read(unpacker, most)

        paths = [self.file(HEADER + PLAIN * 200_000, f"{number}.gz") for number in range(4)]
        with mock.patch.object(Unpacker, "read", noted):
            self.assertEqual(
                [result.features for result in cityseq.check_files(paths, jobs=4)], [200_000] * 4
            )
        self.assertGreater(len(threads - {threading.get_ident()}), 1)

    def test_a_run_that_is_given_up(self):
        paths = [path for _, path in self.files(6)]
        told = []

        def tell(report):
            told.append(report)
            if len(told) > 2_500:
                raise RuntimeError("enough")

        with self.assertRaises(RuntimeError):
            list(cityseq.check_files(paths * 3, jobs=4, keep_going=True, on_report=tell))
        begun = cityseq.check_files(paths, jobs=4)
        next(begun)
        begun.close()

    def test_each_has_its_output(self):
        texts, paths = zip(*self.files(4))
        folder = self.folder / "out"
        command("filter", "--keep-going", "--jobs", "3", "--output-dir", folder, *paths)
        for text, path in zip(texts, paths):
            one = support.in_one(text, keep_going=True)
            self.assertEqual((folder / path.name).exists(), one.end is None)
            if one.end is None:
                self.assertEqual(
                    gzip.decompress((folder / path.name).read_bytes()), bytes(one.output)
                )

    def test_a_stream_that_waits_for_the_one_before(self):
        """It holds as many answers as it may when it becomes the first one: the calls of the first
        stream take longer than the others."""
        text = HEADER + (feature("a") * 20 + b"{}\n") * 300
        paths = [self.file(text, f"{number}.city.jsonl.gz") for number in range(3)]

        class Late(Future):
            def result(self, timeout=None):
                if not self.done():
                    self.set_result(self.call())
                return super().result(timeout)

        first = []

        def submit(call):
            chunks = call.args[1]
            first.append(chunks)
            job = Late()
            job.call = call
            if chunks is not first[0]:
                job.result()
            return job

        work = asked("check", keep_going=True)
        streams = ((Stream(path, work, 1 << 14), True) for path in paths)
        with mock.patch("cityseq.run.streams.PART", 1 << 14):
            found = list(_Order(submit, lambda: 4).results(streams))
        self.assertEqual([result.refused for result in found], [300] * 3)
        self.assertEqual([result.file for result in found], list(map(str, paths)))

    def test_no_thread(self):
        paths = [path for _, path in self.files(5)]
        told_by_one = list(cityseq.check_files(paths, jobs=1, keep_going=True))
        wanted = [result.refused for result in told_by_one]

        def start(*_):
            raise RuntimeError("can't start new thread")

        with mock.patch("_thread.start_new_thread", start):
            work = asked("check", keep_going=True)
            told = []
            found = list(results((Stream(path, work, tell=told.append) for path in paths), 4))
        self.assertEqual(
            ([result.refused for result in found], len(told)),
            (wanted, sum(len(result.reports) for result in told_by_one)),
        )


if __name__ == "__main__":
    unittest.main()
