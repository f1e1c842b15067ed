"""Where streams come from and go to, and what is said of those that cannot be read or asked for."""
import gzip
import io
import mmap
import os
import socket
import subprocess
import sys
import threading
import time
import unittest
from unittest import mock

import cityseq
from cityseq.cli.stream_commands import ids_of
from cityseq.engine.judge import work_of
from cityseq.sources.chunks import Chunks
from cityseq.sources.parts import ListedPart, manifest_of
from cityseq.sources.regular import BlockHash

from . import support
from .support import HEADER, PLAIN, InFolder, command, feature, numbered

GOOD = HEADER + feature("a") + feature("b", "Road")
BROKEN = HEADER + feature("a") + feature("b", last=4) + feature("c")


def closed_map(path):
    """A mapped file that is closed."""
    with open(path, "rb") as file, mmap.mmap(file.fileno(), 0, access=mmap.ACCESS_READ) as mapped:
        return mapped


class Sources(InFolder):
    """Each kind of source and of output."""

    def test_each_kind(self):
        for text, status in ((GOOD, 0), (BROKEN, 1)):
            path, packed = self.file(text), self.file(text, "stream.city.jsonl.gz")
            with open(path, "rb") as file, open(path, "rb", buffering=0) as raw, gzip.open(
                packed
            ) as unpacked:
                sources = [
                    path,
                    str(path),
                    packed,
                    str(packed),
                    text,
                    bytearray(text),
                    memoryview(text),
                    file,
                    raw,
                    unpacked,
                    io.BytesIO(text),
                    support.Slow(text, 3),
                ]
                results = [cityseq.check(source, part_size=200) for source in sources]
            wanted = (
                (0, 3, "None")
                if status == 0
                else (1, 2, "line 3, byte 142: 25 vertex index out of range")
            )
            self.assertEqual(
                {(result.status, result.lines, str(result.end)) for result in results}, {wanted}
            )
            self.assertEqual(
                [results[0].file, results[2].file, results[4].file],
                [str(path), str(packed), "<bytes>"],
            )

    def write(self, target, pieces):
        """A thread that writes these pieces to a pipe, with pauses."""

        def run():
            with open(target, "wb", buffering=0) as pipe:
                for piece in pieces:
                    time.sleep(0.2)
                    pipe.write(piece)

        thread = threading.Thread(target=run)
        thread.start()
        self.addCleanup(thread.join)

    def waiting(self, pieces):
        """A pipe that does not block, to which these pieces are written with pauses."""
        end, begin = os.pipe()
        os.set_blocking(end, False)
        self.write(begin, pieces)
        return open(end, "rb")

    def test_an_archive_that_comes_byte_by_byte(self):
        path, packed = self.folder / "pipe", gzip.compress(GOOD)
        os.mkfifo(path)
        self.write(path, [packed[:1], packed[1:2], packed[2:]])
        self.assertEqual(cityseq.check(path).lines, 3)

    def test_a_pipe_that_does_not_block(self):
        """A pause is not its end, also where the text or an archive could end."""
        lines = GOOD.splitlines(keepends=True)
        for pieces in (lines, list(map(gzip.compress, lines)), [GOOD[:200], GOOD[200:]]):
            with self.waiting(pieces) as file:
                result = cityseq.check(file)
            self.assertEqual((result.status, result.lines), (0, 3))
        with self.waiting([b"a\n", b"b\n"]) as file:
            with mock.patch("sys.stdin", io.TextIOWrapper(file)):
                self.assertEqual(ids_of(None, "-", False), b"a\nb")

    def test_a_socket_that_is_also_written_and_does_not_block(self):
        """Its file has no descriptor, so nothing can wait for it: a pause is a fault."""
        lines = GOOD.splitlines(keepends=True)
        archive = b"".join(map(gzip.compress, lines))
        first = len(gzip.compress(lines[0]))
        for whole, cut in ((GOOD, len(lines[0])), (archive, 10), (archive, first)):
            ours, theirs = socket.socketpair()
            ours.setblocking(False)
            with ours, theirs, ours.makefile("rwb") as file:
                theirs.sendall(whole[:cut])
                with self.assertRaises(cityseq.ReadFault) as told:
                    cityseq.check(file)
                self.assertIn("no bytes were ready", str(told.exception))
            ours, theirs = socket.socketpair()
            ours.setblocking(False)
            with ours, ours.makefile("rwb") as file:
                with theirs:
                    theirs.sendall(whole)
                self.assertEqual(cityseq.check(file).lines, 3)

    def test_a_raw_file_of_an_archive_that_does_not_block(self):
        end, begin = os.pipe()
        os.set_blocking(end, False)
        with open(end, "rb", buffering=0) as file, open(begin, "wb", buffering=0) as pipe:
            pipe.write(gzip.compress(GOOD))
            with self.assertRaises(cityseq.ReadFault):
                cityseq.check(file)

    def test_a_folder_of_parts_is_not_overwritten(self):
        folder, hashed = self.folder / "folder", BlockHash()
        folder.mkdir()
        hashed.add(GOOD)
        part, manifest = folder / "part-00000.city.jsonl", folder / "_manifest.json"
        listed = ListedPart(part.name, 3, 2, len(GOOD), hashed.text())
        part.write_bytes(GOOD)
        manifest.write_bytes(manifest_of([listed], cityseq.__version__))
        for output in (part, manifest):
            before = output.read_bytes()
            with self.assertRaisesRegex(cityseq.RequestError, "is a file that is read"):
                cityseq.filter(folder, output, ids="no")
            words = ("filter", "--id", "no", "--output", str(output), str(folder))
            self.assertEqual((command(*words)[2], output.read_bytes()), (2, before))
        self.assertEqual(cityseq.filter(folder, folder / "other").features, 2)

    def test_a_line_that_is_too_long_ends_an_open_input(self):
        """No read follows it, which would wait, however long its judgement takes."""
        work = work_of("check", cityseq.Options(cityseq.Limits(line=1000)))
        chunks = []
        read, write = os.pipe()
        with open(read, "rb", buffering=0) as source, open(write, "wb", buffering=0) as stays_open:
            stays_open.write(HEADER + b"[" * 1001)
            thread = threading.Thread(target=lambda: chunks.extend(Chunks(source, work)))
            thread.start()
            thread.join(30)
            has_ended = not thread.is_alive()
            stays_open.close()  # so a read ends
            thread.join()
        self.assertTrue(has_ended)
        self.assertEqual((bytes(chunks[-1].text), chunks[-1].is_last), (b"[" * 1001, True))

    def test_outputs(self):
        path, packed, memory = self.folder / "out.jsonl", self.folder / "out.jsonl.gz", io.BytesIO()
        for output in (path, str(packed), memory):
            self.assertEqual(cityseq.filter(GOOD, output, types=["Road"]).features, 1)
        wanted = HEADER + feature("b", "Road")
        self.assertEqual(
            [path.read_bytes(), gzip.decompress(packed.read_bytes()), memory.getvalue()],
            [wanted] * 3,
        )
        with open(path, "wb", buffering=0) as raw:
            self.assertRaises(cityseq.InvalidStream, cityseq.filter, BROKEN, raw)
        self.assertEqual(path.read_bytes(), HEADER + feature("a"))

    def test_an_archive_that_is_cut_short(self):
        path = self.file(GOOD, "stream.jsonl.gz")
        path.write_bytes(path.read_bytes()[:-20])
        with self.assertRaises(cityseq.ReadFault):
            cityseq.check(path)
        path.write_bytes(gzip.compress(BROKEN + b" " * 5_000_000)[:-20])
        self.assertEqual(cityseq.check(path).end.line, 3)
        path.write_bytes(b"no archive")
        self.assertEqual([result.status for result in cityseq.check_files([path, GOOD])], [3, 0])

    def test_a_read_that_fails(self):
        for fails_at, lines in (
            (0, 0),
            (50, 0),
            (len(HEADER), 1),
            (len(GOOD) - 3, 2),
            (len(GOOD), 3),
        ):
            with self.assertRaises(cityseq.ReadFault) as caught:
                cityseq.check(support.Slow(GOOD, 11, fails_at), jobs=2)
            self.assertEqual((caught.exception.status, caught.exception.result.lines), (3, lines))
            self.assertEqual(caught.exception.words, "read fault: Input/output error")
        self.assertEqual(cityseq.check(support.Slow(BROKEN, 11, len(BROKEN) - 3)).status, 1)
        with self.assertRaises(cityseq.ReadFault) as caught:
            cityseq.check(support.Slow(BROKEN, 11, len(BROKEN)), keep_going=True)
        self.assertEqual(numbered(caught.exception.result.reports), [(3, 142, 25)])

    def test_a_file_that_changes_while_it_is_read(self):
        text = HEADER + PLAIN * 1_000
        for name, change in (
            ("emptied", lambda path: os.truncate(path, 0)),
            ("longer", lambda path: path.open("ab").write(PLAIN)),
            ("touched", lambda path: os.utime(path, (1, 1))),
        ):
            for jobs, file in ((1, "a.jsonl"), (3, "a.jsonl"), (3, "a.jsonl.gz")):
                path, output = self.file(text, file), self.folder / "out"
                for call in (
                    cityseq.check,
                    lambda source, **options: cityseq.filter(source, output, **options),
                ):
                    once = iter((change,))
                    with self.subTest(name, jobs=jobs, file=file), self.assertRaises(
                        cityseq.ReadFault
                    ) as caught:
                        call(
                            path,
                            jobs=jobs,
                            part_size=900,
                            progress=lambda _: next(once, lambda _: None)(path),
                        )
                    self.assertEqual(
                        str(caught.exception), f"{path}: read fault: changed while it was read"
                    )
                    self.assertFalse(output.exists())
                    self.file(text, file)
        self.assertEqual(cityseq.check(self.file(text)).status, 0)

    def test_a_file_that_changes_while_features_are_read(self):
        """And by `table` and `collect`."""
        path = self.file(HEADER + PLAIN * 20)

        def change(*_):
            with open(path, "ab") as file:
                file.write(PLAIN)

        for call in (
            lambda: [change() for _ in cityseq.features(path)],
            lambda: cityseq.table(path),
            lambda: cityseq.collect(path, io.BytesIO()),
        ):
            with mock.patch("cityseq.run.features._Table.add", change), mock.patch(
                "cityseq.convert.collecting.Collection.feature", change
            ), self.assertRaises(cityseq.ReadFault) as caught:
                call()
            self.assertIn("changed while it was read", str(caught.exception))

    def test_what_cannot_be_read(self):
        with open(self.file(GOOD)) as text:
            for source, kind in (
                (self.folder / "none", cityseq.ReadFault),
                (self.folder, cityseq.ReadFault),
                (text, cityseq.ReadFault),
                (3, cityseq.RequestError),
                (None, cityseq.RequestError),
                (closed_map(self.file(GOOD)), cityseq.ReadFault),
                (self.folder / "a\ud800", cityseq.ReadFault),
            ):
                with self.subTest(source=source), self.assertRaises(kind):
                    cityseq.check(source)

    def test_what_cannot_be_written(self):
        path = self.file(GOOD)
        for output, kind in (
            (self.folder, cityseq.WriteFault),
            (self.folder / "no" / "file", cityseq.WriteFault),
            (io.StringIO(), cityseq.RequestError),
            (3, cityseq.RequestError),
            (path, cityseq.RequestError),
            ("a\0b", cityseq.RequestError),
            ("a\ud800", cityseq.RequestError),
        ):
            with self.subTest(output=output), self.assertRaises(kind):
                cityseq.filter(path, output)
        self.assertEqual(path.read_bytes(), GOOD)
        if os.path.exists("/dev/full"):
            with self.assertRaises(cityseq.WriteFault):
                cityseq.filter(HEADER + PLAIN * 100_000, "/dev/full", part_size=1 << 20)

    @unittest.skipUnless(
        os.path.exists("/proc/self/status"), "the system does not tell the peak of memory"
    )
    def test_memory_is_bounded(self):
        """A stream of a gigabyte that has no LF behind its header, in less than a fifth of that."""
        script = """if True:
            import cityseq
            class Endless:
                left = 1 << 30
                def read(self, most):
                    self.left -= most
                    return b"[" * most if self.left > 0 else b""
            class Headed(Endless):
                header = %r
                def read(self, most):
                    told, self.header = self.header, b""
                    return told or super().read(most)
            for keep_going in (False, True):
                for source in (Headed(), Endless()):
                    result = cityseq.check(source, jobs=2, keep_going=keep_going)
                    reports = [(each.line, each.byte, each.code) for each in result.reports]
                    print(*reports, result.lines)
            found = [0]
            def note(report):
                found.append(report.line)
            lines = %r + b"x\\n" * (1 << 20)
            cityseq.check(lines, jobs=2, keep_going=True, on_report=note)
            print(len(found), found[-1])
            peak = dict(line.split(":") for line in open("/proc/self/status"))["VmHWM"]
            print(int(peak.split()[0]) < 200_000)"""
        ran = subprocess.run(
            [sys.executable, "-c", script % (HEADER, HEADER)],
            stdout=subprocess.PIPE,
            timeout=240,
            env={**os.environ, "PYTHONPATH": os.path.join(support.ROOT, "python")},
        )
        self.assertEqual(
            ran.stdout.decode().splitlines(),
            [
                "(2, 8388608, 2) 1",
                "(1, 8388608, 2) 0",
                "(2, 8388608, 2) 2",
                "(1, 8388608, 2) 0",
                "1048577 1048577",
                "True",
            ],
        )

    def test_memory_that_is_refused(self):
        script = """if True:
            import io, resource, cityseq
            resource.setrlimit(resource.RLIMIT_AS, (1_200 << 20, 1_200 << 20))
            for jobs in (1, 3):
                try:
                    text = %r + b" " * (80 << 20)
                    cityseq.filter(text, io.BytesIO(), line_limit=1 << 30, jobs=jobs)
                except cityseq.MemoryFault as fault:
                    print(fault, fault.status, fault.result.lines)
            print(cityseq.check(%r).status)"""
        ran = subprocess.run(
            [sys.executable, "-c", script % (GOOD, GOOD)],
            stdout=subprocess.PIPE,
            timeout=240,
            env={**os.environ, "PYTHONPATH": os.path.join(support.ROOT, "python")},
        )
        self.assertEqual(
            ran.stdout.decode(), "<bytes>: out of memory 5 3\n<bytes>: out of memory 5 3\n0\n"
        )


class Requests(unittest.TestCase):
    """What cannot be asked is an exception with clear words, and nothing is read or written."""

    def test_limits(self):
        for options, words in (
            ({"line_limit": 0}, "the line limit is not from 1 to 1,073,741,824: 0"),
            (
                {"line_limit": 1_073_741_825},
                "the line limit is not from 1 to 1,073,741,824: 1073741825",
            ),
            (
                {"line_limit": 1 << 64 | 5},
                "the line limit is not from 1 to 1,073,741,824: 18446744073709551621",
            ),
            ({"depth": 1_025}, "the depth is not from 1 to 1,024: 1025"),
            ({"depth": -1}, "the depth is not from 1 to 1,024: -1"),
            ({"depth": "9"}, "the depth is not from 1 to 1,024: '9'"),
            ({"jobs": 0}, "jobs are a whole number from 1: 0"),
            ({"part_size": 0}, "a part has one byte or more: 0"),
        ):
            with self.subTest(**options), self.assertRaises(cityseq.RequestError) as caught:
                cityseq.check(GOOD, **options)
            self.assertEqual((str(caught.exception), caught.exception.status), (words, 2))
        self.assertEqual(cityseq.check(GOOD, line_limit=1_073_741_824, depth=1_024).status, 0)

    def test_queries(self):
        for options, words in (
            ({"types": ["Building", "Shed"]}, "unknown object type: Shed"),
            ({"types": "building"}, "unknown object type: building"),
            ({"box": "1,2,3"}, "bad box"),
            ({"box": [1, 2, 3]}, "bad box"),
            ({"box": "1e18,0,2e18,1"}, "box number out of range"),
            ({"box": [3, 0, 1, 1]}, "empty box"),
            ({"box": [float("nan"), 0, 1, 1]}, "bad box"),
            ({"box": "\0"}, "bad box"),
            (
                {"ids": ["a\nb"]},
                "no text with a line's end in it can be asked for among ids: 'a\\nb'",
            ),
            ({"ids": ["\ud800"]}, "a text is not UTF-8, among ids"),
            ({"lods": [2.2]}, "LoDs are texts: 2.2 is none"),
        ):
            output = io.BytesIO()
            with self.subTest(**options), self.assertRaises(ValueError) as caught:
                cityseq.filter(GOOD, output, **options)
            self.assertEqual((str(caught.exception), output.getvalue()), (words, b""))

    def test_one_text_and_none(self):
        for ids, features in (
            ("a", 1),
            (["a", "b"], 2),
            ([], 0),
            ([""], 0),
            (None, 2),
            (iter(["b"]), 1),
            (["a\r"], 0),
        ):
            self.assertEqual(cityseq.filter(GOOD, io.BytesIO(), ids=ids).features, features)

    def test_no_library(self):
        for path, words in (
            ("/nowhere", b"there is no library /nowhere"),
            (__file__, b"is no library of cityseq"),
        ):
            ran = subprocess.run(
                [sys.executable, "-m", "cityseq", "check", "-"],
                input=b"",
                stderr=subprocess.PIPE,
                env={
                    **os.environ,
                    "PYTHONPATH": os.path.join(support.ROOT, "python"),
                    "CITYSEQ_LIBRARY": path,
                },
            )
            self.assertEqual(
                (ran.returncode, words in ran.stderr, b"Traceback" in ran.stderr), (2, True, False)
            )


if __name__ == "__main__":
    unittest.main()
