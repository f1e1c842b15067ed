"""Files that are read by their places, where their chunks are judged: the same comes of them as of
their bytes."""
import io
import os
import random
import unittest
from dataclasses import replace
from unittest import mock

import cityseq
from cityseq.engine.judge import judge, judge_lines
from cityseq.sources.chunks import Chunks
from cityseq.sources.regular import FileChunk, RegularFile, regular_file

from . import support
from .support import HEADER, PLAIN, InFolder, asked, feature

READ = os.preadv


def failing_at(place):
    """Reads of parts that fail from this byte of the file on."""

    def read(descriptor, rooms, begin):
        if begin == place:
            raise OSError(5, "Input/output error")
        count = place - begin if begin < place < begin + len(rooms[0]) else len(rooms[0])
        return READ(descriptor, [rooms[0][:count]], begin)

    return mock.patch("os.preadv", read)


def few_at_once(test):
    """Reads only a little before it knows the header, so that short files have chunks too."""
    patch = mock.patch("cityseq.sources.chunks.PIECE", 16)
    patch.start()
    test.addCleanup(patch.stop)


def cut(path, size, line_limit, keep_going=False):
    """The header, and the parts of each chunk."""
    work = asked("check", line_limit=line_limit, keep_going=keep_going)
    with mock.patch("cityseq.engine.judge.HEADERS", 0):
        found = list(Chunks(str(path), work, size))
    parts = [[bytes(part) for _, part in chunk.parts(size)] for chunk in found]
    return found[0].header, [each for each in parts if each not in ([], [b""])]


class Cuts(InFolder):
    """Where files are cut, without the library."""

    def setUp(self):
        super().setUp()
        few_at_once(self)

    def test_parts_make_the_file_again(self):
        for seed in range(150):
            text = support.stream_by_chance(seed)
            path = self.file(text)
            longest = max(map(len, text.split(b"\n"))) + 1
            for size in (1, 10, 300, 10_000):
                header, found = cut(path, size, 5_000)
                parts = [part for each in found for part in each]
                self.assertEqual(header + b"".join(parts), text)
                self.assertTrue(all(part.endswith(b"\n") for part in parts[:-1]))
                most = 1.25 * max(size, 4 * longest)  # a short rest is not a part of its own
                self.assertTrue(all(len(part) <= most for part in parts))

    def test_parts_are_as_long_as_asked(self):
        path, line = self.file(b"h\n" + b"abcd\n" * 7 + b"ab"), b"abcd\n"
        lines = [[line * 3], [line * 3], [line + b"ab"]]
        self.assertEqual(cut(path, 13, 50), (b"h\n", lines))

    def test_lines_begin_between_the_places_of_a_chunk(self):
        text = b"a\n" * 5 + b"b" * 20 + b"\n" + b"\n" + b"cd\n" * 5 + b"e"
        path = self.file(text)
        begins = [0, *(place + 1 for place, sign in enumerate(text) if sign == 10)]
        with open(path, "rb") as file:
            source = RegularFile(file.fileno())
        for begin in range(len(text)):
            for end in range(begin + 1, len(text) + 1):
                for size in (1, 4, 100):
                    chunk = FileChunk(
                        "f", b"", begin, is_first=begin == 0, end=end, source=source, line_limit=50
                    )
                    first, last = (
                        min((each for each in begins if each >= place), default=len(text))
                        for place in (begin, end)
                    )
                    parts = [(place, bytes(part)) for place, part in chunk.parts(size)]
                    told = begin, end, size
                    self.assertEqual(b"".join(part for _, part in parts), text[first:last], told)
                    for place, part in parts:
                        self.assertEqual(text[place : place + len(part)], part, told)
                        self.assertIn(place, begins, told)

    def test_a_text_of_its_own(self):
        """It has the same bytes, also by short reads, and those before a fault."""
        path, look = self.file(bytes(range(256)) * 4), os.pread
        fault = OSError(5, "Input/output error")

        def short(descriptor, count, begin):
            if begin >= 900:
                raise fault
            return look(descriptor, min(count, 7, 900 - begin), begin)

        with open(path, "rb") as file:
            source = regular_file(file)
            for begin, end in ((0, 0), (0, 1_024), (3, 700), (1_000, 2_000), (2_000, 3_000)):
                part, none = source.read_own(begin, end)
                self.assertEqual((type(part), none), (bytes, None))
                self.assertEqual(part, bytes(source.read(begin, end)[0]))
            with mock.patch("os.pread", short):
                self.assertEqual(source.read_own(0, 800), (bytes(source.read(0, 800)[0]), None))
                self.assertEqual(source.read_own(0, 901), (bytes(source.read(0, 900)[0]), fault))

    def test_ends_far_from_where_they_are_looked_for(self):
        lines = [
            bytes([97 + number % 26]) * (length - 1) + b"\n"
            for number, length in enumerate(
                (
                    1,
                    70_000,
                    300_000,
                    65_536,
                    65_537,
                    900_000,
                    3,
                    1_000_000,
                    1_000_001,
                    2_500_000,
                    1_048_576,
                    5,
                    200_000,
                )
            )
        ]
        path = self.file(b"h\n" + b"".join(lines) + b"z" * 100)
        for size in (65_536, 300_000, 1_000_000):
            _, found = cut(path, size, 8_388_608)
            parts = [part for each in found for part in each]
            self.assertEqual(b"".join(parts), b"".join(lines) + b"z" * 100)
            self.assertTrue(all(part.endswith(b"\n") for part in parts[:-1]))
            self.assertTrue(all(len(part) <= 1.25 * max(size, 4 * 2_500_000) for part in parts))

    def test_a_part_is_one_line_at_least(self):
        """Parts that are shorter than a line take no time of their own."""
        line = b"a" * 99 + b"\n"
        path = self.file(b"h\n" + line * 50 + b"b" * 300)
        work = asked("check", line_limit=1_000)
        for size, count in ((1, 51), (30, 51), (100, 51), (150, 34)):
            with mock.patch("cityseq.engine.judge.HEADERS", 0):
                found = list(Chunks(str(path), work, size))
            self.assertEqual(len(found), count, size)
            self.assertEqual([chunk.is_last for chunk in found], [False] * (count - 1) + [True])
            self.assertEqual(sum(chunk.length for chunk in found), 50 * 100 + 300)

    def test_a_line_that_is_too_long_is_cut(self):
        path = self.file(b"h\na\n" + b"b" * 200 + b"\nc\n")
        self.assertEqual(cut(path, 4, 200)[1], [[b"a\n", b"b" * 200 + b"\n"], [b"c\n"]])
        for limit, length in ((49, 52), (9, 12)):
            (first, line), *others = cut(path, 4, limit)[1]
            self.assertEqual((first, line, others), (b"a\n", b"b" * length, [[b"c\n"]]))
            self.assertEqual(
                cut(path, 4, limit, True)[1], [[b"a\n", b"b" * length + b"\n"], [b"c\n"]]
            )

    def test_an_end_that_cannot_be_read(self):
        path = self.file(HEADER + PLAIN * 50)
        with mock.patch("os.pread", side_effect=OSError(5, "Input/output error")):
            for jobs in (1, 2):
                with self.assertRaises(cityseq.ReadFault) as raised:
                    cityseq.check(path, part_size=1_000, jobs=jobs)
                self.assertEqual(raised.exception.result.lines, 1 + 1_000 // len(PLAIN))

    def test_what_has_no_places(self):
        self.assertIsNone(regular_file(io.BytesIO(b"h\n")))
        left, right = os.pipe()
        os.close(right)
        with open(left, "rb") as pipe:
            self.assertIsNone(regular_file(pipe))

    def test_a_file_that_is_cut_short(self):
        path = self.file(b"h\n" + b"a\n" * 100)
        with open(path, "rb") as file:
            held = regular_file(file)
            os.truncate(path, 50)
            self.assertEqual(
                [bytes(held.read(*ends)[0]) for ends in ((0, 10), (46, 60), (60, 70))],
                [b"h\n" + b"a\n" * 4, b"a\n" * 2, b""],
            )


class Counted(InFolder):
    """Chunks that are judged in parts."""

    def setUp(self):
        super().setUp()
        few_at_once(self)

    def test_the_answers_for_parts_are_joined(self):
        broken, work = b"x" * (len(PLAIN) - 1) + b"\n", asked("check", keep_going=True)
        for text in (
            PLAIN * 10 + b"{",
            PLAIN * 4 + broken + PLAIN * 5 + broken,
            broken,
            b"{" * 300,
        ):
            path = self.file(HEADER + text)
            whole = judge_lines(work, "f", HEADER, text, True)
            with open(path, "rb") as file:
                chunk = FileChunk(
                    "f",
                    HEADER,
                    len(HEADER),
                    is_first=True,
                    end=len(HEADER) + len(text),
                    source=RegularFile(file.fileno()),
                    line_limit=work.line_limit,
                )
            for size in (1, len(PLAIN), 3 * len(PLAIN), 5_000):
                answer = judge(chunk, work, size)
                self.assertEqual(bytes(answer.told), bytes(whole.told))
                self.assertEqual(list(answer.reports), list(whole.reports))
                self.assertEqual((list(answer.codes), answer.size), (list(whole.codes), len(text)))

    def test_a_chunk_ends_with_the_first_line_that_is_not_valid(self):
        text = PLAIN * 4 + b"x\n" + PLAIN * 5
        path, work = self.file(HEADER + text), asked("check")
        (chunk,) = Chunks(str(path), work)
        answer = judge(chunk, work, 2 * len(PLAIN))
        self.assertEqual((answer.status, answer.lines, answer.end.line), (1, 5, 6))

    def test_files_are_counted_as_their_bytes(self):
        for seed in range(200):
            text, chance = support.stream_by_chance(seed), random.Random(seed)
            if seed % 3 == 0:
                text = HEADER + b"".join(
                    feature(f"b{number}") * chance.randrange(4) for number in range(20)
                )
            wanted = self.told(text, line_limit=1_000)
            for jobs in (1, 3):
                size = chance.randrange(1, 2_000)
                with self.subTest(seed=seed, jobs=jobs, size=size):
                    self.assertEqual(
                        self.told(self.file(text), line_limit=1_000, part_size=size, jobs=jobs),
                        wanted,
                    )

    def told(self, source, **options):
        """What `check` tells, but for the file's name, and how many bytes were done."""
        done = []
        result = cityseq.check(source, progress=done.append, **options)
        end = result.end and replace(result.end, file="")
        return replace(result, file="", end=end, reports=[]), sum(done) if result.valid else None

    def test_reads_that_fail(self):
        length, text = len(PLAIN), HEADER + PLAIN * 100
        for place in (len(HEADER), len(HEADER) + 40 * length, len(HEADER) + 41 * length + 7):
            for jobs in (1, 2):
                with self.subTest(place=place, jobs=jobs), failing_at(place), self.assertRaises(
                    cityseq.ReadFault
                ) as raised:
                    cityseq.check(self.file(text), part_size=10 * length, jobs=jobs)
                self.assertEqual(raised.exception.result.lines, 1 + (place - len(HEADER)) // length)


class Runs(InFolder):
    """What comes of files."""

    def setUp(self):
        super().setUp()
        few_at_once(self)

    def filtered(self, source, **options):
        output = io.BytesIO()
        try:
            result = cityseq.filter(source, output, **options)
        except cityseq.CityseqError as fault:
            result = fault.result
        end = result.end and replace(result.end, file="")
        reports = [replace(report, file="") for report in result.reports]
        return output.getvalue(), replace(result, file="", end=end, reports=reports)

    def test_vectors(self):
        for case in support.cases():
            path = self.file(case["text"])
            for size in (1, 60, 1 << 20):
                with self.subTest(case["name"], size=size):
                    output, result = self.filtered(
                        path,
                        part_size=size,
                        jobs=3 if size == 60 else 1,
                        **support.options_of(case),
                    )
                    told = str(result.end) if result.end else ""
                    self.assertEqual((output, told, result.status), support.wanted_of(case))
                    self.assertEqual(result.lines, int(case["lines"]))

    def test_streams_by_chance(self):
        for seed in range(200):
            text, chance = support.stream_by_chance(seed), random.Random(seed)
            options = {
                "line_limit": 1_000,
                "keep_going": seed % 2 == 0,
                "types": chance.choice((None, "Road")),
            }
            cut = {"part_size": chance.randrange(1, 900), "jobs": chance.randrange(1, 5)}
            with self.subTest(seed=seed):
                self.assertEqual(
                    self.filtered(self.file(text), **cut, **options), self.filtered(text, **options)
                )
                text = self.filtered(text, **options)[0] or text  # what is valid of it
                one, many = (
                    cityseq.info(
                        source, exact_lods=True, line_limit=1_000, part_size=cut["part_size"]
                    )
                    for source in (text, self.file(text))
                )
                self.assertEqual(
                    (one.lines, one.features, one.types, one.lods, one.box),
                    (many.lines, many.features, many.types, many.lods, many.box),
                )

    def test_lods_by_escapes(self):
        path = self.file(HEADER + feature("a").replace(b'"lod"', b'"l\\u006fd"') * 3)
        self.assertEqual(
            [cityseq.info(path, exact_lods=True, part_size=size).lods for size in (1, 300, 1_000)],
            [{"2.2": 3}] * 3,
        )

    def test_a_read_that_fails(self):
        text = HEADER + feature("a") * 2_000 + feature("b", last=4) + feature("c") * 2_000
        path, length = self.file(text), len(feature("a"))
        for place in (
            len(HEADER),
            len(HEADER) + 1_000 * length,
            len(HEADER) + 1_100 * length + 7,
            len(HEADER) + 3_000 * length + 7,
        ):
            whole = text[: text.rfind(b"\n", 0, place) + 1]
            for keep_going in (False, True):
                wanted, result = self.filtered(whole, keep_going=keep_going)
                for size, jobs in ((length * 500, 1), (length * 1_000, 3), (200_000, 2)):
                    with self.subTest(place=place, keep_going=keep_going, size=size), failing_at(
                        place
                    ):
                        output, found = self.filtered(
                            path, part_size=size, jobs=jobs, keep_going=keep_going
                        )
                        self.assertEqual(
                            (output, found.reports, found.lines),
                            (wanted, result.reports, result.lines),
                        )
                        fault = (
                            (1, None)
                            if result.end is not None
                            else (3, "read fault: Input/output error")
                        )
                        self.assertEqual((found.status, found.fault), fault)

    def test_memory_that_is_refused(self):
        from cityseq.engine import Room

        usual = Room.of

        def refusing(room, size):
            if size > 1_000:
                raise MemoryError
            return usual(room, size)

        path = self.file(HEADER + PLAIN * 10 + PLAIN[:-1] + b" " * 2_000 + b"\n" + PLAIN)
        for jobs in (1, 2):
            for call in (
                cityseq.check,
                cityseq.info,
                lambda *given, **options: cityseq.filter(*given, io.BytesIO(), **options),
            ):
                with self.subTest(jobs=jobs, call=call), mock.patch(
                    "cityseq.engine.Room.of", refusing
                ):
                    with self.assertRaises(cityseq.MemoryFault) as raised:
                        call(path, part_size=2 * len(PLAIN), jobs=jobs)
                    self.assertEqual(
                        (raised.exception.result.status, raised.exception.result.lines), (5, 11)
                    )

    def test_what_is_opened_is_closed(self):
        if not os.path.exists("/proc/self/fd"):
            self.skipTest("the system does not tell what is open")
        path = self.file(HEADER + PLAIN * 50 + b"{}\n" + PLAIN * 20_000)
        before = len(os.listdir("/proc/self/fd"))
        for jobs in (1, 4):
            self.assertEqual(cityseq.check(path, part_size=1_000, jobs=jobs).end.line, 52)
            self.assertEqual(
                cityseq.check(path, part_size=1_000, jobs=jobs, keep_going=True).refused, 1
            )
        self.assertEqual(len(os.listdir("/proc/self/fd")), before)


if __name__ == "__main__":
    unittest.main()
