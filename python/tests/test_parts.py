"""The law of parts: what comes of a stream does not depend on where it is cut, nor on how many
threads judge its parts."""
import io
import os
import platform
import random
import subprocess
import sys
import unittest
from concurrent.futures import ThreadPoolExecutor

import cityseq
from cityseq.sources.chunks import Chunks

from . import support
from .support import HEADER, PLAIN, asked, in_one, numbered


def parts_of(text, size, line_limit=1_000, keep_going=False, piece=7):
    """The header and the parts of a stream, read a few bytes at a time."""
    work = asked("check", line_limit=line_limit, keep_going=keep_going)
    found = list(Chunks(support.Slow(text, piece), work, size))
    return found[0].header, [bytes(chunk.text) for chunk in found if chunk.text]


def filtered(text, **options):
    """What a filter writes of a stream, and its result."""
    output = io.BytesIO()
    try:
        result = cityseq.filter(text, output, **options)
    except cityseq.InvalidStream as fault:
        result = fault.result
    return output.getvalue(), result


# Prints how many pages the system had to find for the last ten of some calls, each with a line of
# many numbers, in a thread.
CALLS = """
import resource
from cityseq.engine import keep_room
from cityseq.engine.judge import Options, judge_lines, work_of
from cityseq.run.streams import in_thread
line = (
    b'{"type":"CityJSONFeature","id":"b",'
    b'"CityObjects":{"b":{"type":"Building","attributes":{"a":[%s0]}}},"vertices":[]}'
)
part, header = bytearray(line % (b"0," * NUMBERS)), HEADER
work = work_of("check", Options())
keep_room(1)
def judge_often():
    for count in 3, 10:
        begun = resource.getrusage(resource.RUSAGE_SELF).ru_minflt
        for _ in range(count):
            assert judge_lines(work, "one", header, part, True).kept == 1
    return resource.getrusage(resource.RUSAGE_SELF).ru_minflt - begun
print(in_thread(judge_often))
"""


class Room(unittest.TestCase):
    """The memory that a call asks for."""

    def test_less_than_twice_what_its_lines_need(self):
        work = asked("check", line_limit=1_000)
        for header, part, limit in (
            (b"", b"", 1),
            (b"h" * 8, b"p" * 7, 8),
            (b"h" * 9, b"p" * 7, 16),
            (b"h", b"p" * 513, 1_000),
            (b"h", b"p" * 1_001, 1_000),
        ):
            self.assertEqual(work.request(header, part).line_limit, limit)

    @unittest.skipUnless(platform.libc_ver()[0] == "glibc", "the C library is another one")
    def test_it_is_kept_for_the_next_call(self):
        for numbers in (100_000, 3_000_000):
            script = CALLS.replace("HEADER", repr(HEADER)).replace("NUMBERS", str(numbers))
            ran = subprocess.run(
                [sys.executable, "-c", script],
                stdout=subprocess.PIPE,
                timeout=60,
                check=True,
                env={**os.environ, "PYTHONPATH": os.path.join(support.ROOT, "python")},
            )
            self.assertLess(int(ran.stdout), 300)  # of some 3,500 that they touch, or 100,000


class Cuts(unittest.TestCase):
    """Where streams are cut, without the library."""

    def test_parts_make_the_stream_again(self):
        for seed in range(200):
            text = support.stream_by_chance(seed)
            for size in (1, 10, 300, 10_000):
                header, parts = parts_of(
                    text, size, 5_000, piece=random.Random(seed).randrange(1, 900)
                )
                self.assertEqual(header + b"".join(parts), text)
                self.assertTrue(all(part.endswith(b"\n") for part in parts[:-1]))
                self.assertTrue(
                    all(len(part) <= size or part.count(b"\n") == 1 for part in parts[:-1])
                )

    def test_a_part_of_one_line_each(self):
        self.assertEqual(parts_of(b"h\na\n\nb", 1), (b"h\n", [b"a\n", b"\n", b"b"]))
        self.assertEqual(parts_of(b"h\na\n\nb\n", 4), (b"h\n", [b"a\n\n", b"b\n"]))
        self.assertEqual(parts_of(b"h\n", 1), (b"h\n", []))
        self.assertEqual(parts_of(b"", 1), (b"", []))

    def test_a_line_that_is_too_long(self):
        """It is cut if its end has not come yet, one byte after the limit."""
        text = b"h\n" + b"a" * 50 + b"\nb\n"
        self.assertEqual(parts_of(text, 4, 46), (b"h\n", [b"a" * 47]))
        self.assertEqual(parts_of(text, 4, 46, True), (b"h\n", [b"a" * 47 + b"\n", b"b\n"]))
        self.assertEqual(parts_of(text, 4, 49), (b"h\n", [b"a" * 50 + b"\n", b"b\n"]))
        self.assertEqual(parts_of(text, 4, 49, True), (b"h\n", [b"a" * 50 + b"\n", b"b\n"]))
        self.assertEqual(parts_of(text, 4, 50), (b"h\n", [b"a" * 50 + b"\n", b"b\n"]))
        self.assertEqual(parts_of(text, 4, 9, True), (b"h\n", [b"a" * 10 + b"\n", b"b\n"]))
        self.assertEqual(parts_of(b"a" * 50 + b"\nb\n", 4, 9), (b"a" * 10, []))

    def test_a_read_that_fails_leaves_whole_lines(self):
        (chunk,) = Chunks(support.Slow(b"h\na\nbbb\n", 3, 6), asked("check"), 100)
        self.assertEqual((chunk.header, bytes(chunk.text)), (b"h\n", b"a\n"))
        self.assertEqual(str(chunk.fault), "<stream>: read fault: Input/output error")


class Vectors(unittest.TestCase):
    """What has to come of each vector, by the table."""

    def test_each_by_every_cut(self):
        for case in support.cases():
            for size in (1, 60, 1 << 20):
                with self.subTest(case["name"], size=size):
                    output, result = filtered(
                        case["text"],
                        part_size=size,
                        jobs=1 if size > 60 else 3,
                        **support.options_of(case),
                    )
                    told = str(result.end) if result.end else ""
                    self.assertEqual((output, told, result.status), support.wanted_of(case))
                    self.assertEqual(result.lines, int(case["lines"]))
                    if case["peaks"] != "-":
                        self.assertEqual(
                            f"{result.peak_bytes} {result.peak_tokens} {result.peak_depth}",
                            case["peaks"],
                        )
                    self.assertEqual(
                        numbered(result.reports),
                        [] if result.end is None else numbered([result.end]),
                    )

    def test_check_and_info(self):
        for case in support.cases():
            if not {"-", "--tree", "--extensions"}.issuperset(case["query"].split()):
                continue
            wanted = support.wanted_of(case)[1:]
            for result in (
                cityseq.check(case["text"], part_size=1, jobs=2, **support.options_of(case)),
                cityseq.info(case["text"], part_size=1, jobs=2, **support.options_of(case)),
            ):
                with self.subTest(case["name"]):
                    self.assertEqual((str(result.end) if result.end else "", result.status), wanted)
                    self.assertEqual(result.lines, int(case["lines"]))


class Chance(unittest.TestCase):
    """Streams made by chance: many parts against one."""

    def compare(self, text, chance, **options):
        one = in_one(text, **options)
        cut = {"part_size": chance.randrange(1, 900), "jobs": chance.randrange(1, 5)}
        output, many = filtered(text, **cut, **options)
        reports = one.reports + [one.end] * (one.end is not None)
        self.assertEqual(output, bytes(one.output))
        self.assertEqual(numbered(many.reports), numbered(reports))
        self.assertEqual([report.id for report in many.reports], [report.id for report in reports])
        self.assertEqual(
            [report.excerpt for report in many.reports], [report.excerpt for report in reports]
        )
        self.assertEqual(
            (many.lines, many.features, many.refused), (one.lines, one.kept, one.refused)
        )
        self.assertEqual((many.peak_bytes, many.peak_tokens, many.peak_depth), one.peaks)
        self.assertEqual(many.status, int(one.end is not None or one.refused > 0))

    def test_filters(self):
        for seed in range(400):
            text, chance = support.stream_by_chance(seed), random.Random(seed)
            options = chance.choice(
                (
                    {},
                    {"types": "Road"},
                    {"lods": ["2.2"]},
                    {"exclude": True, "ids": ["b1", "b2"]},
                    {"box": [0, 0, 11, 21]},
                )
            )
            with self.subTest(seed=seed, **options):
                self.compare(text, chance, line_limit=1_000, keep_going=seed % 2 == 0, **options)

    def test_tallies(self):
        for seed in range(200):
            text, chance = support.stream_by_chance(seed), random.Random(seed)
            with self.subTest(seed=seed):
                text = (
                    in_one(text, line_limit=1_000, keep_going=True).output or text
                )  # what is valid of it
                one = in_one(bytes(text), "info", line_limit=1_000, exact_lods=True)
                many = cityseq.info(
                    text,
                    exact_lods=True,
                    line_limit=1_000,
                    part_size=chance.randrange(1, 900),
                    jobs=3,
                )
                self.assertEqual((many.features, many.lines), (one.kept, one.lines))
                if one.end is None:
                    self.assertEqual([many.x, many.y, many.z], list(one.tally.ranges))
                    self.assertEqual(
                        many.types,
                        {name: count for name, count in one.tally.types.items() if count},
                    )
                    self.assertEqual(
                        many.classes,
                        {name: count for name, count in one.tally.classes.items() if count},
                    )
                    self.assertEqual(many.lods, one.tally.lods)

    @unittest.skipUnless(os.path.exists(support.PROGRAM), "the program is not built")
    def test_the_program(self):
        for seed in range(60):
            text = support.stream_by_chance(seed)
            with self.subTest(seed=seed):
                output, result = filtered(
                    text, line_limit=1_000, keep_going=True, part_size=200, jobs=2
                )
                said = "".join(f"{report}\n" for report in result.reports).encode()
                wanted = support.program(
                    "filter", "--line-limit", "1000", "--keep-going", given=text
                )
                self.assertEqual((output, said, result.status), wanted)


class Many(unittest.TestCase):
    """Many lines, and many threads."""

    def test_a_million_lines(self):
        text = HEADER + PLAIN * 1_000_000
        result = cityseq.check(text, jobs=4, part_size=1 << 20)
        self.assertEqual((result.status, result.lines, result.features), (0, 1_000_001, 1_000_000))
        output, result = filtered(text[:-2] + b"\n" + PLAIN, jobs=4)
        self.assertEqual(numbered(result.reports), [(1_000_001, len(PLAIN) - 2, 4)])
        self.assertEqual(output, HEADER + PLAIN * 999_999)

    def test_more_reports_than_there_is_room_for(self):
        text = HEADER + (PLAIN + b"{}\n") * 50_000
        result = cityseq.check(text, keep_going=True, jobs=2)
        self.assertEqual((result.status, result.refused, result.features), (1, 50_000, 50_000))
        self.assertEqual(numbered(result.reports), [(line, 0, 10) for line in range(3, 100_003, 2)])

    def test_eight_threads_at_once(self):
        text = HEADER + b"".join(support.feature(f"b{number}") for number in range(3_000))
        with ThreadPoolExecutor(8) as pool:
            answers = list(
                pool.map(
                    lambda size: filtered(text, part_size=size, jobs=2),
                    (10_000 + 1_000 * n for n in range(32)),
                )
            )
        self.assertTrue(
            all(output == text and result.features == 3_000 for output, result in answers)
        )

    def test_many_files(self):
        texts = [
            HEADER + PLAIN * number + (b"[]\n" if number % 3 == 2 else b"") for number in range(60)
        ]
        found = list(cityseq.check_files(texts, jobs=3, part_size=500))
        self.assertEqual([result.features for result in found], list(range(60)))
        self.assertEqual(
            [result.status for result in found], [int(number % 3 == 2) for number in range(60)]
        )


if __name__ == "__main__":
    unittest.main()
