"""Parts that are cut at random places, judged and joined by the library: the same as the whole, of
valid streams and of others."""
import itertools
import random
import unittest

from cityseq.engine import CallStatus, RawAnswer, RawRequest, RawTally, library
from cityseq.engine.judge import Answer, judge_lines
from cityseq.sources.chunks import whole_lines

from . import support
from .support import HEADER, PLAIN, asked, feature

STREAMS = 300
OPTIONS = ({}, {"types": "Road"}, {"lods": ["2.2"]}, {"exclude": True, "ids": ["b1", "b2"]})


def headed(text):
    """The header of a stream, and what follows it."""
    end = text.find(b"\n") + 1 or len(text)
    return text[:end], text[end:]


def cut(part, chance):
    """The parts of a part, which end where the library says, and what is left without LF."""
    parts = []
    while part:
        end = library().part_end(part, chance.choice((1, 90, 400, 5_000))) or len(part)
        parts.append(part[:end])
        part = part[end:]
    return parts or [b""]


def fields(raw):
    """The numbers of an answer."""
    return {name: getattr(raw, name) for name, _ in raw._fields_}


def folded(answers, header, chance):
    """All answers as one, joined two by two in any order of joining."""
    answers = list(answers)
    while len(answers) > 1:
        place = chance.randrange(len(answers) - 1)
        pair = answers[place : place + 2]
        answers[place : place + 2] = [library().answer_then(*pair, len(header))]
    return answers[0]


def streams():
    """Streams by chance, valid and others, with what chooses among their cuts."""
    for seed in range(STREAMS):
        chance, text = random.Random(seed), support.stream_by_chance(seed)
        if seed % 4 == 0:  # a valid one
            lines = (
                feature(f"b{number}", chance.choice(("Road", "Bridge"))) for number in range(30)
            )
            text = HEADER + b"".join(lines)
        yield seed, text, chance


class Answers(unittest.TestCase):
    """Answers that are joined by the library."""

    def whole_and_parts(self, call, text, chance, **options):
        """What a call answers for a stream, and what its answers for the parts make."""
        work = asked("filter", line_limit=1_000, **options)
        header, part = headed(text)
        whole = call(header, part, work)
        told = [call(header, each, work) for each in cut(part, chance)]
        return fields(whole), fields(folded(told, header, chance))

    def test_checks(self):
        def call(header, part, work):
            return library().check(header, part, work.request(header, part), 0)[0]

        for seed, text, chance in streams():
            for keep_going in (False, True):
                with self.subTest(seed=seed, keep_going=keep_going):
                    options = {"keep_going": keep_going, **chance.choice(OPTIONS)}
                    self.assertEqual(*self.whole_and_parts(call, text, chance, **options))

    def test_filters_count_what_is_written(self):
        def call(header, part, work):
            return library().filter(header, part, work.request(header, part), 0)[0]

        for seed, text, chance in streams():
            with self.subTest(seed=seed):
                options = {"keep_going": seed % 2 == 0, **chance.choice(OPTIONS)}
                self.assertEqual(*self.whole_and_parts(call, text, chance, **options))

    def test_what_was_not_judged_has_the_counts_of_the_first(self):
        first = library().check(HEADER, PLAIN, RawRequest(1_000, 64), 0)[0]
        for status in (CallStatus.BAD_REQUEST, CallStatus.NO_MEMORY):
            joined = library().answer_then(first, RawAnswer(status, 7), len(HEADER))
            self.assertEqual(fields(joined), {**fields(first), "status": status, "code": 7})

    def test_the_first_that_is_not_complete_stands(self):
        after = library().check(HEADER, PLAIN, RawRequest(1_000, 64), 0)[0]
        for status in (1, CallStatus.BAD_REQUEST, CallStatus.NO_ROOM, CallStatus.NO_MEMORY):
            first = RawAnswer(status, 2, lines=5, kept=3)
            self.assertEqual(fields(library().answer_then(first, after, 1)), fields(first))


class Tallies(unittest.TestCase):
    """Tallies that are joined by the library."""

    def test_parts_and_the_whole(self):
        for seed, text, chance in streams():
            work, (header, part) = asked("info", line_limit=1_000), headed(text)
            whole, joined = self.tally(header, part, work)[1], RawTally()
            for each in cut(part, chance):
                answer, tally = self.tally(header, each, work)
                joined = library().tally_then(joined, tally)
                if answer.status != CallStatus.COMPLETE:
                    break
            with self.subTest(seed=seed):
                self.assertEqual(bytes(joined), bytes(whole))

    @staticmethod
    def tally(header, part, work):
        answer, _, tally = library().tally(header, part, work.request(header, part), 0)
        return answer, tally

    def test_of_zeros_and_another(self):
        tally = self.tally(HEADER, feature("a") + PLAIN, asked("info"))[1]
        for joined in (
            library().tally_then(RawTally(), tally),
            library().tally_then(tally, RawTally()),
        ):
            self.assertEqual(bytes(joined), bytes(tally))


class Package(unittest.TestCase):
    """What the package makes of the answers for parts: reports and the end are those of the
    stream."""

    def test_parts_and_the_whole(self):
        for seed, text, chance in streams():
            header, part = headed(text)
            for kind, keep_going in itertools.product(("check", "filter", "info"), (False, True)):
                if kind == "info" and keep_going:
                    continue
                work = asked(kind, line_limit=1_000, keep_going=keep_going)
                with self.subTest(seed=seed, kind=kind, keep_going=keep_going):
                    self.assertEqual(
                        self.joined(work, header, cut(part, chance)),
                        self.joined(work, header, [part]),
                    )

    @staticmethod
    def joined(work, header, parts):
        """What comes of the parts, up to the first that ends the stream."""
        joined = Answer(parts=0)
        for part in parts:
            answer = judge_lines(work, "one", header, bytearray(part), joined.parts == 0)
            joined = joined.then(answer)
            if joined.status != CallStatus.COMPLETE:
                break
        tally = None if joined.tally is None else bytes(joined.tally.told)
        reports, output = list(joined.reports), b"".join(joined.output)
        return fields(joined.told), joined.end, reports, output, tally


class Ends(unittest.TestCase):
    """Where a part is cut, beside what Python finds."""

    def test_texts_by_chance(self):
        chance = random.Random(3)
        for _ in range(3_000):
            text = bytes(chance.choice(b"ab\n\r\xff") for _ in range(chance.randrange(40)))
            wanted, begin = chance.randrange(50), chance.randrange(len(text) + 1)
            with self.subTest(text=text, wanted=wanted, begin=begin):
                last = text.rfind(b"\n", begin, begin + wanted) + 1
                end = last or text.find(b"\n", begin) + 1
                for given in (text, bytearray(text), memoryview(bytearray(text))):
                    self.assertEqual(library().part_end(given, wanted, begin), end)
                self.assertEqual(whole_lines(text), text.rfind(b"\n") + 1)

    def test_what_is_looked_at_can_grow_again(self):
        text = bytearray(b"a\nb")
        self.assertEqual(library().part_end(text, 3), 2)
        text += b"c" * 1_000  # which fails where something still points to the bytes
        self.assertEqual(library().part_end(text, 3), 2)


if __name__ == "__main__":
    unittest.main()
