"""Queries for very many ids: the same is kept as by a query for all of them."""
import io
import json
import random
import unittest
from unittest import mock

import cityseq
from cityseq.engine import ids as ids_of
from cityseq.engine.ids import MANY, MOST, _ids_in, _sorted, ids_for, in_order, part_size_for
from cityseq.engine.judge import lines_of

from . import support
from .support import HEADER, PLAIN, asked, feature

FEW = [f"other-{number:05}" for number in range(MANY // 8)]  # that are in no stream here
LINES = (  # each with the text of its id
    (feature("a"), "a"),
    (feature("é"), "é"),
    (feature("a\\u0062"), "ab"),
    (feature('q\\"x').replace(b"\n", b" \n"), 'q"x'),
    (
        b' { "id" : "b" , "type":"CityJSONFeature",'
        b'"CityObjects":{"b":{"type":"Road"}},"vertices":[]}\n',
        "b",
    ),
    (PLAIN.replace(b'"id"', b'"\\u0069d"'), "b"),
    (PLAIN.replace(b'"id"', b'"i\\u0064"'), "b"),
    (
        b'{"vertices":[],"CityObjects":{"late":{"type":"Road","attributes":{"id":"no"}}},'
        b'"id":"late","type":"CityJSONFeature"}\n',
        "late",
    ),
    (b'{"type":"CityJSONFeature","id":"","CityObjects":{"":{"type":"Road"}},"vertices":[]}\n', ""),
    (feature("a").replace(b"\n", b"\r\n"), "a"),
    (b"\n", None),
    (b" \t\r\n", None),
)


class Subsets(unittest.TestCase):
    """Which ids are asked for of a part."""

    def asked(self, wanted, part):
        return set(ids_for("\n".join([*wanted, *FEW]).encode(), part).split(b"\n"))

    def test_the_id_of_each_line_is_among_them(self):
        for line, name in LINES:
            for part in (
                line,
                line[:-1],
                PLAIN + line,
                line + PLAIN,
                b"{\n" + line,
                b'{"type":"CityJSONFeature","id":"cut\n' + line,
            ):
                for text in (part, bytearray(part), memoryview(bytearray(part))):
                    found = self.asked(["none" if name is None else name, "never", "cut"], text)
                    self.assertEqual(
                        (name is None or name.encode() in found, b"never" in found),
                        (True, False),
                        part,
                    )

    def test_few_are_asked_for_as_they_are(self):
        self.assertEqual(ids_for(b"a\nb", PLAIN), b"a\nb")

    def test_none_and_the_empty_one(self):
        self.assertEqual(ids_for("\n".join(FEW).encode(), feature("a")), b"")
        self.assertEqual(ids_for(b"\n" + "\n".join(FEW).encode(), LINES[8][0]), b"\n")


class Order(unittest.TestCase):
    """The order in which the library gets ids."""

    def test_many_are_sorted(self):
        for more in ([], [""], ["", "é", "\U0001f3e0"]):
            wanted = sorted(FEW * 9 + more, key=str.encode)
            mixed = random.Random(1).sample(wanted, len(wanted))
            found = asked("filter", ids=mixed).ids
            self.assertTrue(found == "\n".join(wanted).encode())
            self.assertTrue(in_order(found) == found)
            with mock.patch("cityseq.engine.ids.sort_texts", lambda *_: False):
                _sorted.cache_clear()
                self.assertTrue(in_order("\n".join(mixed).encode()) == found)

    def test_any_bytes_by_chance(self):
        """Ids of one length, which C sorts, and of several: some of them twice."""
        for seed in range(300):
            chance = random.Random(seed)
            least = chance.choice([0, 1, 7, 8, 16, 40])
            most = least + chance.choice([0, 0, 3])
            signs = chance.choice([b"ab", b"0123456789", bytes({*range(256)} - {10})])
            wanted = [
                bytes(chance.choices(signs, k=chance.randint(least, most)))
                for _ in range(chance.randrange(1, 200))
            ]
            wanted += chance.sample(wanted, len(wanted) // 3)
            with self.subTest(seed=seed):
                in_order_of_bytes = b"".join(each + b"\n" for each in sorted(wanted))
                self.assertEqual(_sorted(b"\n".join(wanted)), in_order_of_bytes)

    def test_few_are_left_as_they_are(self):
        for ids in (b"", b"b\na", b"\n"):
            self.assertIs(in_order(ids), ids)

    def test_those_that_no_part_gets_at_once_are_left_as_they_are(self):
        ids = b"b\na\n" * (MOST // 64)
        self.assertIs(in_order(ids), ids)

    def test_no_ids_are_no_query(self):
        self.assertEqual((asked("filter").ids, asked("filter", ids=[]).ids), (None, b""))


class Filters(support.InFolder):
    """What is kept, by the library's own query and by subsets of it."""

    def kept(self, text, **options):
        output = io.BytesIO()
        try:
            result = cityseq.filter(text, output, keep_going=True, **options)
        except cityseq.InvalidStream as fault:  # the header is invalid
            result = fault.result
        return output.getvalue(), result.features, result.refused

    def test_streams_by_chance(self):
        for seed in range(120):
            chance = random.Random(seed)
            text = support.stream_by_chance(seed)
            if seed % 2:
                text = (
                    HEADER
                    + b"".join(chance.choice(LINES)[0] for _ in range(20))
                    + text.split(b"\n", 1)[-1]
                )
            wanted = [name for _, name in LINES if name is not None and chance.randrange(2)] + [
                f"b{number}" for number in range(0, 20, 2)
            ]
            options = {
                "ids": wanted + FEW,
                "exclude": seed % 3 == 0,
                "part_size": chance.randrange(1, 900),
            }
            with self.subTest(seed=seed):
                found = self.kept(text, **options)
                with mock.patch("cityseq.engine.ids.MANY", 1 << 40):
                    self.assertEqual(found, self.kept(text, **options))

    def asked_for(self, count, many, **options):
        """The lengths of the parts of a stream of features, and of the ids that are asked for of
        each. The query is for the first ones, or for more than there are: ids in no order."""
        wanted, lengths, prepare = [f"b{number}" for number in range(many)], [], ids_of.ids_for

        def noted(texts, part):
            lengths.append((len(part), len(prepare(texts, part))))
            return prepare(texts, part)

        random.Random(1).shuffle(wanted)
        path = self.folder / "stream.city.jsonl"
        path.write_bytes(HEADER + b"".join(feature(f"b{number}") for number in range(count)))
        with mock.patch("cityseq.engine.ids.ids_for", noted):
            self.assertEqual(self.kept(path, ids=wanted, **options)[1], min(count, many))
        return [each for each in lengths if each[0]]

    def test_parts_are_as_long_as_the_query_asks(self):
        for length, size in ((99, 0), (100_000, 6_400_000), (262_144, 16 << 20), (262_145, 0)):
            self.assertEqual(part_size_for(b"x" * length), size)
        for jobs in (1, 3):
            (first, ids), *others = self.asked_for(60_000, 20_000, jobs=jobs)
            self.assertGreater(first, 32 * ids)
            self.assertTrue(all(each == ids for _, each in others), others)

    def test_of_a_part_no_more_ids_are_asked_for_than_it_has_lines(self):
        for jobs in (1, 3):
            for part, ids in self.asked_for(20_000, 100_000, jobs=jobs):
                self.assertLess(part, 5 << 20)
                self.assertLess(ids, 4 * 7 * part / len(feature("b1")))
        few = self.asked_for(200, 100_000, part_size=3_000)
        self.assertTrue(10 < len(few) and max(ids for _, ids in few) < 200, few)

    def test_parts_of_a_file_are_not_copied(self):
        """Those whose ids Python reads are `bytes`, and others are not."""
        with mock.patch("cityseq.sources.regular.RegularFile.read", side_effect=AssertionError):
            for jobs in (1, 3):
                self.asked_for(20_000, 100_000, jobs=jobs)
            with self.assertRaises(AssertionError):
                self.asked_for(20_000, 10, jobs=1)

    def test_streams_that_are_in_order(self):
        """Ids whose order differs from that of their lines, since a quote follows each there."""
        names = sorted(
            ("", "!", " ", "a", "a!", "a !", "a b", "ab", "a#", "a#b", "é", "é!", "\x7f", "~", "z")
        )
        lines = sorted(feature(name) for name in names)
        for seed in range(200):
            chance = random.Random(seed)
            begin, end = sorted(chance.sample(range(len(lines) + 1), 2))
            part, wanted = b"".join(lines[begin:end]), chance.sample(names, 7)
            found = set(_ids_in("\n".join(wanted).encode(), part).split(b"\n"))
            self.assertTrue(
                {name.encode() for name in wanted if feature(name) in lines[begin:end]} <= found,
                (lines[begin:end], wanted, found),
            )

    def test_ids_by_chance(self):
        """Ids of one length or of several, in any order and spelling, cut short or not."""
        for seed in range(400):
            chance = random.Random(seed)
            lengths = chance.choice([(2, 2), (0, 4), (3, 3), (1, 2)])

            def text(least, most):
                return "".join(chance.choices('ab"\\é ', k=chance.randint(least, most)))

            names = [text(0, 4) for _ in range(chance.randrange(1, 9))]
            lines = [feature(self.spelled(name, chance)) for name in names]
            if chance.randrange(2):
                lines.sort()
            part = b"".join(lines)
            if chance.randrange(4) == 0:
                part = part[: -chance.randrange(1, len(lines[-1]))]
            given = [json.loads(line)["id"] for line in part.split(b"\n")[: part.count(b"\n")]]
            wanted = [text(*lengths) for _ in range(9)] + chance.sample(names, len(names) // 2)
            if chance.randrange(2):  # of one length in bytes
                wanted = [name for name in wanted if len(name.encode()) == 2] or ["ab"]
            found = _ids_in(lines_of(wanted), part).split(b"\n")
            found = [name.decode() for name in found]
            with self.subTest(seed=seed, part=part, wanted=wanted, found=found):
                self.assertLessEqual(set(given) & set(wanted), set(found))
                self.assertLessEqual(set(found) - {""}, set(wanted))

    @staticmethod
    def spelled(name, chance):
        """Returns an id as a line has it, with more escapes than there need be."""
        odd = chance.randrange(3) == 0
        return "".join(
            f"\\u{ord(sign):04x}"
            if odd and chance.randrange(3) == 0
            else json.dumps(sign, ensure_ascii=False)[1:-1]
            for sign in name
        )

    def test_lines_that_are_sorted_but_for_one(self):
        """Wherever that line is, no id of the others is missed."""
        names = [f"b{number:03}" for number in range(60)]
        wanted = "\n".join(names[::2]).encode()
        for place in range(len(names)):
            moved = [*names[:place], *names[place + 1 :], names[place]]
            for listed in (moved, moved[::-1]):
                part = b"".join(map(feature, listed))
                self.assertEqual(set(_ids_in(wanted, part).split(b"\n")), set(wanted.split(b"\n")))

    def test_the_set_of_ids(self):
        self.assertEqual(ids_of._listed(b"b\na\nb"), {b"a", b"b"})

    def test_lines_that_are_cut_short(self):
        wanted = "\n".join(("ab", "abb", "abc", "abcd", "z"))
        for cut, others, last in (
            ("abc", ("ab", "abb"), True),
            ("abc\n", ("abcd", "z"), False),
            ("abb\n", ("abb", "abc"), False),
            ("ab", (), True),
        ):
            lines = [feature(name) for name in others]
            lines.insert(len(lines) if last else 0, feature("x").split(b"x")[0] + cut.encode())
            self.assertEqual(lines, sorted(lines))
            found = _ids_in(wanted.encode(), b"".join(lines)).split(b"\n")
            self.assertTrue({name.encode() for name in others} <= set(found), (lines, found))

    def test_a_stream_in_order_is_not_read_for_each_id(self):
        wanted = [f"b{number:07}" for number in range(0, 100_000, 2)]
        text = HEADER + b"".join(feature(f"b{number:07}") for number in range(2_000))
        with mock.patch("cityseq.engine.ids._usual", side_effect=AssertionError):
            self.assertEqual(self.kept(text, ids=wanted)[1], 1_000)
        with mock.patch("cityseq.engine.ids._between", side_effect=AssertionError):
            mixed = text.replace(b"b0000000", b"b0001999")
            self.assertEqual(self.kept(mixed, ids=wanted)[1], 999)


if __name__ == "__main__":
    unittest.main()
