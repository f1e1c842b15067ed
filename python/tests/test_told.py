"""What is told: explanations, excerpts, ids, hints, and what `info` says beside the program."""
import bz2
import io
import json
import lzma
import os
import random
import sys
import tarfile
import unittest
from decimal import Decimal

import cityseq
from cityseq.engine import quoted, shown
from cityseq.engine.hints import met
from cityseq.engine.reports import excerpt_of, find_id
from cityseq.engine.world import box_of, normal, plain

from . import support
from .support import HEADER, PLAIN, asked, feature

sys.path.insert(0, os.path.join(support.ROOT, "python"))
import make_reasons  # noqa: E402

EXAMPLES = os.path.join(support.ROOT, "examples")


def example(name):
    return os.path.join(EXAMPLES, f"{name}.city.jsonl")


class Explanations(unittest.TestCase):
    """Those of the package are those of docs/RULES.md."""

    def test_they_are_those_of_the_document(self):
        for code, wanted in make_reasons.read_reasons().items():
            told = cityseq.explain(int(code))
            self.assertEqual({"text": told.text, "meaning": told.meaning, "fix": told.fix}, wanted)

    def test_each_code_of_the_document(self):
        with open(make_reasons.SOURCE, encoding="utf-8") as document:
            table = [line.split("|") for line in document if line.startswith("| [")]
        self.assertEqual(
            {int(row[1].split("]")[0].strip(" [")): row[2].strip() for row in table},
            {code: cityseq.explain(code).text for code in range(1, 32) if code not in range(6, 10)},
        )
        self.assertRaises(KeyError, cityseq.explain, 6)
        with open(
            os.path.join(support.ROOT, "python", "cityseq", "reasons.json"), encoding="utf-8"
        ) as told:
            self.assertEqual(json.load(told), make_reasons.read_reasons())

    def test_the_library_has_the_same_words(self):
        from cityseq.engine import library

        self.assertEqual(
            [library().reason_text(code) for code in range(1, 40)],
            [
                cityseq.explain(code).text if code < 32 and code not in range(6, 10) else ""
                for code in range(1, 40)
            ],
        )


class Reports(unittest.TestCase):
    """Where a fault is, and in which feature."""

    def test_the_example(self):
        report = cityseq.check(example("broken")).end
        self.assertEqual(
            (str(report), report.id), ("line 3, byte 144: 25 vertex index out of range", "b2")
        )
        excerpt, caret = report.caret().split("\n")
        self.assertEqual(excerpt[len(caret) - 1 :][:3], "4]]")

    def test_ids(self):
        for line, wanted in (
            (b'{"id":"a"', "a"),
            (b' {"type" : "CityJSONFeature", "id":"a\\u0062"', "ab"),
            (b'{"x":1,"id":"b"}', "b"),
            (b'{"x":1,"id":"b"', None),
            (b'{"id":3}', None),
            (b"[]", None),
            (b"", None),
            (b"[" * 5_000, None),
            (b'{"id":"\xff"', None),
            (b'{"id":"\\ud800"}', "\ud800"),
            (b'{"a":{"id":"c"}}', None),
        ):
            self.assertEqual(find_id(line), wanted)

    def test_excerpts(self):
        for line, place, wanted in (
            (b"abc", 1, ("abc", 1)),
            (b"abc", 3, ("abc", 3)),
            (b"", 0, ("", 0)),
            (b"\x1b[2J", 1, ("\ufffd[2J", 1)),
            ("é€築".encode(), 8, ("é€築", 4)),
            (b"a\xffb", 1, ("a\ufffdb", 1)),
            (b"x" * 100 + b"!" + b"y" * 100, 100, ("x" * 40 + "!" + "y" * 39, 40)),
            ("é".encode() * 100, 101, ("é" * 19 + "\ufffd", 20)),
        ):
            told = excerpt_of(line, place)
            self.assertEqual(told[1], wanted[1], line)
            self.assertTrue(told[0].startswith(wanted[0][: wanted[1]]), line)

    def test_any_place_of_any_bytes(self):
        chance = random.Random(5)
        for _ in range(3_000):
            line = bytes(
                chance.choice(b"a\xc3\xa9\xe2\x82\xac\xff\x00\xf0\x9f\x8f\xa0")
                for _ in range(chance.randrange(120))
            )
            excerpt, column = excerpt_of(line, chance.randrange(len(line) + 1))
            self.assertTrue(column <= 2 * len(excerpt) and excerpt.isprintable())


def in_tar(text):
    """An archive of tar with a file of this text."""
    archive = io.BytesIO()
    with tarfile.open(fileobj=archive, mode="w") as tar:
        member = tarfile.TarInfo("town.city.jsonl")
        member.size = len(text)
        tar.addfile(member, io.BytesIO(text))
    return archive.getvalue()


class Hints(unittest.TestCase):
    """What is no stream."""

    def test_each(self):
        whole = HEADER.replace(b'"CityObjects":{}', b'"CityObjects":{"b":{"type":"Building"}}')
        for text, wanted in (
            (b"", "empty"),
            (b"\x1f\x8b\x08\0", "gzip"),
            (b"PK\x03\x04", "zip"),
            (b"\xef\xbb\xbf" + HEADER, "byte order mark"),
            (HEADER.decode().encode("utf-16"), "UTF-16"),
            (b'{\n  "type": "CityJSON"\n}\n', "over many lines"),
            (b'{ "type": "CityJSON",\r\n "version": "2.0"}', "over many lines"),
            (whole, "one CityJSON object"),
            (PLAIN + HEADER, "is a feature"),
            (b"\x28\xb5\x2f\xfd\0", "Zstandard"),
            (lzma.compress(HEADER), "xzcat"),
            (bz2.compress(HEADER), "bzcat"),
            (in_tar(HEADER), "tar -xOf"),
            (in_tar(b""), "tar -xOf"),
            (HEADER.decode().encode("utf-16-le"), "UTF-16"),
            (HEADER.decode().encode("utf-16-be"), "UTF-16"),
            (b"<!DOCTYPE html><html>", "HTML"),
            (b"\n<HTML>404", "HTML"),
            (b'<?xml version="1.0"?>\n<CityModel/>', "XML"),
            (b"version https://git-lfs.github.com/spec/v1\noid sha256:1\n", "git lfs pull"),
            (b'{"type":"FeatureCollection","features":[]}', "GeoJSON"),
            (b'{"type": "Feature", "geometry": null}\n', "GeoJSON"),
            (b'{\n  "type": "FeatureCollection",\n  "features": []\n}', "GeoJSON"),
            (b"[" + HEADER[:-1] + b"," + PLAIN[:-1] + b"]", "JSON array"),
            (b"[]", "JSON array"),
            (b"\x1e" + HEADER, "RFC 8142"),
            ((HEADER + PLAIN).replace(b"\n", b"\r"), "CR alone"),
        ):
            hints = cityseq.check(text).hints
            self.assertEqual(len(hints), 1, text)
            self.assertIn(wanted, hints[0])

    def test_a_file_that_is_no_stream_has_one_advice(self):
        """The hint says what to do with the file. The fix of the code is for a stream."""
        whole = HEADER.replace(b'"CityObjects":{}', b'"CityObjects":{"b":{"type":"Building"}}')
        for text, wanted in (
            (whole, "cityseq-run split"),
            (whole.replace(b",", b",\n"), "cityseq-run split"),
            (b"\xef\xbb\xbf" + HEADER, "tail -c +4"),
        ):
            said = support.command("check", "-", given=text)[1]
            self.assertIn(wanted, said.splitlines()[-1])
            self.assertNotIn("Fix: ", said)
            self.assertNotIn("empty", said.split("\n", 1)[1])

    def test_a_header_with_city_objects(self):
        """A stream whose header is not empty is no whole file. Both are told of `split`."""
        head = HEADER.replace(b'"CityObjects":{}', b'"CityObjects":{"b":{"type":"Building"}}')
        said = support.command("check", "-", given=head + PLAIN)[1].splitlines()
        self.assertEqual(cityseq.check(head + PLAIN).hints, [])
        self.assertRegex(said[-1], "^    Fix: Move .* into features")
        for text in (head, head + PLAIN):
            fix = cityseq.check(text).end.explanation.fix
            self.assertIn("cityseq-run split", fix.split(". ")[0])

    def test_none(self):
        for text in (
            HEADER,
            HEADER + PLAIN,
            HEADER + b"[]\n",
            HEADER.replace(b"2.0", b"1.1"),
            b"{\n",
            b'{"a"\n',
            b"\0\0\0\0\0\0\0\0",
            HEADER.replace(b'"version":"2.0"', b'"metadata":{"type":"Feature"}'),
        ):
            self.assertEqual(cityseq.check(text).hints, [])


TOWN = open(example("town"), "rb").read()


def town_with(line, before, after):
    """The example with a text of one line changed."""
    lines = TOWN.splitlines(keepends=True)
    assert before in lines[line - 1]
    lines[line - 1] = lines[line - 1].replace(before, after, 1)
    return b"".join(lines)


class Met(unittest.TestCase):
    """What stands at the place of a fault."""

    def test_each(self):
        for line, before, after, code, wanted in (
            (2, b'"lod":"2.2",', b"", 10, 'the geometry has no "lod"'),
            (2, b'"type":"Building",', b"", 10, 'the city object "house-1" has no "type"'),
            (2, b'"vertices"', b'"vertexes"', 10, 'the feature has no "vertices"'),
            (2, b'"values":[0]', b'"value":[0]', 10, 'the semantics has no "values"'),
            (
                5,
                b'"type":"Road"',
                b'"type":"BuildingPart"',
                10,
                'the city object "road-1" has no "parents"',
            ),
            (4, b'"template":0,', b"", 10, 'the instance has no "template"'),
            (1, b'"scale"', b'"scales"', 10, 'transform has no "scale"'),
            (1, b'"CityObjects":{},', b"", 10, 'the header has no "CityObjects"'),
            (1, b'"version"', b'"type":"CityJSON","version"', 11, 'the name is "type"'),
            (2, b'"2.2"', b"2.2", 12, 'the value of "lod" is a number'),
            (2, b"[[[0,1,2,3]]]", b"[[null]]", 12, "an item of a list is null"),
            (1, b"2000.0", b"2e1000001", 13, "the number begins with 2e1000001"),
            (2, b"CityJSONFeature", b"Feature", 14, 'the type is "Feature"'),
            (1, b'"2.0"', b'"1.1"', 15, 'the version is "1.1"'),
            (4, b"5000,5000", b"5000,5000.5", 18, "the number is 5000.5"),
            (
                2,
                b'"type":"Building"',
                b'"type":"Bulding"',
                19,
                'the type is "Bulding": Building may be meant',
            ),
            (
                2,
                b'"type":"Building"',
                b'"type":"BUILDING"',
                19,
                'the type is "BUILDING": Building may be meant',
            ),
            (
                2,
                b'"type":"Building"',
                b'"type":"Water"',
                19,
                'the type is "Water": Waterway or WaterBody may be meant',
            ),
            (2, b'"type":"Building"', b'"type":"+\xe2\x80\xae"', 19, 'the type is "+\\u202e"'),
            (2, b'"id":"house-1"', b'"id":"house-9"', 20, 'the id is "house-9"'),
            (3, b'["house-2-a"]', b'["house-2-b"]', 21, 'the child is "house-2-b"'),
            (
                5,
                b'"type":"Road"',
                b'"type":"BuildingPart","parents":["block-1"]',
                23,
                'the city object is "road-1"',
            ),
            (2, b"MultiSurface", b"Polygon", 24, 'the type is "Polygon"'),
            (2, b"0,1,2,3", b"0,1,2,4", 25, "the index is 4"),
            (2, b'"values":[0]', b'"values":[1]', 27, "the index is 1"),
            (4, b'"template":0', b'"template":1', 28, "the template is 1"),
            (2, b'"2.2"', b'"2.2', 4, None),
        ):
            with self.subTest(before=before):
                end = cityseq.check(town_with(line, before, after)).end
                self.assertEqual((end.line, end.code, end.met), (line, code, wanted))

    def test_two_streams_that_were_joined(self):
        end = cityseq.check(TOWN + TOWN).end
        self.assertEqual((end.line, end.code), (6, 10))
        self.assertTrue(end.met.startswith("the line is a second header"), end.met)

    def test_a_line_that_is_made_to_cost(self):
        deep = (
            b'{"type":"CityJSONFeature","id":"b","CityObjects":{"b":{"a":'
            + b"[" * 60_000
            + b"]" * 60_000
            + b"}}}\n"
        )
        self.assertIsNone(cityseq.check(HEADER + deep).end.met)
        for place in range(60):
            for code in range(1, 32):
                met(HEADER[:-1], place, code, True)
                met(b"\xff{}[", min(place, 3), code, False)

    def test_the_command_says_that_it_is_a_hint(self):
        said = support.command("check", "-", given=town_with(2, b'"lod":"2.2",', b""))[1]
        self.assertIn('    Hint: the geometry has no "lod".\n', said)

    def test_the_command_names_types(self):
        said = support.command("check", "-", given=town_with(2, b'"Building"', b'"Bulding"'))[1]
        self.assertIn('    Hint: the type is "Bulding": Building may be meant.\n', said)
        self.assertRegex(said, "\n    Fix: .*`cityseq-run explain 19`.*\\.\n")


class Shown(support.InFolder):
    """Texts from outside reach no terminal as they are."""

    def test_signs(self):
        for text, wanted in (
            ("a\u00fc\u20ac", "a\u00fc\u20ac"),
            ("\x1b[2J", "\\u001b[2J"),
            ("\x9b2J", "\\u009b2J"),
            ("\u202ea", "\\u202ea"),
            ("\udcff", "\\udcff"),
            ("\U000e0001", "\\U000e0001"),
            ("a\nb", "a\\u000ab"),
            ("\u2028", "\\u2028"),
        ):
            self.assertEqual(
                (shown(text), quoted(text)[1:-1]), (wanted, "a\\nb" if "\n" in text else wanted)
            )

    def test_ids_and_names_of_files(self):
        for sign in ("\x1b", "\x9b", "\u202e", "\u2066"):
            text = (
                HEADER + feature("b" + sign, last=4)
                if sign != "\x1b"
                else HEADER + feature("b\\u001b", last=4)
            )
            path = self.file(text, f"n{sign}.jsonl")
            for words in (
                ("check", path),
                ("filter", path),
                ("check", f"{path}-none"),
                ("filter", "--output", f"{self.folder}/{sign}/x", path),
            ):
                output, said, _ = support.command(*words)
                self.assertNotIn(sign, output.decode() + said if words[0] == "check" else said)
                self.assertIn(f"\\u{ord(sign):04x}", said)

    def test_faults_in_python(self):
        """Python prints the text of one that nobody handles."""
        name = self.folder / "n\x1b[2J\n\udcff.jsonl"
        whole = b'{"type":"CityJSON","version":"2.0","CityObjects":{"\\u001b[2J":[1 2]}}'
        for call in (
            lambda: cityseq.check(name),
            lambda: cityseq.filter(HEADER, name / "no"),
            lambda: cityseq.split(whole, io.BytesIO()),
        ):
            with self.assertRaises(cityseq.CityseqError) as caught:
                call()
            self.assertIn("\\u001b[2J", str(caught.exception))
            self.assertTrue(str(caught.exception).isprintable())
            self.assertIn("\x1b[2J", f"{caught.exception.file}{caught.exception.words}")

    def test_an_encoding_that_lacks_letters(self):
        good = self.file(HEADER + PLAIN, "\u20ac.jsonl")
        broken = self.file(HEADER + feature("\u20ac", last=4), "\u20ac\u20ac.jsonl")
        output, said, status = support.command("check", good, broken, coding="latin-1")
        self.assertEqual(
            (output.decode().split("/")[-1], status),
            ("\\u20ac.jsonl: valid lines=2 features=1\n", 1),
        )
        self.assertIn('feature "\\u20ac"', said)


class Infos(support.InFolder):
    """What is in a stream."""

    def test_the_example(self):
        for size in (1, 1 << 20):
            info = cityseq.info(example("town"), part_size=size, jobs=2, exact_lods=True)
            self.assertEqual((info.lines, info.features, info.box), (5, 4, "995,1990,1050,2005"))
            self.assertEqual(
                info.types,
                {"Building": 2, "Road": 1, "SolitaryVegetationObject": 1, "BuildingPart": 1},
            )
            self.assertEqual(
                (info.classes, info.lods),
                ({"0": 1, "1": 2, "2": 1}, {"2.2": 1, "1.2": 1, "0": 1, "1": 1}),
            )
            self.assertEqual((info.x, info.y, info.z), ((-5000, 50000), (-10000, 5000), (0, 3000)))

    def test_the_box_is_taken_and_exact(self):
        header = HEADER.replace(b"[0.001,0.001,0.001]", b"[0.000000000000000001,1e-3,7]").replace(
            b"[10,20,0]", b"[-0.5E1,99999999999,0]"
        )
        text = header + feature("a", x=-123_456_789)
        info = cityseq.info(text)
        self.assertEqual(
            info.box, "-5.000000000123456789,99999999999,-4.999999999999999,100000000000"
        )
        self.assertEqual(cityseq.filter(text, os.devnull, box=info.box).features, 1)
        just_beside = ",".join(["-9", "0", "-5.00000000012345679", "1e17"])
        self.assertEqual(cityseq.filter(text, os.devnull, box=just_beside).features, 0)

    def test_there_is_no_going_on(self):
        """What is valid in a stream that is not would be taken for what is in the stream."""
        for call in (
            lambda: cityseq.info(HEADER, keep_going=True),
            lambda: asked("info", keep_going=True),
        ):
            self.assertRaises((TypeError, cityseq.RequestError), call)
        self.assertEqual(
            support.command("info", "--keep-going", example("delivery"))[::2], (b"", 2)
        )

    def test_no_box(self):
        for scale in (b"1e-19", b"1e-1000000", b"1e20", b"1e1000000"):
            info = cityseq.info(HEADER.replace(b"[0.001", b"[" + scale) + feature("a"))
            self.assertEqual((info.status, info.box), (0, None))
        self.assertIsNone(cityseq.info(HEADER + PLAIN).box)
        self.assertEqual(
            cityseq.info(HEADER.replace(b"[0.001", b"[1" + b"0" * 9_000) + feature("a")).status, 0
        )

    def test_a_header_that_is_nested_deep(self):
        deep = HEADER.replace(
            b'"vertices"', b'"metadata":' + b"[" * 1_000 + b"]" * 1_000 + b',"vertices"'
        )
        self.assertEqual(cityseq.info(deep + feature("a"), depth=1_024).box, "10,20,11,21")

    def test_numbers(self):
        for text, wanted in (
            ("0.001", "1e-3"),
            ("2000.0", "2e3"),
            ("84616.468", "84616468e-3"),
            ("-0.0", "0e0"),
            ("0e99", "0e0"),
            ("-1.50e3", "-15e2"),
        ):
            self.assertEqual(normal(Decimal(text)), wanted)
        self.assertEqual(
            [plain(Decimal(text)) for text in ("1E+3", "-0", "1.500", "1E-18")],
            ["1000", "0", "1.5", "0.000000000000000001"],
        )
        almost = Decimal("999999999999999999.999999999999999999")
        self.assertEqual(
            box_of(
                ((0, 1), (0, 0), None), [Decimal("-1E-18"), Decimal(1), Decimal(1)], [almost] * 3
            ),
            "999999999999999999.999999999999999998,999999999999999999.999999999999999999,"
            "999999999999999999.999999999999999999,999999999999999999.999999999999999999",
        )


if __name__ == "__main__":
    unittest.main()
