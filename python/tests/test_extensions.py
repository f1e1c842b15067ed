"""Types of city objects that begin with `+`, which `extensions` accepts."""
import io
import json
import random
import unittest

import cityseq

from .serving import MISSING, Within
from .support import HEADER, InFolder, command, feature

SHED = feature("s", "+Shed")
ROAD = feature("r", "Road")
TEXT = HEADER + ROAD + SHED
PLACE = SHED.index(b'"+Shed"')
PAIR = (
    b'{"type":"CityJSONFeature","id":"b","CityObjects":{"b":{"type":"Building","children":["p"]},'
    b'"p":{"type":"+Part","parents":["b"]}},"vertices":[]}\n'
)

SPELLED = feature("e", "+Shed").replace(b"+Shed", rb"\u002bSh\u0065d")
NAMED = HEADER + ROAD + SHED + PAIR + SPELLED
UNKNOWN = "unknown object type: "
QUERIES = (  # types, and the lines of `NAMED` that have one of them
    ("+Shed", SHED + SPELLED),
    ("+Part", PAIR),
    ("+Shed,Road", ROAD + SHED + SPELLED),
    ("Building,+Part", PAIR),
    ("+Part,+Shed", SHED + PAIR + SPELLED),
    ("+shed", b""),
    ("+She,+Sheds,+", b""),
    ("Road", ROAD),
)


def years(*names):
    """Features of a type of an extension, each a year younger than the one before."""
    return [
        feature(name, "+Shed").replace(
            b'"type":"+Shed"', b'"type":"+Shed","attributes":{"y":%d}' % y
        )
        for y, name in enumerate(names, 2000)
    ]


class Calls(InFolder):
    """The calls of the package."""

    def test_unknown_unless_asked_for(self):
        found = cityseq.check(TEXT)
        self.assertEqual((found.end.line, found.end.byte, found.end.code), (3, PLACE, 19))
        found = cityseq.check(TEXT, extensions=True)
        self.assertEqual((found.valid, found.lines, found.features), (True, 3, 2))
        for text in (SHED.replace(b"+Shed", b"Shed"), SHED.replace(b"+Shed", b"extension")):
            found = cityseq.check(HEADER + text, extensions=True)
            self.assertEqual((found.end.line, found.end.code), (2, 19))

    def test_many_files(self):
        found = cityseq.check_files([TEXT, HEADER + PAIR], extensions=True)
        self.assertEqual([each.features for each in found], [2, 1])

    def test_filters(self):
        for how, kept in (
            ({}, TEXT),
            ({"types": "Road"}, HEADER + ROAD),
            ({"types": "Road", "exclude": True}, HEADER + SHED),
            ({"lods": "2.2", "ids": "s"}, HEADER + SHED),
        ):
            output = io.BytesIO()
            cityseq.filter(TEXT, output, extensions=True, **how)
            self.assertEqual(output.getvalue(), kept)

    def test_a_query_asks_for_them_by_name(self):
        for types, kept in QUERIES:
            query = cityseq.Query(types=types.split(","))
            for size in (1, 300, None):
                output = io.BytesIO()
                how = cityseq.Options(extensions=True, part_size=size)
                cityseq.filter(NAMED, output, query, options=how)
                self.assertEqual(output.getvalue(), HEADER + kept, types)
            found = cityseq.features(NAMED, query, extensions=True)
            self.assertEqual(b"".join(each.bytes + b"\n" for each in found), kept, types)
            self.assertEqual(
                len(cityseq.table(NAMED, query, extensions=True)["id"]), kept.count(b"\n")
            )
        output = io.BytesIO()
        cityseq.filter(NAMED, output, types="+Shed", exclude=True, extensions=True)
        self.assertEqual(output.getvalue(), HEADER + ROAD + PAIR)

    def test_which_name_is_unknown(self):
        for types, extensions, unknown in (
            (["+Shed"], False, "+Shed"),
            (["Road", "+Shed"], False, "+Shed"),
            (["extension"], True, "extension"),
            (["+Shed", "Shed"], True, "Shed"),
            ([""], True, ""),
        ):
            with self.assertRaises(cityseq.RequestError) as raised:
                cityseq.features(TEXT, types=types, extensions=extensions)
            self.assertEqual(str(raised.exception), UNKNOWN + unknown)

    def test_counts(self):
        """Together, in any parts."""
        for size in (1, 300, None):
            found = cityseq.info(TEXT + PAIR, extensions=True, part_size=size)
            self.assertEqual(found.types, {"Building": 1, "Road": 1, "extension": 2})
        self.assertEqual(cityseq.info(HEADER + ROAD, extensions=True).types, {"Road": 1})
        found = cityseq.features(TEXT + PAIR, extensions=True)
        wanted = [("Road",), ("extension",), ("Building", "extension")]
        self.assertEqual([each.types for each in found], wanted)
        self.assertEqual(cityseq.table(TEXT + PAIR, extensions=True)["types"], wanted)

    def test_an_index_and_a_report(self):
        """A cut is judged as the index was."""
        path, index = self.file(TEXT, "town.jsonl"), self.folder / "town.gpkg"
        with self.assertRaises(cityseq.InvalidStream):
            cityseq.index(path, index)
        (result,) = cityseq.index(path, index, extensions=True)
        self.assertEqual(result.features, 2)
        with cityseq.Index(index) as opened:
            self.assertEqual((opened.extensions, opened.tree), (True, False))
            output = io.BytesIO()
            opened.filter(output, ids="s")
            self.assertEqual(output.getvalue(), HEADER + SHED)
        told = cityseq.report(path, extensions=True).json_object()
        self.assertEqual((told["status"], told["options"]["extensions"]), (0, True))
        self.assertEqual(told["types"], {"Road": 1, "extension": 1})
        self.assertEqual(cityseq.report(path).status, 1)

    def test_an_index_finds_them_by_name(self):
        """The index knows only that a type is of an extension. So a cut looks at the names."""
        path, index = self.file(NAMED, "town.jsonl"), self.folder / "town.gpkg"
        cityseq.index(path, index, extensions=True)
        with cityseq.Index(index) as opened:
            for types, kept in QUERIES:
                output = io.BytesIO()
                opened.filter(output, types=types.split(","))
                self.assertEqual(output.getvalue(), HEADER + kept, types)
                with opened.select(types=types.split(",")) as found:
                    self.assertEqual(b"".join(each.bytes + b"\n" for each in found), kept, types)

    def test_an_index_by_chance(self):
        chance, names = random.Random(1), ("+Shed", "+Part", "+", "+Shed,+Part", "Road", "Building")
        lines = [feature(f"{number}", chance.choice(names)) for number in range(60)]
        path, index = self.file(HEADER + b"".join(lines), "town.jsonl"), self.folder / "town.gpkg"
        cityseq.index(path, index, extensions=True)
        with cityseq.Index(index) as opened:
            for _ in range(20):
                types = chance.sample(names, 3)
                wanted = [
                    line for line in lines if any(b'"%b"' % t.encode() in line for t in types)
                ]
                with opened.select(types=types) as found:
                    self.assertEqual([each.bytes + b"\n" for each in found], wanted, types)

    def test_an_index_with_attributes(self):
        lines = years("a", "b", "c")
        path = self.file(HEADER + ROAD + b"".join(lines), "town.jsonl")
        index = self.folder / "town.gpkg"
        cityseq.index(path, index, extensions=True, attributes="all")
        with cityseq.Index(index) as opened:
            for types, wanted in (("+Shed", lines[1:]), ("+Part", []), ("Road", [])):
                with opened.select(types=types, where="y > 2000") as found:
                    self.assertEqual([each.bytes + b"\n" for each in found], wanted, types)

    def test_an_index_without_them(self):
        path, index = self.file(TEXT, "town.jsonl"), self.folder / "town.gpkg"
        cityseq.index(path, index, keep_going=True)
        with cityseq.Index(index) as opened:
            with self.assertRaisesRegex(cityseq.RequestError, r"unknown object type: \+Shed"):
                opened.filter(io.BytesIO(), types="+Shed")


class Commands(InFolder):
    """The command."""

    def test_each_command(self):
        path = self.file(TEXT, "town.jsonl")
        output, said, status = command("check", "--extensions", path)
        self.assertEqual((output, said, status), (b"valid lines=3 features=2\n", "", 0))
        self.assertEqual(command("check", path)[2], 1)
        output, _, status = command("filter", "--extensions", "--id", "s", path)
        self.assertEqual((output, status), (HEADER + SHED, 0))
        output, _, status = command("info", "--extensions", path)
        self.assertEqual(status, 0)
        self.assertIn(b"\ntype Road 1\ntype extension 1\n", output)
        told = json.loads(command("check", "--json", "--extensions", path)[0])
        self.assertEqual((told["options"]["extensions"], told["status"]), (True, 0))
        for types, kept in QUERIES:
            words = "filter", "--type", types, self.file(NAMED, "named.jsonl")
            output, _, status = command(*words, "--extensions")
            self.assertEqual((output, status), (HEADER + kept, 0), types)
        output, said, status = command("filter", "--type", "Road,+Shed", path)
        self.assertEqual((output, said, status), (b"", f"{UNKNOWN}+Shed\n", 2))

    def test_an_index(self):
        path, index = self.file(TEXT, "town.jsonl"), self.folder / "town.gpkg"
        self.assertEqual(command("index", "--extensions", "--output", index, path)[2], 0)
        for words in ((), ("--extensions",)):
            output, _, status = command("filter", "--index", index, "--quiet", *words)
            self.assertEqual((output, status), (TEXT, 0))
        words = "filter", "--quiet", "--type", "+Shed", "--index"
        self.assertEqual(command(*words, index)[::2], (HEADER + SHED, 0))
        self.assertEqual(command("index", "--keep-going", "--output", index, path)[2], 1)
        output, said, status = command(*words, index)
        self.assertEqual((output, said, status), (b"", f"{UNKNOWN}+Shed\n", 2))

    def test_a_whole_file(self):
        """A city object of an extension that names no parents is a feature."""
        whole = {
            **json.loads(HEADER),
            "CityObjects": {
                "b": {"type": "Building", "children": ["p"]},
                "p": {"type": "+Part", "parents": ["b"]},
                "s": {"type": "+Shed"},
            },
        }
        path = self.file(json.dumps(whole).encode(), "town.city.json")
        output, _, status = command("check", "--extensions", path)
        self.assertEqual((output, status), (b"valid lines=3 features=2\n", 0))


@unittest.skipIf(MISSING, MISSING)
class Servers(InFolder):
    """A server, over an index with types of extensions. In the query of a URL, + is a space."""

    def test_they_are_asked_for_by_name(self):
        index = self.folder / "town.gpkg"
        cityseq.index(self.file(NAMED, "town.jsonl"), index, extensions=True)
        items = "/collections/town/items?f=city-json-seq"
        with Within(index, features=2) as server:
            answer = server.ask(f"{items}&type=%2BSheds")  # the index cannot tell that it is none
            self.assertEqual((answer.status, answer.body), (200, HEADER))
        with Within(index) as server:
            for types, kept in QUERIES:
                answer = server.ask(f"{items}&type={types.replace('+', '%2B')}")
                self.assertEqual((answer.status, answer.body), (200, HEADER + kept), types)
            page = server.ask("/collections/town/items?limit=1&type=%2BShed").json()
            (following,) = [link["href"] for link in page["links"] if link["rel"] == "next"]
            self.assertIn("type=%2BShed", following)
            (found,) = server.ask(following[len(server.url) - 1 :]).json()["features"]
            self.assertEqual(found["id"], "e")
            for path in (f"{items}&type=+Shed", f"{items}&type=Shed"):
                self.assertEqual(server.ask(path).status, 400)
            for path, kept in (
                ("/filter?extensions=true&type=%2BShed,Road", ROAD + SHED + SPELLED),
                ("/filter?extensions=true&type=%2BPart&exclude=true", ROAD + SHED + SPELLED),
            ):
                answer = server.exchange(path, NAMED)
                self.assertEqual((answer.status, answer.body), (200, HEADER + kept))
            for path in ("/filter?type=%2BShed", "/filter?extensions=true&type=+Shed"):
                self.assertEqual(server.exchange(path, NAMED).status, 400)
