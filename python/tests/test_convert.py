"""Laws of `split` and `collect` over files made by chance, and vectors by hand."""
import gzip
import io
import json
import os
import random
import threading
import tracemalloc
import unittest
from contextlib import suppress
from unittest import mock

import cityseq
from cityseq.convert.splitting import TOGETHER

from . import made_whole
from .support import InFolder, command

try:
    from hypothesis import HealthCheck, given, settings
    from hypothesis import strategies as st
except ImportError:
    given = None

RUNS = 60


def by_chance(test):
    """Runs a test with many sources of chance, by seeds of hypothesis or in their order."""
    if given is None:

        def seeded(self):
            for seed in range(RUNS):
                with self.subTest(seed=seed):
                    test(self, random.Random(seed))

        return seeded
    bounds = settings(
        max_examples=RUNS,
        deadline=None,
        derandomize=True,
        database=None,
        suppress_health_check=list(HealthCheck),
    )
    seeds = st.integers(0, 1 << 32).map(random.Random)
    return bounds(given(seeds)(test))


def split(text, **options):
    """The stream of a whole file."""
    output = io.BytesIO()
    cityseq.split(text, output, **options)
    return output.getvalue()


def collect(*streams):
    """The whole file of streams."""
    output = io.BytesIO()
    cityseq.collect(list(streams), output)
    return output.getvalue()


class Laws(unittest.TestCase):
    """What holds for all files."""

    @by_chance
    def test_collect_of_split(self, chance):
        text = made_whole.Maker(chance).file()
        stream = split(text)
        self.assertTrue(cityseq.check(stream), stream)
        whole = collect(stream)
        self.assertEqual(made_whole.meaning(whole), made_whole.meaning(text))
        self.assertTrue(cityseq.check(whole, whole=True))
        self.assertEqual(split(whole).count(b"\n"), stream.count(b"\n"))

    @by_chance
    def test_split_of_collect(self, chance):
        stream = made_whole.Maker(chance).stream()
        self.assertTrue(cityseq.check(stream), stream)
        again = split(collect(stream))
        wanted = made_whole.meaning_of_stream(stream)
        self.assertEqual(made_whole.meaning_of_stream(again), wanted)
        self.assertTrue(cityseq.check(again))

    @by_chance
    def test_a_feature_has_what_it_uses(self, chance):
        """Each vertex, material and texture of a feature is used, in the order of its text."""
        for line in split(made_whole.Maker(chance).file()).split(b"\n")[1:-1]:
            text = line.decode()
            made = made_whole.read(text)
            found = list(_indices(made, "boundaries"))
            self.assertEqual(list(dict.fromkeys(found)), list(range(len(made["vertices"]))))
            self.assertNotIn("\n", text)

    @by_chance
    def test_broken_files(self, chance):
        """A file that is cut, or has another byte, gives a stream or a fault of the package."""
        text = bytearray(made_whole.Maker(chance).file())
        at = chance.randrange(len(text))
        if chance.random() < 0.5:
            del text[at:]
        else:
            text[at] = chance.choice(b'[]{}",:0-e\\ \xff\x00n')
        try:
            split(bytes(text))
        except cityseq.InvalidStream as fault:
            self.assertTrue(str(fault).startswith("<bytes>: "))


TRANSFORM = '"transform":{"scale":[1,1,1],"translate":[0,0,0]}'


def whole(objects, vertices="[]", more=""):
    """A whole file with these texts."""
    return (
        f'{{"type":"CityJSON","version":"2.0",{TRANSFORM},"CityObjects":{{{objects}}},'
        f'"vertices":{vertices}{more}}}'
    ).encode()


def header(more=""):
    """The header of its stream."""
    start = f'{{"type":"CityJSON","version":"2.0",{TRANSFORM},"CityObjects":{{}},"vertices":[]'
    return f"{start}{more}}}".encode()


def line(name, objects, vertices="[]", more=""):
    """A feature of it."""
    return (
        f'{{"type":"CityJSONFeature","id":"{name}","CityObjects":{{{objects}}},'
        f'"vertices":{vertices}{more}}}'
    ).encode()


def points(indices, kind="MultiPoint", lod="1"):
    """A geometry of points."""
    return f'{{"type":"{kind}","lod":"{lod}","boundaries":{indices}}}'


class Vectors(InFolder):
    """Files and their streams, by hand."""

    maxDiff = None

    def assertSplit(self, text, *lines):
        self.assertEqual(split(text).split(b"\n"), [*lines, b""])

    def test_vertices_in_the_order_of_first_use(self):
        one = f'"a":{{"type":"Road","geometry":[{points("[3,1,3,0]")}]}}'
        two = f'"b":{{"type":"Road","geometry":[{points("[0]")},{points("[]")}]}}'
        text = whole(f"{one},{two}", "[[0,0,0],[1.0,1,1],[2,2,2],[3,3e0,3]]")
        made = one.replace("[3,1,3,0]", "[0,1,0,2]")
        self.assertSplit(
            text,
            header(),
            line("a", made, "[[3,3e0,3],[1.0,1,1],[0,0,0]]"),
            line("b", two, "[[0,0,0]]"),
        )

    def test_texts_keep_their_spelling(self):
        spelled = (
            '"a":{ "type" : "Road", "attributes": {"a b": "x \\u00e9\\/ \\" , é",'
            '\t"n":\r\n1.50e+1 ,'
            ' "boundaries": [ 9 , 1 ], "big": 12345678901234567890.10}, "+x" : [ ] }'
        )
        made = (
            '"a":{"type":"Road","attributes":{"a b":"x \\u00e9\\/ \\" , é","n":1.50e+1,'
            '"boundaries":[9,1],"big":12345678901234567890.10},"+x":[]}'
        )
        self.assertSplit(whole(spelled), header(), line("a", made))

    def test_a_name_with_escapes(self):
        text = whole(
            '"\\u0061":{"type":"Road","geom\\u0065try":[%s]}' % points("[1]"), "[[0,0,0],[1,1,1]]"
        )
        made = '"\\u0061":{"type":"Road","geom\\u0065try":[%s]}' % points("[0]")
        self.assertSplit(text, header(), line("\\u0061", made, "[[1,1,1]]"))

    def test_parts_and_a_shared_child(self):
        parts = '"p":{"type":"BuildingPart","parents":["a","b"],"geometry":[%s]}' % points("[1]")
        a, b = ('"%s":{"type":"Building","children":["p"]}' % name for name in "ab")
        text = whole(f"{parts},{a},{b}", "[[0,0,0],[1,1,1]]")
        made = parts.replace("[1]", "[0]")
        stream = split(text)
        self.assertEqual(
            stream.split(b"\n")[1:-1],
            [line("a", f"{a},{made}", "[[1,1,1]]"), line("b", f"{b},{made}", "[[1,1,1]]")],
        )
        self.assertEqual(json.loads(collect(stream))["CityObjects"].keys(), {"a", "b", "p"})

    def test_many_city_objects(self):
        """Each is found by its name, and a name that stands twice too."""
        names = [f"b{number}" for number in range(500)]
        mains = (f'"{name}":{{"type":"Building","children":["{name}p"]}}' for name in names)
        parts = (
            f'"{name}p":{{"type":"BuildingPart","parents":["{name}"]}}' for name in names[::-1]
        )
        text = whole(",".join([*mains, *parts]))
        stream = split(text)
        self.assertTrue(cityseq.check(stream, tree=True))
        found = [json.loads(each) for each in stream.splitlines()[1:]]
        self.assertEqual(
            [list(each["CityObjects"]) for each in found], [[name, f"{name}p"] for name in names]
        )
        for name in ("b0", "b250", "b499p"):
            twice = text.replace(b'"CityObjects":{', b'"CityObjects":{"%s":0,' % name.encode())
            with self.assertRaisesRegex(cityseq.InvalidStream, f"CityObjects/{name}: the name"):
                split(twice)

    def test_memory(self):
        """At most 4 times the file, also if its city objects are as small as can be. Lines that
        wait to be written are not counted: they are the same for all files."""
        surface = points("[[[0,1,2]],[[2,1,0]],[[0,2,1]],[[1,0,2]]]", "MultiSurface")
        usual = '"%s":{"type":"Building","attributes":{"year":1990},"geometry":[' + surface + "]}"
        for spelled, count in ((usual, 4_000), ('"%s":{"type":"Road"}', 40_000)):
            objects = ",".join(spelled % number for number in range(count))
            text = whole(objects, "[[0,0,0],[1,1,1],[2,2,2]]")
            path = self.file(text, "a.city.json")
            tracemalloc.start()
            try:
                cityseq.split(path, self.folder / "a.city.jsonl")
                _, peak = tracemalloc.get_traced_memory()
            finally:
                tracemalloc.stop()
            self.assertLess(peak, 4 * path.stat().st_size + 4 * TOGETHER)

    def test_the_level_comes_from_the_type(self):
        """A first-level object with `parents` is a feature, and a part without them is none."""
        text = whole('"a":{"type":"Road","parents":["g"]},"b":{"type":"+Shed"},"c":3')
        self.assertEqual(
            split(text).split(b"\n")[1:-1],
            [
                line("a", '"a":{"type":"Road","parents":["g"]}'),
                line("b", '"b":{"type":"+Shed"}'),
                line("c", '"c":3'),
            ],
        )
        for wanted, objects in (
            ("CityObjects/p: no city object", '"p":{"type":"BuildingPart"}'),
            ("CityObjects/p: no city object", '"p":{"type":"+Part","parents":["a"]}'),
        ):
            with self.assertRaisesRegex(cityseq.InvalidStream, wanted):
                split(whole(objects))

    def test_a_group(self):
        """Its children are not followed."""
        group = '"g":{"type":"CityObjectGroup","children":["a","q"],"children_roles":["x","y"]}'
        text = whole(f'{group},"a":{{"type":"Road"}}')
        self.assertSplit(text, header(), line("g", group), line("a", '"a":{"type":"Road"}'))

    def test_children_in_a_circle(self):
        a = '"a":{"type":"Building","children":["p"]}'
        p = '"p":{"type":"BuildingPart","parents":["a","p"],"children":["p","q"]}'
        self.assertSplit(whole(f"{a},{p}"), header(), line("a", f"{a},{p}"))

    def test_the_location_of_an_address(self):
        place = '"a":{"type":"Road","address":[{"x":[5],"location":%s},3]}'
        text = whole(place % points("[2]"), "[[0,0,0],[1,1,1],[2,2,2]]")
        self.assertSplit(text, header(), line("a", place % points("[0]"), "[[2,2,2]]"))

    def test_templates(self):
        """They stay in the header, with the materials that they use. Their number stays too."""
        shape = (
            '{"type":"MultiSurface","lod":"1","boundaries":[[[2,1,0]]],'
            '"material":{"t":{"value":%s}}}'
        )
        corners = '"vertices-templates":[[0.0,0,0],[1,0,0],[0,1,0]]'
        templates = ',"geometry-templates":{"templates":[%s],' + corners + "}"
        materials = (
            ',"appearance":{"materials":[{"name":"m"},{"name":"n"}],"default-theme-material":"t"}'
        )
        tree = (
            '"a":{"type":"SolitaryVegetationObject","geometry":[{"type":"GeometryInstance",'
            '"template":0,"boundaries":[%s],'
            '"transformationMatrix":[1,0,0,0,0,1,0,0,0,0,1,0,0,0,0,1]}]}'
        )
        text = whole(tree % 1, "[[0,0,0],[1,1,1]]", templates % (shape % 1) + materials)
        theme = ',"appearance":{"default-theme-material":"t"%s}'
        self.assertSplit(
            text,
            header(templates % (shape % 0) + theme % ',"materials":[{"name":"n"}]'),
            line("a", tree % 0, "[[1,1,1]]", theme % ""),
        )

    def test_materials_and_textures(self):
        surface = (
            '"a":{"type":"Road","geometry":[{"type":"MultiSurface","lod":"1",'
            '"boundaries":[[[0,1,2]],[[0]]],"semantics":{"surfaces":[{"type":"X","children":[1]},'
            '{"type":"Y","parent":0}],"values":[1,null]},'
            '"material":{"s":{"values":[%s,null]},"w":{"value":%s}},'
            '"texture":{"s":{"values":[[[%s]],[[null]]]}}}]}'
        )
        lists = (
            ',"appearance":{"default-theme-texture":"s","materials":[%s],"textures":[%s],'
            '"vertices-texture":[%s]}'
        )
        vertices = "[[0,0,0],[1,1,1],[2,2,2]]"
        text = whole(
            surface % (2, 0, "1,3,0,3"),
            vertices,
            lists
            % (
                '{"name":"0"},{"name":"1"},{"name":"2"}',
                '{"image":"0"},{"image":"1"}',
                "[0.0,0.0],[1.0,0],[2,0],[0.50,1e-1]",
            ),
        )
        self.assertSplit(
            text,
            header(',"appearance":{"default-theme-texture":"s"}'),
            line(
                "a",
                surface % (0, 1, "0,0,1,0"),
                vertices,
                lists % ('{"name":"2"},{"name":"0"}', '{"image":"1"}', "[0.50,1e-1],[0.0,0.0]"),
            ),
        )

    def test_wrong_indices_and_kinds_stay(self):
        """The engine reports them."""
        for indices, made, code in (
            ("[0,7]", "[0,7]", 25),
            ("[0,-1]", "[0,-1]", 25),
            ("[0,1.5]", "[0,1.5]", 18),
            ('[0,"0"]', '[0,"0"]', 12),
            ("[0,[0]]", "[0,[0]]", 12),
            ("[0,null]", "[0,null]", 12),
            ("3", "3", 12),
            ('{"a":1}', '{"a":1}', 12),
        ):
            with self.subTest(indices):
                text = whole(
                    '"a":{"type":"Road","geometry":[%s]}' % points(indices), "[[0,0,0],[1,1,1]]"
                )
                stream = split(text)
                self.assertIn(f'"boundaries":{made}'.encode(), stream)
                self.assertEqual(cityseq.check(stream).end.code, code)
                self.assertEqual(cityseq.check(text, whole=True).end.code, code)


FAULTS = (  # a text with a mark @ where the byte of the fault is, if it has one
    (b"", "no CityJSON object"),
    (b"[]", "no CityJSON object"),
    (b"@\xef\xbb\xbf" + whole(""), "byte {}: a byte order mark"),
    (whole("")[:-1], "cut short"),
    (whole("") + b"@x", "byte {}: text follows"),
    (header() + b"\n@" + line("a", '"a":{"type":"Road"}'), "byte {}: text follows"),
    (header() + b"\n" + line("a", '"a":{"type":"Road"}'), "it is a stream already"),
    (whole('"a":{"attributes":{"n":NaN}}'), "CityObjects/a/attributes/n: NaN is no JSON"),
    (
        whole('"a":{"attributes":{"n":-Infinity}}'),
        "CityObjects/a/attributes/n: -Infinity is no JSON",
    ),
    (whole('"a":{"attributes":{"n":0@1}}'), "CityObjects/a/attributes: byte {}: syntax"),
    (whole('"a":{"attributes":{"n":"@\t"}}'), "CityObjects/a/attributes/n: byte {}: syntax"),
    (whole('"a":{"type":"Road"} @"b":3'), "CityObjects: byte {}: syntax"),
    (whole('"a":3,@'), "CityObjects: byte {}: syntax"),
    (whole('@"\\q":3'), "CityObjects: byte {}: syntax"),
    (
        whole('"a":' + "[" * 5_000 + "]" * 5_000),
        "CityObjects/a/0/0/0/0/0/0/0/0: it is nested deeper",
    ),
    (whole('"a":{"n":"@\\ud800"}'), "byte {}: a lone surrogate"),
    (whole('"a":{"n":"\\\\\\\\@\\udC00x"}'), "byte {}: a lone surrogate"),
    (whole('"a":{"n":"\\ud83c\\udfe0@\\udfe0"}'), "byte {}: a lone surrogate"),
    (whole('"a":{"n":"@Z"}').replace(b"Z", b"\xff"), "byte {}: not UTF-8"),
    (whole('"a":{"n":"@Z"}').replace(b"Z", b"\xed\xa0\x80"), "byte {}: not UTF-8"),
    (whole("") + b"@\xe2\x82", "byte {}: not UTF-8"),
    (
        whole('"a":{"type":"Road"},"\\u0061":{"type":"Road"}'),
        "CityObjects/a: the name stands twice",
    ),
    (whole("", more=',"vertices":[]'), "vertices: the name stands twice"),
    (
        whole("", more=',"appearance":{"materials":[],"materials":[]}'),
        "appearance/materials: the name",
    ),
    (whole("", "[[0,0,0],[0,0]]"), "vertices/1: a vertex is three whole numbers"),
    (whole("", "[[0,0,1.5]]"), "vertices/0: a vertex is three whole numbers"),
    (whole("", '[[0,0,"1"]]'), "vertices/0: a vertex is three whole numbers"),
    (whole("", "[[0,0,1000000000000000000]]"), "vertices/0: a vertex is three"),
    (whole("", "[[0,0,0],@]"), "vertices/1: byte {}: syntax"),
    (whole("", "[[0,0,0]@[0,0,0]]"), "vertices: byte {}: syntax"),
    (whole("", "{}"), "vertices: it is no array"),
    (whole("").replace(b"{}", b"[]", 1), "CityObjects: it is no object"),
    (b'{"type":"CityJSON","version":"2.0"}', "CityObjects: the member is missing"),
    (line("a", '"a":{"type":"Road"}'), "type: it is a line of a stream"),
    (whole("").replace(b'"2.0"', b'"1.1"'), "version: it is CityJSON 1.1, and not 2.0"),
    (whole("").replace(b'"2.0"', b"2.0"), "version: it is no text"),
)


class Faults(InFolder):
    """Files that cannot be split, and streams that cannot be joined."""

    def test_files(self):
        for marked, wanted in FAULTS:
            text, wanted = marked.replace(b"@", b""), wanted.format(marked.find(b"@"))
            with self.subTest(wanted):
                with self.assertRaises(cityseq.InvalidStream) as caught:
                    split(text)
                self.assertIn(wanted, str(caught.exception))
                result = cityseq.check(text, whole=True)
                self.assertEqual((result.status, bool(result)), (1, False))
                self.assertIn(wanted, result.fault)

    def test_depths_at_the_edge(self):
        """Python has read some of them when it finds that others are too deep."""
        for depth in range(880, 1_000, 3):
            nested = "[" * depth + "]" * depth
            places = (
                whole(f'"a":{{"type":"Building","children":["p"],"n":{nested}}}'),
                whole('"a":{"type":"Road","geometry":[{"type":"X","n":%s}]}' % nested),
                whole("", more=f',"geometry-templates":{{"templates":[{{"n":{nested}}}]}}'),
            )
            for text in places:
                with suppress(cityseq.InvalidStream):
                    split(text)

    def test_a_pair_of_surrogates_is_a_character(self):
        text = whole('"a":{"type":"Road","attributes":{"n":"\\uD83C\\udFE0 \\\\ud800"}}')
        self.assertTrue(cityseq.check(split(text)))

    def test_a_long_line(self):
        made = '"a":{"type":"Road","attributes":{"n":"%s"}}' % ("x" * 500)
        text, length = whole(f'{made},"b":{{"type":"Road"}}'), len(line("a", made))
        wanted = f"CityObjects/a: .* use --line-limit {length},"
        with self.assertRaisesRegex(cityseq.InvalidStream, wanted):
            split(text, line_limit=length - 1)
        self.assertTrue(cityseq.check(split(text, line_limit=length), line_limit=length))

    def test_a_child_that_is_a_number(self):
        """It is no id, also if a city object has its text as a name."""
        a, b = '"a":{"type":"Building","children":[5]}', '"5":{"type":"Road"}'
        self.assertEqual(split(whole(f"{a},{b}")).split(b"\n")[1:-1], [line("a", a), line("5", b)])

    def test_outputs_are_whole_or_absent(self):
        good, broken = self.file(whole(""), "a.city.json"), self.file(b"{}", "b.city.json")
        for name in ("x.city.jsonl", "x.city.jsonl.gz"):
            output = self.folder / name
            self.assertRaises(cityseq.InvalidStream, cityseq.split, broken, output)
            self.assertFalse(output.exists())
            made = cityseq.split(good, output)
            self.assertEqual((made.features, made.objects, made.vertices), (0, 0, 0))
            before = output.read_bytes()
            self.assertRaises(cityseq.InvalidStream, cityseq.split, broken, output)
            self.assertEqual(output.read_bytes(), before)
        self.assertEqual(gzip.decompress(before), header() + b"\n")
        self.assertRaises(cityseq.RequestError, cityseq.split, good, good)
        self.assertEqual(len(list(self.folder.iterdir())), 4)

    def test_an_interrupt_leaves_nothing(self):
        text = whole('"a":{"type":"Road"}')
        path, output = self.file(text, "a.city.json"), self.folder / "b.city.json"
        stream = self.file(split(text))
        for name, call in (
            ("splitting.Document._feature", lambda: cityseq.split(path, output)),
            ("collecting.Collection.feature", lambda: cityseq.collect(stream, output)),
            ("splitting.Document._feature", lambda: cityseq.check(path)),
        ):
            with mock.patch(f"cityseq.convert.{name}", side_effect=KeyboardInterrupt):
                self.assertRaises(KeyboardInterrupt, call)
            self.assertEqual(len(list(self.folder.iterdir())), 2)
            self.assertEqual(threading.active_count(), 1)

    def test_packed_files(self):
        import zstandard

        text = whole('"a":{"type":"Road"}')
        packed = self.file(text, "a.city.json.gz")
        self.assertTrue(cityseq.check(packed))
        cut = self.file(b"", "cut.city.json")
        cut.write_bytes(packed.read_bytes()[:-9])
        self.assertRaises(cityseq.ReadFault, split, cut)
        self.assertRaises(cityseq.ReadFault, cityseq.check, cut)
        zst = self.file(zstandard.ZstdCompressor().compress(text), "a.zst")
        self.assertEqual(split(zst), split(text))


class Command(InFolder):
    """The commands `split` and `collect`, and whole files in the others."""

    def setUp(self):
        super().setUp()
        self.text = whole(
            '"a":{"type":"Road","geometry":[%s]}' % points("[1]"), "[[0,0,0],[1,1,1]]"
        )
        self.path = str(self.file(self.text, "a.city.json.gz"))
        self.stream = str(self.folder / "a.city.jsonl")

    def test_there_and_back(self):
        self.assertEqual(command("split", self.path), (split(self.text), "", 0))
        self.assertEqual(command("split", given=self.text), (split(self.text), "", 0))
        told = command("split", self.path, "-o", self.stream)
        self.assertEqual(told, (b"features=1 objects=1 vertices=2\n", "", 0))
        again = str(self.folder / "b.city.json.gz")
        told = command("collect", "--output", again, self.stream, self.stream)
        self.assertEqual(told, (b"features=2 objects=1 vertices=1\n", "", 0))
        self.assertEqual(command("check", "--whole", again)[2], 0)
        self.assertEqual(command("collect", "-q", self.stream, "-o", again), (b"", "", 0))
        whole_again, said, status = command("collect", given=split(self.text))
        self.assertEqual((json.loads(whole_again)["vertices"], said, status), ([[1, 1, 1]], "", 0))

    def test_whole_files(self):
        other = str(self.file(self.text, "a.json"))
        for words in (["check", self.path], ["check", "--whole", other]):
            self.assertEqual(command(*words), (b"valid lines=2 features=1\n", "", 0))
        told = command("check", "--whole", given=self.text)
        self.assertEqual(told, (b"valid lines=2 features=1\n", "", 0))
        self.assertIn(b"type Road 1\n", command("info", self.path)[0])
        self.assertIn(b"type Road 1\n", command("info", "--whole", other)[0])
        for words in (["report", "--json", self.path], ["report", "--json", "--whole", other]):
            made = json.loads(command(*words)[0])
            self.assertEqual((made["status"], made["files"][0]["features"]), (0, 1))
        told = json.loads(command("check", "--json", "--whole", other)[0])
        self.assertEqual((told["verdict"], told["options"]["whole"]), ("valid", True))
        _, said, status = command("check", other)  # a stream, as its name does not say otherwise
        self.assertEqual(status, 1)
        self.assertIn("Make a stream of it, as by cityseq-run split.", said)

    def test_what_ends_with_a_fault(self):
        self.file(b"{}", "b.city.json")
        broken = str(self.folder / "b.city.json")
        wanted = f"{broken}: type: the member is missing\n"
        for words in (["split", broken], ["check", broken], ["info", broken]):
            self.assertEqual(command(*words), (b"", wanted, 1))
        told = json.loads(command("check", "--json", broken)[0])
        self.assertEqual((told["status"], told["fault"]), (1, "type: the member is missing"))
        self.assertEqual(
            command("check", "--whole", given=b"{}")[1:], (wanted.replace(broken, "-"), 1)
        )
        missing = str(self.folder / "none.city.json")
        self.assertEqual([command(name, missing)[2] for name in ("split", "check")], [3, 3])
        index = str(self.folder / "i.gpkg")
        told = command("index", "-o", index, self.path)
        self.assertEqual(told[2], 2)
        self.assertIn("make a stream of it, as by cityseq-run split", told[1])
        _, said, status = command("split", self.path, broken)
        self.assertEqual((status, said.count("\n"), "--output" in said), (2, 1, True))
        self.assertEqual(command("split", self.path, "-o", self.path)[2], 2)

    def test_standard_output_is_whole_or_absent(self):
        stream = split(self.text)
        good = str(self.file(stream, "good.city.jsonl"))
        pipe = str(self.folder / "pipe")
        os.mkfifo(pipe)
        reader = os.open(pipe, os.O_RDONLY | os.O_NONBLOCK)
        self.addCleanup(os.close, reader)
        for more, wanted in (
            (str(self.folder / "none.city.jsonl"), 3),
            (str(self.file(stream + b"[]\n", "broken.city.jsonl")), 1),
            (str(self.file(stream.replace(b'"Road"', b'"Railway"'), "other.city.jsonl")), 1),
        ):
            output, said, status = command("collect", good, more)
            self.assertEqual((output, status), (b"", wanted))
            self.assertIn(more, said)
            self.assertEqual(command("collect", good, more, "-o", pipe)[2], wanted)
            self.assertEqual(os.read(reader, 9), b"")
            kept = io.BytesIO()
            with self.assertRaises(cityseq.CityseqError):
                cityseq.collect([good, more], kept)
            self.assertEqual(kept.getvalue(), b"")

    def test_what_is_held_may_be_long(self):
        output = str(self.folder / "there.city.json")
        for most in (0, 50, 1 << 20):
            with mock.patch("cityseq.sources.outputs.HELD", most):
                held = io.BytesIO()
                cityseq.collect(split(self.text), held)
            cityseq.collect(split(self.text), output)
            with open(output, "rb") as file:
                self.assertEqual(held.getvalue(), file.read())

    @mock.patch("cityseq.sources.outputs.HELD", 50)
    @mock.patch("tempfile.TemporaryFile", side_effect=OSError(28, "No space left on device"))
    def test_a_temporary_file_that_cannot_be_written(self, _):
        held = io.BytesIO()
        for folder, wanted in (("/there", "/there"), (None, "temporary files")):
            with mock.patch("tempfile.tempdir", folder):
                with self.assertRaises(cityseq.WriteFault) as caught:
                    cityseq.collect(split(self.text), held)
            self.assertEqual(
                (str(caught.exception), held.getvalue()),
                (f"{wanted}: write fault: No space left on device", b""),
            )

    def test_names_cannot_write_to_a_terminal(self):
        text = whole('"\\u001b[31m":{"type":"Road","n":NaN}')
        _, said, status = command("split", given=text)
        self.assertEqual((status, "\x1b" in said), (1, False))


class Joined(unittest.TestCase):
    """What `collect` joins, and what it refuses."""

    def stream(self, translate="0", more="", *lines):
        head = header(more).replace(b'"translate":[0', f'"translate":[{translate}'.encode())
        return b"".join(each + b"\n" for each in (head, *lines))

    def road(self, name, indices="[0]", vertices="[[1,1,1]]", more=""):
        return line(
            name, f'"{name}":{{"type":"Road","geometry":[{points(indices)}]}}', vertices, more
        )

    def test_equal_vertices_once(self):
        text = self.stream(
            "0",
            "",
            self.road("a", "[0,1]", "[[1,1,1],[2,2,2]]"),
            self.road("b", "[1,0]", "[[2.0,2,2],[1,1e0,1]]"),
        )
        made = json.loads(collect(text))
        self.assertEqual(made["vertices"], [[1, 1, 1], [2, 2, 2]])
        self.assertEqual(made["CityObjects"]["b"]["geometry"][0]["boundaries"], [0, 1])

    def test_tiles(self):
        """Vertices move exactly, and the first transform stays."""
        made = json.loads(
            collect(
                self.stream("0.5", "", self.road("a")),
                self.stream("-7.50", "", self.road("b", vertices="[[9,1,1]]")),
            )
        )
        self.assertEqual(made["transform"]["translate"], [0.5, 0, 0])
        self.assertEqual(made["vertices"], [[1, 1, 1]])
        for other in ("0.75", "1e-19"):
            with self.assertRaisesRegex(cityseq.InvalidStream, "translate 0.5 0 0: the scales"):
                collect(self.stream("0.5"), self.stream(other))
        scaled = self.stream("0.5").replace(b'"scale":[1', b'"scale":[2')
        self.assertRaises(cityseq.InvalidStream, collect, self.stream("0.5"), scaled)
        far = self.road("b", vertices="[[999999999999999999,0,0]]")
        with self.assertRaisesRegex(cityseq.InvalidStream, "line 2: a vertex moves beyond"):
            collect(self.stream("0"), self.stream("1", "", far))

    def test_appearance_and_templates(self):
        def tile(name, image):
            material = ',"material":{"t":{"value":0}}'
            shape = points("[0]")[:-1] + material + "}"
            templates = (
                ',"geometry-templates":{"templates":[%s],"vertices-templates":[[0.5,0,0]]}' % shape
            )
            head = templates + ',"appearance":{"materials":[{"name":"%s"}]}' % image
            instance = (
                '"%s":{"type":"Road","geometry":[{"type":"GeometryInstance","template":0,'
                '"boundaries":[0],"transformationMatrix":[1,0,0,0,0,1,0,0,0,0,1,0,0,0,0,1]%s}]}'
                % (name, material)
            )
            own = ',"appearance":{"materials":[{"name":"own"}]}'
            return self.stream("0", head, line(name, instance, "[[0,0,0]]", own))

        made = json.loads(collect(tile("a", "x"), tile("b", "x"), tile("c", "y")))
        names = [each["name"] for each in made["appearance"]["materials"]]
        self.assertEqual(names, ["x", "own", "y"])
        templates = made["geometry-templates"]
        self.assertEqual([each["boundaries"] for each in templates["templates"]], [[0], [1]])
        self.assertEqual(
            [each["material"]["t"]["value"] for each in templates["templates"]], [0, 2]
        )
        self.assertEqual(templates["vertices-templates"], [[0.5, 0, 0]] * 2)
        found = [each["geometry"][0]["template"] for each in made["CityObjects"].values()]
        self.assertEqual(found, [0, 0, 1])

    def test_ids(self):
        equal, other = self.road("a"), self.road("a", vertices="[[2,2,2]]")
        self.assertEqual(
            len(json.loads(collect(self.stream("0", "", equal, equal)))["CityObjects"]), 1
        )
        with self.assertRaisesRegex(
            cityseq.InvalidStream, "line 3 and line 2 have different city objects a"
        ):
            collect(self.stream("0", "", equal, other))

    def test_members_of_headers(self):
        one, two = ',"+x":1', ',"metadata":{"title":"t","geographicalExtent":[0,0,0,1,1,1]}'
        made = json.loads(collect(self.stream("0", one), self.stream("0", two)))
        self.assertEqual((made["+x"], made["metadata"]["title"]), (1, "t"))
        with self.assertRaisesRegex(cityseq.InvalidStream, "different members \\+x"):
            collect(self.stream("0", one), self.stream("0", ',"+x":2'))
        output = io.BytesIO()
        told = cityseq.collect([self.stream("0", two), self.stream("0", ',"metadata":{}')], output)
        self.assertEqual(json.loads(output.getvalue())["metadata"], {"title": "t"})
        self.assertIn("without the extent", told.notes[0])
        told = cityseq.collect(self.stream("0", two), io.BytesIO())
        self.assertIn("too large if the stream was filtered", told.notes[0])

    def test_what_is_refused(self):
        texture = self.road("a", more=',"appearance":{"default-theme-material":"x"}')
        other = self.road("b", more=',"appearance":{"default-theme-material":"y"}')
        missing = line(
            "a",
            '"a":{"type":"Road","geometry":[{"type":"MultiSurface","lod":"1",'
            '"boundaries":[[[0]]],"material":{"t":{"value":1}}}]}',
            "[[0,0,0]]",
        )
        for lines, wanted in (
            ((texture, other), "line 3 and line 2 of <bytes> have different members default-theme"),
            ((missing,), "line 2: appearance/materials has no item 1"),
            ((self.road("a", "[1]"),), "line 2, byte .*: 25 vertex index out of range"),
            ((b"{",), "line 2, byte 1: 4 syntax"),
        ):
            with self.subTest(wanted), self.assertRaisesRegex(cityseq.InvalidStream, wanted):
                collect(self.stream("0", "", *lines))
        self.assertRaises(cityseq.RequestError, cityseq.collect, [], io.BytesIO())
        self.assertRaises(cityseq.InvalidStream, collect, b"")


def _indices(value, name):
    """The indices of vertices of a feature, in the order of its text."""
    objects = value["CityObjects"].values()
    for each in objects:
        for key, member in each.items():
            if key == "geometry":
                for geometry in member:
                    yield from _flat(geometry[name])
            if key == "address":
                for place in member:
                    yield from _flat(place["location"][name])


def _flat(value):
    if isinstance(value, list):
        for each in value:
            yield from _flat(each)
    else:
        yield int(value)


if __name__ == "__main__":
    unittest.main()
