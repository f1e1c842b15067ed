"""The facts of a delivery: that they are those of the streams, and how a page is made of files."""
import csv
import gzip
import json
import random
import subprocess
import unittest
from collections import Counter
from decimal import Decimal, DecimalException
from unittest import mock

import cityseq
from cityseq import delivery as extras

from .support import HEADER, PLAIN, InFolder, feature, lines_by_chance, stream_by_chance
from .test_told import example

try:
    extras.need_all()
    from cityseq.delivery import survey
    from cityseq.engine.records import RECORD
    from cityseq.engine.world import extent_of, transform_of
    from cityseq.indexes.builder import temporary_folder

    MISSING = None
except extras.PackageMissing as fault:
    MISSING = str(fault)


def named(name, x=0):
    """A feature of any id, escaped as Python's JSON writer does."""
    told = {
        "type": "CityJSONFeature",
        "id": name,
        "CityObjects": {name: {"type": "Building"}},
        "vertices": [[x, 0, 0]],
    }
    return json.dumps(told).encode() + b"\n"


def lists_of(page):
    """The rows of the CSV file and the objects of the JSON lines next to a page."""
    with open(page.with_suffix(".reports.csv"), encoding="utf-8-sig", newline="") as table:
        rows = list(csv.reader(table))[1:]
    with open(page.with_suffix(".reports.jsonl"), encoding="utf-8") as lines:
        return rows, [json.loads(line) for line in lines]


def header_of(path):
    """The first line of a file, which may be packed, without its LF."""
    with open(path, "rb") as file:
        text = file.read()
    return (gzip.decompress(text) if text.startswith(b"\x1f\x8b") else text).split(b"\n", 1)[0]


@unittest.skipIf(MISSING, MISSING)
class Facts(InFolder):
    """The facts are those that the other calls of the package tell of the same files."""

    def same_as_others(self, paths, **more):
        """Compares the facts of files with what check and features tell."""
        made = cityseq.report(paths, self.folder / "page.html", **more)
        checks = [cityseq.check(path, keep_going=True) for path in paths]
        for file, check in zip(made.files, checks):
            self.assertEqual(
                (file.status, file.lines, file.contents.features, file.hints, file.fault),
                (check.status, check.lines, check.features, check.hints, check.fault),
            )
            self.assertEqual(file.invalid, len(check.reports))
            self.assertEqual(file.peaks, (check.peak_bytes, check.peak_tokens, check.peak_depth))
            if check.end is None and check.fault is None:
                self.same_contents(file, list(cityseq.features(file.name, keep_going=True)))
                self.assertLessEqual(file.longest, file.peaks[0])
        reports = [report for check in checks for report in check.reports]
        self.assertEqual(made.reports, reports)
        self.assertEqual(
            {reason.code: reason.lines for reason in made.reasons},
            Counter(report.code for report in reports),
        )
        rows, objects = lists_of(self.folder / "page.html")
        told = [(report.line, report.byte, report.code) for report in reports]
        self.assertEqual([tuple(map(int, row[1:4])) for row in rows], told)
        self.assertEqual(
            [(one["line"], one["byte"], one["code"], one["id"]) for one in objects],
            [(*numbers, report.id) for numbers, report in zip(told, reports)],
        )
        return made

    def same_contents(self, file, features):
        contents = file.contents
        self.assertEqual(
            file.longest, max([len(each.bytes) for each in features] + [len(header_of(file.name))])
        )
        self.assertEqual(
            contents.types, dict(Counter(name for each in features for name in each.types))
        )
        self.assertEqual(
            contents.lods, dict(Counter(name for each in features for name in each.lods))
        )
        self.assertEqual(
            contents.lengths, dict(Counter(len(each.bytes).bit_length() - 1 for each in features))
        )
        for axis in range(3):
            extents = [each.extent[axis] for each in features if each.extent[axis] is not None]
            wanted = (
                (min(low for low, _ in extents), max(high for _, high in extents))
                if extents
                else None
            )
            self.assertEqual(file.extent[axis], wanted)

    def test_the_examples(self):
        made = self.same_as_others(
            [example(name) for name in ("sample", "town", "delivery", "broken")]
        )
        self.assertEqual((made.status, made.verdicts), (1, {"valid": 2, "invalid": 2}))
        self.assertEqual(made.files[0].box, cityseq.info(example("sample")).box)
        self.assertEqual([area.files for area in made.areas], [1, 3])

    def test_streams_by_chance(self):
        self.addCleanup(setattr, survey, "TOGETHER", survey.TOGETHER)
        for seed in range(60):
            chance = random.Random(seed)
            survey.TOGETHER = chance.choice((1, 5, 8_192))
            paths = [
                self.file(
                    stream_by_chance(seed + 100 * number),
                    f"{number}.jsonl" + ".gz" * chance.randrange(2),
                )
                for number in range(3)
            ]
            self.same_as_others(
                paths, part_size=chance.choice((100, 400, 100_000)), jobs=chance.choice((1, 4))
            )

    def test_lines_beyond_the_limit(self):
        text = HEADER + feature("a") + b" " * 2_000 + feature("b") + feature("c")
        made = cityseq.report(self.file(text), line_limit=500)
        self.assertEqual([(report.line, report.code) for report in made.reports], [(3, 2)])
        self.assertEqual(made.contents.features, 2)

    def test_what_is_no_stream(self):
        texts = (b"", b"{}\n", PLAIN, gzip.compress(HEADER), HEADER[:-1], HEADER, b"[\n" * 9)
        paths = [self.file(text, f"{number}.jsonl") for number, text in enumerate(texts)]
        made = self.same_as_others(paths)
        self.assertEqual(
            [file.verdict for file in made.files], ["invalid"] * 3 + ["valid"] * 3 + ["invalid"]
        )
        self.assertEqual(made.files[5].scale, [Decimal("0.001")] * 3)  # a header alone
        self.assertEqual(made.files[0].scale, [])

    def test_files_that_cannot_be_read(self):
        cut = gzip.compress(HEADER + b"".join(lines_by_chance(random.Random(1), 200)))[:-300]
        paths = [self.folder / "none", self.file(HEADER + feature("a"), "good.jsonl"), self.folder]
        (self.folder / "cut.gz").write_bytes(cut)
        made = cityseq.report([*paths, self.folder / "cut.gz"], self.folder / "page.html")
        self.assertEqual(
            [file.verdict for file in made.files], ["fault", "valid", "fault", "fault"]
        )
        self.assertEqual((made.status, made.files[0].sha256, made.files[0].size), (3, None, None))
        self.assertIn("No such file", made.files[0].fault)

    def test_sums_of_files(self):
        path = self.file(HEADER + feature("a"))
        told = (
            subprocess.run(["sha256sum", path], capture_output=True, check=True)
            .stdout.split()[0]
            .decode()
        )
        self.assertEqual(cityseq.report(path).files[0].sha256, told)

    def test_coordinate_systems_are_told_apart(self):
        header = json.loads(HEADER)
        paths = []
        for number, system in enumerate((None, "EPSG:7415", "EPSG:7415", "<b>", 3)):
            header["metadata"] = {} if system is None else {"referenceSystem": system}
            text = json.dumps(header).encode() + b"\n" + feature(f"f{number}", x=1_000 * number)
            paths.append(self.file(text, f"{number}.jsonl"))
        made = cityseq.report(paths)
        self.assertEqual(
            {area.reference_system: (area.files, area.features) for area in made.areas},
            {None: (2, 2), "EPSG:7415": (2, 2), "<b>": (1, 1)},
        )
        self.assertEqual(
            {area.reference_system: area.box for area in made.areas}["EPSG:7415"], "10,20,12,21"
        )

    def test_many_coordinate_systems(self):
        header = json.loads(HEADER)
        paths = []
        for number in range(8):
            header["metadata"] = {"referenceSystem": f"EPSG:{number}"}
            paths.append(
                self.file(
                    json.dumps(header).encode() + b"\n" + feature("a") * (1 + number),
                    f"{number}.jsonl",
                )
            )
        made = cityseq.report(paths, self.folder / "page.html")
        self.assertEqual([area.features for area in made.areas], [8, 7, 6, 5, 4, 3, 2, 1])
        text = (self.folder / "page.html").read_text("utf-8")
        self.assertEqual(text.count('role="img" viewBox'), 9)  # eight maps, and the histogram
        self.assertNotIn("no map here", text)

    def test_a_stray_feature_is_named(self):
        ids = ["a", "b", "c", "d\u00e9", "e"]
        lines = [named(name, 10 * number) for number, name in enumerate(ids)]
        lines[3] = named(ids[3], 10**9)
        path = self.file(HEADER + b"".join(lines))
        (area,) = cityseq.report(path, self.folder / "page.html").areas
        self.assertEqual((area.features, area.apart), (5, 1))
        self.assertEqual(
            [(each.file, each.line, each.id) for each in area.strays], [(str(path), 5, "d\u00e9")]
        )
        self.assertIn("d\u00e9</code>", (self.folder / "page.html").read_text("utf-8"))

    def test_extreme_transforms(self):
        for scale, shift in (
            ("1e-18", "-1e17"),
            ("123456789012345678", "5e17"),
            ("-0.001", "1e-18"),
            ("1e300", "-1e300"),
            ("1e-300", "1"),
        ):
            header = HEADER.replace(
                b"[0.001,0.001,0.001]", f"[{scale},{scale},1]".encode()
            ).replace(b"[10,20,0]", f"[{shift},{shift},0]".encode())
            path = self.file(header + feature("a") + feature("b", x=-(2**53)))
            made = cityseq.report(path, self.folder / "page.html")
            try:
                extents = [
                    extent_of(each.ranges, *transform_of(each.header))[0]
                    for each in cityseq.features(path)
                ]
                wanted = min(low for low, _ in extents), max(high for _, high in extents)
            except DecimalException:  # of more than 200 digits
                wanted = None
            self.assertEqual(made.files[0].extent[0], wanted)
            self.assertEqual(made.files[0].box, cityseq.info(path).box)


@unittest.skipIf(MISSING, MISSING)
class Repeated(InFolder):
    """Ids that appear twice are those that a dictionary finds."""

    IDS = (
        "a",
        "b",
        "",
        "<script>",
        "\u0000",
        "\ud800",
        "\udfff",
        "é",
        "x" * 255,
        "x" * 256,
        "x" * 257,
        "x" * 100_000,
        "x" * 100_000 + "y",
    )

    def test_ids_by_chance(self):
        for seed in range(25):
            chance = random.Random(seed)
            ids = [
                [
                    chance.choice(self.IDS)
                    if chance.random() < 0.3
                    else f"i{chance.randrange(300)}"
                    for _ in range(chance.randrange(80))
                ]
                for _ in range(3)
            ]
            texts = [HEADER + b"".join(map(named, some)) for some in ids]
            if chance.randrange(2):
                texts = [text.replace(b'"i1', b'"\\u00691') for text in texts]
            paths = [
                self.file(text, f"{number}.jsonl{'.gz' * (number == 1)}")
                for number, text in enumerate(texts)
            ]
            found = cityseq.report(paths, part_size=chance.choice((200, 10_000)), jobs=2).repeated
            places = {}
            for path, some in zip(paths, ids):
                for line, name in enumerate(some, 2):
                    places.setdefault(name, []).append((str(path), line))
            wanted = {name: where for name, where in places.items() if len(where) > 1}
            self.assertEqual(
                (found.ids, found.features), (len(wanted), sum(map(len, wanted.values())))
            )
            self.assertEqual(
                [(each.count, each.places) for each in found.first],
                [(len(where), where[: survey.MOST_PLACES]) for where in wanted.values()][
                    : survey.MOST_IDS
                ],
            )
            for each, name in zip(found.first, wanted):
                short = len(name.encode("utf-8", "surrogatepass")) < survey.LONGEST
                self.assertEqual(each.id, name if short else name[: survey.LONGEST] + "\u2026")

    def test_more_than_memory_holds_at_once(self):
        ids = [f"i{number % 700}" for number in range(1_000)]
        path = self.file(HEADER + b"".join(map(named, ids)))
        with mock.patch.object(survey, "TOGETHER", 50):
            found = cityseq.report(path).repeated
        self.assertEqual((found.ids, found.features, len(found.first)), (300, 600, survey.MOST_IDS))
        self.assertEqual(
            [(each.id, [line for _, line in each.places]) for each in found.first[:2]],
            [("i0", [2, 702]), ("i1", [3, 703])],
        )

    def test_files_in_another_order(self):
        """The first places are those of the first files, whichever comes first."""
        with survey.Ids() as made:
            for file in (2, 0, 1):
                made.add(file, survey.np.array([4, 5, 6]), [b"a", b"%d" % file, b"b"])
            told = made.repeated(["f", "g", "h"])
        self.assertEqual((told.ids, told.features), (2, 6))
        self.assertEqual(
            [(each.id, each.count, each.places) for each in told.first],
            [
                ("a", 3, [("f", 4), ("g", 4), ("h", 4)]),
                ("b", 3, [("f", 6), ("g", 6), ("h", 6)]),
            ],
        )

    def test_a_database_that_is_full(self):
        with survey.Ids() as made:
            made._base.execute("PRAGMA max_page_count = 2")
            with self.assertRaises(cityseq.WriteFault) as raised:
                for _ in range(100):
                    made.add(0, survey.np.arange(100), [b"x" * 200] * 100)
        self.assertEqual(raised.exception.file, temporary_folder())


@unittest.skipIf(MISSING, MISSING)
class Spelled(unittest.TestCase):
    """Ids with and without escapes, wherever they lie in a part, are equal if their texts are."""

    def test_any_place(self):
        chance = random.Random(1)
        for _ in range(300):
            ids = [
                "".join(chance.choice("a\u00e9\u0000\ud800\U0001f3e0z") for _ in range(size))
                for size in (chance.choice((0, 1, 7, 8, 9, 15, 60, 90, 300)) for _ in range(9))
            ]
            ids += [chance.choice(ids) for _ in range(5)]
            part, raw = b"x" * chance.randrange(3), b""
            for number, name in enumerate(ids):
                is_plain = "\ud800" not in name and chance.random() < 0.5
                spelled = json.dumps(name, ensure_ascii=not is_plain or "\0" in name).encode()
                begin = chance.randrange(len(part) + 1)
                spans = (len(part) - begin, len(spelled), 0, 0)
                raw += RECORD.pack(number + 2, begin, 300, *spans, 1, 1, 1, 1, *[0] * 9)
                part += spelled + b"\\" * chance.randrange(2)
            keys = survey.ids_of(part, raw)
            for one, key in zip(ids, keys):
                for other, its in zip(ids, keys):
                    self.assertEqual(one == other, key == its)
            for name, key in zip(ids, keys):
                text = name.encode("utf-8", "surrogatepass")[: survey.LONGEST]
                self.assertEqual(key[: survey.LONGEST], text)


class Middles(InFolder):
    """Where an invalid feature is."""

    def test_of_any_line(self):
        for line, wanted in (
            (b'{"vertices":[[1,2,3],[3,4,5],[9,9,9]]}', (3, 4)),
            (b'{"a":1', None),
            (b"", None),
            (b'"vertices"', None),
            (b'"vertices":[]', None),
            (b'"vertices":[[1]]', None),
            (b'"vertices":[1,2]', None),
            (b'"vertices":[[1,"a"]]', None),
            (b'"vertices":[[1,2],[', None),
            (b'"vertices":{"a":1}', None),
            (b'"vertices":[[1,2],{}]', None),
            (b'"vertices":[[1' + b"0" * 400 + b",2]]", None),
            (b'"vertices":' + b"[" * 9_000, None),
            (b'"vertices":[[1,2]],"x":[[3,4]]', (1, 2)),
            (b'x\xff"vertices" : [[1.5, -2, 0]]', (1.5, -2)),
        ):
            self.assertEqual(survey.middle_of(line), wanted, line[:40])

    def test_on_the_map(self):
        text = (
            HEADER
            + b"\n"
            + feature("a")
            + feature("b", last=9, x=5_000)
            + b"{}\n"
            + feature("c", kind="Shed")
        )
        made = cityseq.report(self.file(text))
        self.assertEqual([report.line for report in made.reports], [4, 5, 6])
        self.assertEqual(made.areas[0].spots, [(11.0, 21.0), (11.0, 21.0)])

    def test_lines_beyond_the_limit(self):
        """The end of such a line has its vertices, wherever the file is cut, packed or not."""
        lines = [feature("a"), b" " * 3_000 + feature("b", x=7), feature("c", last=9)]
        text = HEADER + b"".join(lines) + b" " * 700 + feature("d").rstrip()
        for name in ("plain.jsonl", "packed.jsonl.gz"):
            path = self.file(text, name)
            for size in (1, 300, 700, 2_000, 100_000):
                made = cityseq.report(path, line_limit=500, part_size=size)
                told = name, size
                self.assertEqual([report.code for report in made.reports], [2, 25, 2], told)
                self.assertEqual(
                    made.reports,
                    cityseq.check(path, line_limit=500, keep_going=True, part_size=size).reports,
                    told,
                )
                self.assertEqual(made.areas[0].spots, [(11.0, 21.0)] * 3, told)

    def test_what_lies_elsewhere_is_not_drawn(self):
        lines = [feature("a"), feature("b", last=9)] + [
            feature("c", last=9).replace(b"1000", b"900000000")
        ]
        made = cityseq.report(self.file(HEADER + b"".join(lines)), self.folder / "page.html")
        self.assertEqual(len(made.areas[0].spots), 2)
        self.assertIn(
            "2 crosses, of which 1 lies outside of the map",
            (self.folder / "page.html").read_text("utf-8"),
        )


if __name__ == "__main__":
    unittest.main()
