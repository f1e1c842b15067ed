"""The page about a delivery, of facts that no stream was read for: its text, size and drawings, and
the files next to it."""
import csv
import dataclasses
import html.parser
import json
import os
import re
import unittest
from unittest import mock

from cityseq import delivery as extras
from cityseq.delivery import facts
from cityseq.delivery.facts import delivery_object

from . import made_up, support
from .support import InFolder

try:
    extras.need_all()
    from cityseq import delivery as lists
    from cityseq.delivery import page

    MISSING = None
except extras.PackageMissing as fault:
    MISSING = str(fault)

SCHEMA = os.path.join(support.ROOT, "docs", "report.schema.json")
VOID = {"meta", "input", "br", "link", "img", "base"}


class Elements(html.parser.HTMLParser):
    """The elements of a page, and whether each is closed where it was opened."""

    def __init__(self, text):
        super().__init__()
        self.tags, self.open, self.attributes = [], [], []
        self.feed(text)
        self.close()

    def handle_starttag(self, tag, attrs):
        self.tags.append(tag)
        self.attributes += [(tag, *pair) for pair in attrs]
        if tag not in VOID:
            self.open.append(tag)

    def handle_startendtag(self, tag, attrs):
        self.tags.append(tag)
        self.attributes += [(tag, *pair) for pair in attrs]

    def handle_endtag(self, tag):
        if not self.open or self.open.pop() != tag:
            raise AssertionError(f"</{tag}> closes another element")


@unittest.skipIf(MISSING, MISSING)
class Page(unittest.TestCase):
    def test_its_elements_are_closed(self):
        for made in (
            made_up.usual(),
            made_up.usual(0),
            made_up.usual(cells=True),
            made_up.hostile(),
        ):
            self.assertEqual(Elements(page.html(made)).open, [])

    def test_nothing_is_loaded_from_elsewhere(self):
        for made in (made_up.usual(), made_up.hostile()):
            found = Elements(page.html(made))
            self.assertFalse(
                {"img", "link", "iframe", "object", "embed", "base", "form", "audio", "video"}
                & set(found.tags)
            )
            self.assertEqual(
                [
                    (tag, value)
                    for tag, name, value in found.attributes
                    if name in ("src", "style", "srcset", "action")
                ],
                [],
            )
            links = {value for _, name, value in found.attributes if name == "href"}
            self.assertTrue(
                all(link.startswith(("#reason-", "https://www.cityjson.org/")) for link in links),
                links,
            )

    def test_only_its_own_script_may_run(self):
        text = page.html(made_up.hostile())
        self.assertEqual(len(re.findall("<script", text)), 2)
        self.assertEqual(len(re.findall("</script", text)), 2)
        self.assertEqual(len(re.findall("<style>", text)), 1)
        policy = re.search('content="(default-src[^"]*)"', text).group(1)
        for element, directive in (("script", "script-src"), ("style", "style-src")):
            body = re.search(f"<{element}>(.*?)</{element}>", text, re.DOTALL).group(1)
            self.assertIn(f"{directive} {page._sum(body)};", policy)
        self.assertNotIn("unsafe", policy)

    def test_no_control_and_no_mark_of_direction_gets_in(self):
        text = page.html(made_up.hostile())
        self.assertEqual(
            [sign for sign in set(text) if not sign.isprintable() and sign != "\n"], []
        )
        text.encode("utf-8")

    def test_a_long_text_is_cut_and_that_is_said(self):
        self.assertIn("\u2026 (1,000,000 signs)", page.cut("x" * 1_000_000))
        self.assertEqual(page.cut("\u202e\ud800"), "\\u202e\\ud800")
        self.assertLess(len(page.html(made_up.hostile()).encode()), 2_000_000)

    def test_ten_thousand_reports_fit(self):
        made = made_up.usual(10_000, cells=True)
        text = page.html(made)
        self.assertLess(len(text.encode()), 2_000_000)
        self.assertIn("All 10,000 reports are in this page", text)
        self.assertEqual(len(data_of(text)["rows"]), 10_000)

    def test_reports_that_do_not_fit_are_counted(self):
        reports = [made_up.report(number, feature="築" * 200) for number in range(3, 10_003)]
        text = page.html(made_up.delivery(reports))
        self.assertLess(len(text.encode()), 2_000_000)
        count = len(data_of(text)["rows"])
        self.assertLess(count, 10_000)
        self.assertIn(f"The first {count:,} of 10,000 reports are in this page", text)

    def test_a_file_has_a_row_and_details(self):
        files = [made_up.file(f"part-{number}.city.jsonl.gz") for number in range(200)]
        text = page.html(made_up.delivery([], files))
        self.assertEqual(len(re.findall("<details><summary>Details", text)), 200)
        self.assertLess(len(text.encode()), 700_000)
        self.assertIn("All 200 files are valid.", text)

    def test_a_file_that_was_not_read_needs_no_limit(self):
        unread = made_up.file("missing", 3, fault="No such file")
        unread = dataclasses.replace(unread, lines=0, longest=0, peaks=(0, 0, 0))
        text = page.html(made_up.delivery([], [unread, made_up.file("good")]))
        self.assertNotIn("a line limit of 0 bytes", text)
        self.assertEqual(text.count("a line limit of 80,900 bytes, a depth of 11"), 1)

    def test_the_details_of_the_only_file_are_open(self):
        self.assertEqual(
            page.html(made_up.delivery([], [made_up.file("a")])).count("<details open>"), 1
        )
        self.assertEqual(page.html(made_up.usual()).count("<details open>"), 0)

    def test_very_many_files(self):
        files = [made_up.file(f"{number}.city.jsonl.gz") for number in range(5_000)]
        text = page.html(made_up.delivery(made_up.usual(10_000).reports, files))
        self.assertEqual(
            (text.count('<tr class="row">'), text.count("<summary>Details")),
            (page.MOST_FILES, page.MOST_DETAILED),
        )
        self.assertIn("The first 2,000 of 5,000 files are listed", text)
        self.assertLess(len(text.encode()), 2_000_000)

    def test_files_that_need_a_look_come_first(self):
        files = [made_up.file(f"{number}.city.jsonl") for number in range(9)]
        files.insert(3, made_up.file("broken", 1, 1))
        files += [made_up.file("missing", 3, fault="No such file"), made_up.file("late", 1, 1)]
        with mock.patch.object(page, "MOST_FILES", 5):
            text = page.html(made_up.delivery(made_up.usual(2).reports, files))
        rows = re.findall('<tr class="row"><th scope="row"><bdi>([^<]*)</bdi>', text)
        self.assertEqual(rows, ["missing", "broken", "late", "0.city.jsonl", "1.city.jsonl"])
        self.assertIn("Files that were not judged come first", text)

    def test_the_verdict_has_a_colour(self):
        for statuses, wanted in (
            ((0,), "valid"),
            ((1,), "invalid"),
            ((3,), "fault"),
            ((0, 0), "valid"),
            ((0, 3), "fault"),
            ((0, 1), "invalid"),
            ((5, 1, 0), "invalid"),
        ):
            files = [made_up.file(f"{n}", status, status % 2) for n, status in enumerate(statuses)]
            made = made_up.delivery([], files)
            self.assertEqual(page.worst(made), wanted, statuses)
        self.assertIn('<p class="verdict invalid">', page.html(made))

    def test_a_stray_feature_is_named(self):
        made = made_up.usual(0)
        made.areas[0].places, made.areas[0].apart = [(0.0, 0.0, 9.0, 9.0)], 2
        made.areas[0].strays = [facts.Named("a<b>.jsonl", 77, "</p>stray", (4.5, 4.5))]
        text = page.html(made)
        self.assertEqual(Elements(text).open, [])
        self.assertIn("2 features lie far from the others", text)
        wanted = "<code>&lt;/p&gt;stray</code></bdi>: <bdi>a&lt;b&gt;.jsonl</bdi>, line 77,"
        self.assertIn(wanted, text)
        self.assertEqual(text.count('role="img" viewBox'), 3)  # map, overview, histogram

    def test_each_coordinate_system_has_a_map(self):
        made = made_up.usual(0)
        made.areas *= 12
        text = page.html(made)
        self.assertEqual(text.count('role="img" viewBox'), 13)
        self.assertLess(len(text.encode()), 1_000_000)
        self.assertNotIn("no map here", text)

    def test_headings_go_down_by_one(self):
        levels = [
            int(tag[1])
            for tag in Elements(page.html(made_up.usual())).tags
            if re.fullmatch(r"h\d", tag)
        ]
        self.assertEqual((levels[0], levels.count(1)), (1, 1))
        self.assertTrue(all(after - before <= 1 for before, after in zip(levels, levels[1:])))

    def test_each_table_has_heads_of_columns(self):
        text = page.html(made_up.usual())
        for head in re.findall(r"<thead>(.*?)</thead>", text, re.DOTALL):
            self.assertEqual(
                len(re.findall(r"<th\b", head)), len(re.findall('<th scope="col"', head))
            )

    def test_ids_are_those_of_one_element(self):
        ids = [
            value
            for _, name, value in Elements(page.html(made_up.usual())).attributes
            if name == "id"
        ]
        self.assertEqual(len(ids), len(set(ids)))
        referred = [
            value.split()
            for _, name, value in Elements(page.html(made_up.usual())).attributes
            if name in ("aria-labelledby", "aria-describedby", "for", "data-of")
        ]
        self.assertEqual([each for values in referred for each in values if each not in ids], [])

    def test_verdicts(self):
        for statuses, wanted in (
            ((0,), "The file is valid."),
            ((0, 0), "All 2 files are valid."),
            ((3,), "The file was not judged."),
            ((1,), "The file is invalid (1 invalid line)."),
            ((0, 1), "Of 2 files 1 is valid and 1 is invalid (1 invalid line)."),
            (
                (0, 0, 1, 1, 5),
                "Of 5 files 2 are valid, 2 are invalid (2 invalid lines) and 1 was not judged.",
            ),
        ):
            files = [
                made_up.file(str(number), status, int(status == 1))
                for number, status in enumerate(statuses)
            ]
            self.assertEqual(page.verdict_of(made_up.delivery([], files)), wanted)

    def test_a_place_in_an_excerpt(self):
        for excerpt, column, wanted in (
            ("abc", 1, ("a", "b", "c")),
            ("abc", 3, ("abc", page.END, "")),
            ("", 0, ("", page.END, "")),
            ("築x", 2, ("築", "x", "")),
            ("é築x", 3, ("é築", "x", "")),
        ):
            self.assertEqual(page.split_at(excerpt, column), wanted)

    def test_sizes_and_shares(self):
        self.assertEqual(
            [page.size(each) for each in (None, 0, 999, 1_000, 123_456_789, 10**13)],
            ["unknown", "0 bytes", "999 bytes", "1 kB", "123 MB", "10 TB"],
        )
        self.assertEqual(
            [page.share(*each) for each in ((0, 9), (1, 1_000), (1, 3), (3, 3), (0, 0))],
            ["0 %", "0.1 %", "33 %", "100 %", "0 %"],
        )


def data_of(text):
    """The data in a page."""
    return json.loads(re.search('<script id="data"[^>]*>(.*?)</script>', text, re.DOTALL).group(1))


@unittest.skipIf(MISSING, MISSING)
class Beside(InFolder):
    def written(self, reports):
        made = lists.Lists(str(self.folder / "page.html"))
        for each in reports:
            made.add(each)
        made.close()
        with open(self.folder / "page.reports.csv", encoding="utf-8-sig", newline="") as table:
            rows = list(csv.reader(table))
        with open(self.folder / "page.reports.jsonl", encoding="utf-8") as lines:
            return rows, [json.loads(line) for line in lines]

    def test_each_report_has_a_row_and_a_line(self):
        reports = made_up.usual(1_000).reports
        rows, objects = self.written(reports)
        self.assertEqual(tuple(rows[0]), lists.COLUMNS)
        self.assertEqual(
            [(row[0], int(row[1]), int(row[2]), int(row[3]), row[5]) for row in rows[1:]],
            [(each.file, each.line, each.byte, each.code, each.id) for each in reports],
        )
        self.assertEqual([each["id"] for each in objects], [each.id for each in reports])

    def test_hostile_texts_are_cells_of_text(self):
        rows, objects = self.written(made_up.hostile().reports)
        self.assertEqual(len(rows), len(made_up.HOSTILE) + 1)
        for row in rows[1:]:
            for cell in row:
                self.assertFalse(cell.startswith(("=", "+", "-", "@", "\t", "\r")), cell[:20])
                self.assertTrue(cell.isprintable(), cell[:20])
                self.assertLess(len(cell), 32_767)
        self.assertEqual(
            [each["id"] for each in objects], [text or "x" for text in made_up.HOSTILE]
        )

    def test_cells_of_other_countries_are_no_formulas(self):
        """`;` or a tab may separate cells, also within quotes."""
        texts = [
            start + sign + "1+1" + end
            for sign in "=+-@\uff1d"
            for start in ("", "x;", ";;", 'x;"', 'x;""', 'x,;"', "x\t", "a,b;", '"', '";')
            for end in ("", ";y", '";=2', ',";";')
        ]
        rows, _ = self.written([made_up.report(3, feature=text) for text in texts])
        self.assertEqual(len(rows), len(texts) + 1)
        for separator in ",;\t":
            with open(self.folder / "page.reports.csv", encoding="utf-8-sig", newline="") as table:
                cells = [cell for row in csv.reader(table, delimiter=separator) for cell in row]
            self.assertGreater(len(cells), len(texts))
            for cell in cells:
                self.assertFalse(cell.startswith(("=", "+", "-", "@", "\t", "\r", "\uff1d")), cell)

    def test_names(self):
        for name, wanted in (
            ("a/delivery.html", "a/delivery"),
            ("x.HTM", "x"),
            ("x", "x"),
            ("x.txt", "x.txt"),
        ):
            self.assertEqual(
                lists.names_of_lists(name), (f"{wanted}.reports.csv", f"{wanted}.reports.jsonl")
            )

    def test_what_is_not_whole_leaves_nothing(self):
        made = lists.Lists(str(self.folder / "page.html"))
        for each in made_up.usual(1_000).reports:
            made.add(each)
        made.discard()
        self.assertEqual(list(self.folder.iterdir()), [])


@unittest.skipIf(MISSING, MISSING)
class Object(unittest.TestCase):
    """The object fits the schema."""

    def fits(self, told):
        try:
            import jsonschema
        except ImportError:
            self.skipTest("jsonschema is not there")
        with open(SCHEMA, encoding="utf-8") as schema:
            schema = json.load(schema)
        jsonschema.Draft202012Validator.check_schema(schema)
        jsonschema.validate(json.loads(json.dumps(told)), schema)

    def test_usual_ones(self):
        for made in (made_up.usual(), made_up.usual(0)):
            self.fits(delivery_object(made))

    def test_hostile_ones(self):
        self.fits(delivery_object(made_up.hostile()))

    def test_a_member_that_the_schema_lacks_is_found(self):
        with self.assertRaises(Exception) as raised:
            self.fits({**delivery_object(made_up.usual()), "more": 1})
        if not isinstance(raised.exception, unittest.SkipTest):
            self.assertIn("more", str(raised.exception))

    def test_counts(self):
        told = delivery_object(made_up.usual())
        self.assertEqual(
            (told["status"], told["lines"], told["features"], told["invalid"]),
            (3, 3_603, 3_600, 60),
        )
        self.assertEqual(sum(reason["lines"] for reason in told["reasons"]), 60)
        self.assertEqual(told["line_lengths"][0], {"from": 512, "to": 1_023, "features": 9})
        self.assertEqual(
            told["files"][0]["bbox"], ["84616.468", "447422.999", "85199.1", 448101.25]
        )


class Missing(unittest.TestCase):
    """A package that is not there is told in one line."""

    def test_it_is_told(self):
        extras.PACKAGES["no_such_package"] = "python3-no-such"
        self.addCleanup(extras.PACKAGES.pop, "no_such_package")
        with self.assertRaises(extras.PackageMissing) as raised:
            extras.needed("no_such_package.part")
        self.assertEqual(raised.exception.status, 2)
        self.assertEqual(str(raised.exception).count("\n"), 0)
        self.assertIn("python3-no-such", str(raised.exception))


if __name__ == "__main__":
    unittest.main()
