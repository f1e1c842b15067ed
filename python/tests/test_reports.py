"""Reports that nobody shows are not described, and reports that are shown are as before."""
import contextlib
import copy
import io
import itertools
import pickle
import unittest
from dataclasses import asdict, replace
from unittest import mock

import cityseq
from cityseq.engine import hints, reports
from cityseq.engine.reports import KEPT, Report

from . import support
from .support import HEADER, PLAIN, InFolder, command, feature

BROKEN = feature("broken", last=4)
NEVER = mock.patch("cityseq.engine.reports.excerpt_of", side_effect=AssertionError)


class Described(unittest.TestCase):
    """When id, excerpt, column and hint are read."""

    def reports(self, line=BROKEN, count=3):
        """The reports of a stream of such lines."""
        found = []
        cityseq.check(HEADER + line * count, keep_going=True, on_report=found.append)
        return found

    def test_what_is_not_asked_for_is_not_described(self):
        with NEVER:
            reports = self.reports(count=2_000)
            self.assertEqual([report.line for report in reports], list(range(2, 2_002)))
            self.assertEqual(
                {str(report)[-26:] for report in reports}, {"25 vertex index out of range"[-26:]}
            )
            self.assertEqual(len(cityseq.check(HEADER + BROKEN * 9, keep_going=True).reports), 9)

    def test_each_detail(self):
        for name, wanted in (
            ("id", "broken"),
            ("met", "the index is 4"),
            ("column", 40),
        ):
            self.assertEqual(getattr(self.reports()[1], name), wanted)
        report = self.reports()[1]
        self.assertEqual(report.excerpt[report.column], "4")
        self.assertEqual(report.caret().split("\n")[1], " " * 40 + "^")
        self.assertRaises(AttributeError, lambda: report.none)

    def test_a_long_line_is_not_kept(self):
        """Its details are read at once, so that no report holds much memory."""
        short, long = (
            self.reports(BROKEN[:-1] + b" " * (length - len(BROKEN)) + b"\n")[0]
            for length in (KEPT, KEPT + 2)
        )
        self.assertEqual(("_content" in vars(short), "_content" in vars(long)), (True, False))
        self.assertEqual(replace(short, line=1), replace(long, line=1))

    def test_it_is_a_plain_value(self):
        report = self.reports()[1]
        same = Report(
            report.file,
            3,
            report.byte,
            25,
            "vertex index out of range",
            "broken",
            report.excerpt,
            40,
            "the index is 4",
        )
        for made in (
            lambda: self.reports()[1],
            lambda: copy.copy(self.reports()[1]),
            lambda: pickle.loads(pickle.dumps(self.reports()[1])),
            lambda: self.reports()[0].moved(1),
            lambda: replace(self.reports()[1]),
            lambda: Report(**asdict(self.reports()[1])),
        ):
            self.assertEqual((made(), hash(made()), repr(made())), (same, hash(same), repr(same)))
        self.assertNotEqual(self.reports()[0], same)

    def test_headers_have_no_id(self):
        end = cityseq.check(PLAIN).end
        self.assertEqual((end.line, end.id, end.excerpt[:9]), (1, None, '{"type":"'))


class Commands(InFolder):
    """What the command shows of many reports."""

    def test_summaries_and_few_reports(self):
        path = self.file(HEADER + BROKEN * 500)
        _, said, status = command("check", "--keep-going", "--summary", path)
        self.assertEqual((said, status), ("    500 25 vertex index out of range\n", 1))
        _, said, _ = command("check", "--keep-going", "--max-reports", "2", path)
        self.assertEqual(said.count('feature "broken"'), 2)

    def test_ids_excerpts_and_hints_are_made_for_shown_reports_alone(self):
        """An exporter makes the same fault in each line. `--summary` needs the code alone."""
        long = BROKEN[:-1] + b" " * KEPT + b"\n"
        paths = [
            self.file(HEADER + line * 3_000, name) for line, name in ((BROKEN, "s"), (long, "l"))
        ]
        makers = [reports.find_id, reports.excerpt_of, hints.met]
        for path, (words, shown) in itertools.product(
            paths,
            (
                (["--summary"], 0),
                (["--summary", "--json"], 0),
                (["--max-reports", "3"], 3),
                (["--max-reports", "3", "--json"], 3),
            ),
        ):
            with self.subTest(words, path=path), contextlib.ExitStack() as patches:
                made = [
                    patches.enter_context(
                        mock.patch(f"{each.__module__}.{each.__name__}", side_effect=each)
                    )
                    for each in makers
                ]
                out, said, status = support.ran("check", "--keep-going", *words, path)
                self.assertEqual(status, 1)
                self.assertEqual(f"{out}{said}".count("the index is 4"), shown)
                self.assertEqual([each.call_count for each in made], [shown] * len(made))


class Speed(unittest.TestCase):
    def test_a_report_takes_little_of_the_time(self):
        """To describe each of these took 30 seconds or more."""
        text = HEADER + BROKEN * 200_000
        begun = support.seconds()
        result = cityseq.check(text, keep_going=True, on_report=lambda report: None)
        self.assertEqual(result.refused, 200_000)
        self.assertLess(support.seconds() - begun, 10)


class Outputs(unittest.TestCase):
    def test_kept_lines_beside_reports(self):
        output = io.BytesIO()
        result = cityseq.filter(HEADER + (PLAIN + BROKEN) * 5, output, keep_going=True)
        self.assertEqual((output.getvalue(), result.refused), (HEADER + PLAIN * 5, 5))
        self.assertEqual({report.id for report in result.reports}, {"broken"})


if __name__ == "__main__":
    unittest.main()
