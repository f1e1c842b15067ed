"""Options, limits and queries as plain data, in place of keywords."""
import io
import unittest
from dataclasses import FrozenInstanceError

import cityseq
from cityseq import Limits, Options, Query

from . import support
from .support import HEADER, InFolder, feature, numbered

TEXT = HEADER + feature("a") + feature("b", "Road") + b"{}\n" + feature("c", "Road", last=4)


class Plain(InFolder):
    """Each call takes them, and does the same as by keywords."""

    def test_checks(self):
        for options, keywords in (
            (Options(keep_going=True), {"keep_going": True}),
            (Options(Limits(line=50)), {"line_limit": 50}),
            (Options(Limits(depth=3), jobs=2, part_size=99), {"depth": 3, "jobs": 2}),
            (Options(tree=True), {"tree": True}),
            (Options(extensions=True), {"extensions": True}),
            (Options(), {}),
        ):
            with self.subTest(options=options):
                self.assertEqual(
                    cityseq.check(TEXT, options=options), cityseq.check(TEXT, **keywords)
                )
                self.assertEqual(
                    list(cityseq.check_files([TEXT] * 2, options=options)),
                    list(cityseq.check_files([TEXT] * 2, **keywords)),
                )

    def test_queries(self):
        going = Options(keep_going=True)
        for query, wanted in (
            (Query(), 2),
            (Query(types="Road"), 1),
            (Query(ids=["a"], exclude=True), 1),
            (Query(box=[0, 0, 1, 1]), 0),
            (Query(lods=["2.2"]), 2),
        ):
            output = io.BytesIO()
            result = cityseq.filter(TEXT, output, query, options=going)
            self.assertEqual((result.features, output.getvalue().count(b"\n") - 1), (wanted,) * 2)
            found = list(cityseq.features(TEXT, query, options=going))
            self.assertEqual(len(found), wanted)
            table = cityseq.table(TEXT, query, options=going)
            self.assertEqual(table["id"], [each.id for each in found])

    def test_indices_summaries_and_reports(self):
        path, options = self.file(TEXT), Options(keep_going=True)
        (result,) = cityseq.index(path, self.folder / "i.gpkg", options=options)
        self.assertEqual((result.features, result.refused), (2, 2))
        self.assertEqual(cityseq.report(path, options=Options(jobs=1)).files[0].invalid, 2)
        good = HEADER + feature("a")
        self.assertEqual(cityseq.info(good, options=Options(jobs=1)), cityseq.info(good))

    def test_what_is_not_allowed(self):
        for call in (
            lambda: cityseq.check(TEXT, options=Options(), keep_going=True),
            lambda: cityseq.check(TEXT, options=Options(jobs=0)),
            lambda: cityseq.check_files([TEXT], options=Options(part_size=0)),
            lambda: cityseq.check_files([TEXT], jobs=0),
            lambda: cityseq.check(TEXT, options=Options(Limits(depth=0))),
            lambda: cityseq.filter(TEXT, io.BytesIO(), Query(), ids=["a"]),
            lambda: cityseq.filter(TEXT, io.BytesIO(), Query(types=["Shed"])),
            lambda: cityseq.features(TEXT, Query(), exclude=True),
            lambda: cityseq.info(TEXT, options=Options(keep_going=True)),
        ):
            self.assertRaises(cityseq.RequestError, call)

    def test_they_do_not_change(self):
        for value, name in ((Limits(), "line"), (Query(), "ids"), (Options(), "jobs")):
            with self.assertRaises(FrozenInstanceError):
                setattr(value, name, 1)
        self.assertEqual(hash(Options()), hash(Options(Limits())))

    def test_reports(self):
        found = cityseq.check(TEXT, options=Options(keep_going=True)).reports
        one = support.in_one(TEXT, "check", keep_going=True)
        self.assertEqual(numbered(found), numbered(one.reports))


if __name__ == "__main__":
    unittest.main()
