"""What a notebook shows and takes: names, short texts, numbers, and bytes of any kind."""
import io
import math
import mmap
import sys
import types
import unittest
from array import array
from contextlib import redirect_stderr
from fractions import Fraction
from unittest import mock

import cityseq
from cityseq.engine.world import transform_of

from .support import HEADER, PLAIN, InFolder, feature

GOOD = HEADER + feature("a") + feature("b", "Road")
EXTREMES = (
    ("1e400", "0"),
    ("1e-400", "1"),
    ("1e300", "-1e300"),
    ("1e-300", "9007199254740993"),  # just above the middle between two floats
    ("-1e-300", "9007199254740993"),  # just below it
    ("1e999999", "1e-999999"),
    ("-0.001", "1e-18"),
    ("1e-18", "-1e17"),
    ("0.1", "0.2"),
    ("1" + "0" * 300, "1"),
)


def scaled(scale, shift, *lines):
    """A stream with this transform on each axis."""
    header = HEADER.replace(b"[0.001,0.001,0.001]", f"[{scale},{scale},{scale}]".encode())
    header = header.replace(b"[10,20,0]", f"[{shift},{shift},{shift}]".encode())
    return header + b"".join(lines)


def nearest(vertex, scale, shift):
    """The nearest float to a world coordinate, by fractions."""
    exact = vertex * Fraction(scale) + Fraction(shift)
    try:
        return exact.numerator / exact.denominator
    except OverflowError:
        return math.inf if exact > 0 else -math.inf


class Names(InFolder):
    """What is seen at first."""

    def test_public_names(self):
        names = dir(cityseq)
        self.assertEqual(names, sorted({*cityseq.__all__, "filter", "__version__"}))
        self.assertTrue(all(hasattr(cityseq, name) for name in names))

    def test_a_feature_is_short(self):
        long = feature("a")[:-2] + b',"x":"' + b"y" * 100_000 + b'"}\n'
        (found,) = cityseq.features(HEADER + long)
        self.assertLess(len(repr(found)), 400)
        self.assertIn("id='a'", repr(found))

    def test_a_result_is_short(self):
        """It has the fields that are not empty. Of the reports it says how many there are."""
        found = cityseq.check(HEADER + b"{}\n" * 1_000, keep_going=True)
        self.assertEqual(len(found.reports), 1_000)
        self.assertLess(len(repr(found)), 250)
        for words in ("refused=1000", "reports=1000", "Status.INVALID"):
            self.assertIn(words, repr(found))
        ended = repr(cityseq.check(HEADER + b"{}\n"))
        self.assertIn("Result(file='<bytes>'", ended)
        self.assertIn("end='line 2, byte 0: 10 member missing'", ended)
        self.assertNotIn("fault", ended)
        self.assertTrue(repr(cityseq.info(GOOD)).startswith("Info(file="))

    def test_an_index_is_short(self):
        index = self.folder / "town.gpkg"
        cityseq.index(self.file(GOOD), index)
        with cityseq.Index(index) as opened:
            self.assertEqual(repr(opened), f"Index({str(index)!r}, streams=1)")

    def test_a_result_is_true_if_the_stream_is_valid(self):
        found = [bool(cityseq.check(text)) for text in (GOOD, GOOD + b"{}\n")]
        self.assertEqual(found, [True, False])
        self.assertTrue(cityseq.info(GOOD))
        self.assertFalse(cityseq.check(GOOD + b"{}\n", keep_going=True))

    def test_a_file_that_is_missing(self):
        for call in (cityseq.check, cityseq.info, lambda path: list(cityseq.features(path))):
            with self.assertRaises(FileNotFoundError) as raised:
                call(self.folder / "none")
            self.assertIsInstance(raised.exception, cityseq.ReadFault)
            self.assertEqual((raised.exception.errno, raised.exception.status), (2, 3))

    def test_a_stream_that_is_no_path(self):
        with self.assertRaises(cityseq.CityseqError) as raised:
            cityseq.check((HEADER + PLAIN * 10_000).decode())
        self.assertLess(len(str(raised.exception)), 200)

    def test_features_of_an_index_without_a_block(self):
        path, index = self.file(GOOD), self.folder / "i.gpkg"
        cityseq.index(path, index)
        with cityseq.Index(index) as opened:
            self.assertEqual([each.id for each in opened.select(types="Road")], ["b"])
            with opened.select() as selected:
                self.assertEqual(next(selected).id, "a")
            self.assertEqual(list(selected), [])


class Sources(InFolder):
    """Bytes of any kind, and an output of a notebook."""

    def test_bytes(self):
        path = self.file(GOOD)
        with open(path, "rb") as file, mmap.mmap(file.fileno(), 0, prot=mmap.PROT_READ) as mapped:
            for source in (array("B", GOOD), memoryview(GOOD), bytearray(GOOD), mapped, mapped):
                self.assertEqual(cityseq.check(source).features, 2)
            self.assertEqual(cityseq.check(array("B", GOOD)).file, "<bytes>")

    def test_standard_output_without_bytes(self):
        """That of Jupyter takes text alone."""
        written = []
        stream = types.SimpleNamespace(write=written.append, flush=lambda: None)
        with mock.patch.object(sys, "stdout", stream):
            result = cityseq.filter(HEADER + feature("é"), "-")
        self.assertEqual(("".join(written).encode(), result.features), (HEADER + feature("é"), 1))

    def test_progress(self):
        said, module = io.StringIO(), types.ModuleType("tqdm.auto")
        bars = []

        class Bar:
            def __init__(self, **given):
                bars.append({**given, "done": 0})

            def __enter__(self):
                return self

            def __exit__(self, *_):
                bars[-1]["closed"] = True

            def update(self, size):
                bars[-1]["done"] += size

        module.tqdm = Bar
        path = self.file(GOOD)
        with mock.patch.dict(sys.modules, {"tqdm.auto": module}), redirect_stderr(said):
            cityseq.check(path, progress=True)
            list(cityseq.check_files([path, GOOD], progress=True))
            cityseq.filter(path, io.BytesIO(), progress=True)
            cityseq.check(path, progress=False)
        size = len(GOOD)
        self.assertEqual([each["done"] for each in bars], [size, 2 * size, size])
        self.assertEqual([each["total"] for each in bars], [size, 2 * size, size])
        self.assertTrue(all(each["closed"] for each in bars))
        with mock.patch.dict(sys.modules, {"tqdm": None, "tqdm.auto": None}):
            with self.assertRaisesRegex(cityseq.CityseqError, "tqdm"):
                cityseq.check(path, progress=True)


class Numbers(unittest.TestCase):
    """World coordinates, also by extreme transforms."""

    def test_tables(self):
        lines = feature("a"), feature("b", x=-(2**53) + 1), PLAIN, feature("c", x=3)
        vertices = {"a": (0, 1_000), "b": (-(2**53) + 1, 1_000), "c": (0, 1_000)}
        for scale, shift in EXTREMES:
            columns = cityseq.table(scaled(scale, shift, *lines))
            with self.subTest(scale=scale, shift=shift):
                for row, name in enumerate(["a", "b", None, "c"]):
                    edges = columns["xmin"][row], columns["xmax"][row]
                    if name is None:
                        self.assertTrue(all(map(math.isnan, edges)))
                        continue
                    wanted = sorted(nearest(each, scale, shift) for each in vertices[name])
                    self.assertEqual(list(edges), wanted)
                self.assertEqual(columns["id"], ["a", "b", "b", "c"])
                self.assertEqual(list(columns["line"]), [2, 3, 4, 5])

    def test_extents(self):
        for scale, shift in EXTREMES:
            text = scaled(scale, shift, feature("a"))
            (found,) = cityseq.features(text)
            info = cityseq.info(text)
            low, high = sorted(v * Fraction(scale) + Fraction(shift) for v in (0, 1_000))
            for extent in (found.extent, info.extent):
                with self.subTest(scale=scale, shift=shift):
                    least, greatest = extent[0]
                    if "999999" not in scale:  # whose fraction takes long
                        self.assertLessEqual(Fraction(least), low)
                        self.assertLessEqual(high, Fraction(greatest))
                        self.assertAlmostEqual(
                            float(least),
                            float(low) if abs(low) < 2**1023 else math.copysign(math.inf, low),
                        )
                    self.assertLessEqual(len(least.as_tuple().digits), 200)
        info = cityseq.info(GOOD)
        self.assertEqual(
            [tuple(map(float, axis)) for axis in info.extent],
            [(10.0, 11.0), (20.0, 21.0), (0.0, 0.005)],
        )
        self.assertEqual(cityseq.info(HEADER + PLAIN).extent, (None, None, None))
        self.assertEqual(transform_of(HEADER)[1][0], 10)


if __name__ == "__main__":
    unittest.main()
