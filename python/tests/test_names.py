"""The names that `import *` gives, and the statuses."""
import builtins
import gzip
import io
import json
import os
import subprocess
import sys
import tempfile
import unittest

import cityseq
from cityseq import Status

from .support import HEADER, PLAIN, ROOT


class Names(unittest.TestCase):
    def test_each_is_there_and_hides_none_of_python(self):
        for name in cityseq.__all__:
            with self.subTest(name):
                self.assertTrue(hasattr(cityseq, name))
                self.assertFalse(hasattr(builtins, name))


class Layers(unittest.TestCase):
    def test_the_engine_stands_on_nothing(self):
        """The modules of `engine` load no other module of the package."""
        code = (
            "import importlib, pkgutil, sys, cityseq.engine as engine;"
            "found = [each.name for each in pkgutil.iter_modules(engine.__path__)];"
            "[importlib.import_module(f'cityseq.engine.{name}') for name in found];"
            "print(sorted({name.split('.')[1] for name in sys.modules"
            " if name.startswith('cityseq.')}))"
        )
        settings = {**os.environ, "PYTHONPATH": os.path.join(ROOT, "python")}
        ran = subprocess.run([sys.executable, "-c", code], capture_output=True, env=settings)
        self.assertEqual((ran.stdout, ran.stderr), (b"['engine']\n", b""))

    def test_a_request_for_a_box_loads_few(self):
        code = (
            "import sys, cityseq; index, = sys.argv[1:];"
            "found = list(cityseq.Index(index).select(box='0,0,9,9'));"
            "print(len([name for name in sys.modules if name.split('.')[0] == 'cityseq']) <= 20)"
        )
        settings = {**os.environ, "PYTHONPATH": os.path.join(ROOT, "python")}
        with tempfile.TemporaryDirectory() as folder:
            index = os.path.join(folder, "town.gpkg")
            cityseq.index(os.path.join(ROOT, "examples/town.city.jsonl"), index)
            words = [sys.executable, "-c", code, index]
            ran = subprocess.run(words, capture_output=True, env=settings)
        self.assertEqual((ran.stdout, ran.stderr), (b"True\n", b""))


class Loaded(unittest.TestCase):
    def test_a_check_of_a_packed_file_loads_few_modules(self):
        code = (
            "import sys; from cityseq.cli import main; main(sys.argv[1:]);"
            "print(sum(name.split('.')[0] == 'cityseq' for name in sys.modules))"
        )
        with tempfile.TemporaryDirectory() as folder:
            path = os.path.join(folder, "town.city.jsonl.gz")
            with gzip.open(path, "wb") as file:
                file.write(HEADER + PLAIN)
            words = [sys.executable, "-c", code, "check", "--quiet", path]
            settings = {**os.environ, "PYTHONPATH": os.path.join(ROOT, "python")}
            ran = subprocess.run(words, capture_output=True, env=settings)
        self.assertEqual(ran.stderr, b"")
        self.assertLessEqual(int(ran.stdout), 12)

    def test_nothing_slow_is_loaded_before_interrupts_are_handled(self):
        code = "import sys, cityseq.__main__; print({'re', 'typing'} & {*sys.modules})"
        settings = {**os.environ, "PYTHONPATH": os.path.join(ROOT, "python")}
        words = [sys.executable, "-S", "-c", code]  # `site` may load them
        ran = subprocess.run(words, capture_output=True, env=settings)
        self.assertEqual((ran.stdout, ran.stderr), (b"set()\n", b""))


class Statuses(unittest.TestCase):
    """Each result and fault has a status, which is also the number that the command ends with."""

    def test_results(self):
        valid = cityseq.check(HEADER + PLAIN)
        invalid = cityseq.check(HEADER + b"{}\n")
        left_out = cityseq.filter(HEADER + b"{}\n", io.BytesIO(), keep_going=True)
        self.assertEqual(
            [result.status for result in (valid, invalid, left_out)],
            [Status.VALID, Status.INVALID, Status.INVALID],
        )
        self.assertIsInstance(valid.status, Status)

    def test_faults(self):
        for fault, number in (
            (cityseq.RequestError, 2),
            (cityseq.LibraryMissing, 2),
            (cityseq.InvalidStream, 1),
            (cityseq.ReadFault, 3),
            (cityseq.OutOfDate, 3),
            (cityseq.WriteFault, 4),
            (cityseq.MemoryFault, 5),
        ):
            self.assertIsInstance(fault.status, Status)
            self.assertEqual(fault.status, number)

    def test_a_status_is_written_as_its_number(self):
        self.assertEqual(
            (str(Status.READ_FAULT), f"{Status.INVALID}", json.dumps(Status.VALID)), ("3", "1", "0")
        )

    def test_verdicts(self):
        self.assertEqual(
            [status.verdict for status in Status],
            ["valid", "invalid", "fault", "fault", "fault", "fault", "fault"],
        )


if __name__ == "__main__":
    unittest.main()
