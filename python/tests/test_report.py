"""The command and the call that write a page about a delivery: outputs, statuses and faults."""
import json
import os
import resource
import signal
import subprocess
import sys
import time
import unittest
from unittest import mock

import cityseq
from cityseq import delivery as extras
from cityseq import delivery as report_run

from . import support
from .support import HEADER, InFolder, command, feature
from .test_delivery import MISSING, lists_of
from .test_told import example


@unittest.skipIf(MISSING, MISSING)
class Command(InFolder):
    """The command: what it writes and says, and its status."""

    def setUp(self):
        super().setUp()
        self.page = self.folder / "delivery.html"
        self.good = self.file(HEADER + feature("a"), "good.jsonl")

    def names(self):
        return sorted(path.name for path in self.folder.iterdir())

    def test_a_page(self):
        output, said, status = command(
            "report", "--output", self.page, example("delivery"), example("town")
        )
        self.assertEqual((said, status), ("", 1))
        self.assertEqual(
            output.decode().splitlines(),
            [
                f"{example('delivery')}: invalid lines=9 features=3 refused=5",
                f"{example('town')}: valid lines=5 features=4",
            ],
        )
        self.assertEqual(
            self.names(),
            ["delivery.html", "delivery.reports.csv", "delivery.reports.jsonl", "good.jsonl"],
        )
        text = self.page.read_text("utf-8")
        for wanted in (
            "Of 2 files 1 is valid and 1 is invalid (5 invalid lines).",
            "report --output",
            "vertex index out of range",
        ):
            self.assertIn(wanted, text)

    def test_an_object(self):
        output, said, status = command(
            "report", "--json", example("delivery"), self.folder / "none", self.good
        )
        self.assertEqual((said.count("\n"), status), (1, 3))
        told = json.loads(output)
        self.assertEqual([file["verdict"] for file in told["files"]], ["invalid", "fault", "valid"])
        self.assertEqual(told["report_files"], [])
        try:
            import jsonschema
        except ImportError:
            self.skipTest("jsonschema is not there")
        with open(
            os.path.join(support.ROOT, "docs", "report.schema.json"), encoding="utf-8"
        ) as schema:
            jsonschema.validate(told, json.load(schema))

    def test_numbers_that_no_decimal_has(self):
        told = HEADER.replace(b"[10,", b"[0e99999999999999999999,")
        told = told[:-2] + b',"metadata":{"x":1e99999999999999999999}}\n'
        path = self.file(told + feature("a"), "far.jsonl")
        output, said, status = command("report", "--json", path)
        self.assertEqual((said, status), ("", 0))
        (file,) = json.loads(output)["files"]
        self.assertEqual((file["translate"], file["bbox"]), ([0, 20, 0], [0, 20, 1, 21]))

    def test_requests_that_are_refused(self):
        for words, wanted in (
            (["--output", self.page], "name each FILE"),
            ([self.good], "name it by --output"),
            (["--output", self.good, self.good], "is a file that is read"),
            (["--output", self.page, "-"], "regular files"),
            (["--output", "/dev/null", self.good], "written to a regular file"),
            (["--output", self.page, "/dev/zero"], "regular files"),
            (["--keep-going", self.good], "--keep-going"),
        ):
            output, said, status = command("report", *words)
            self.assertEqual((output, status), (b"", 2), words)
            self.assertIn(wanted, said)
        self.assertEqual(self.names(), ["good.jsonl"])
        self.assertEqual(self.good.read_bytes(), HEADER + feature("a"))

    def test_a_list_of_reports_that_is_read(self):
        path = self.folder / "delivery.reports.csv"
        path.write_bytes(HEADER)
        self.assertEqual(command("report", "--output", self.page, path)[2], 2)
        self.assertEqual(path.read_bytes(), HEADER)

    def test_a_folder_that_is_not_there(self):
        _, said, status = command("report", "--output", self.folder / "no" / "page.html", self.good)
        self.assertEqual(
            (said, status),
            (f"{self.folder}/no/page.reports.csv: write fault: No such file or directory\n", 4),
        )

    def test_a_page_that_is_there_stays_until_the_new_one_is_whole(self):
        self.page.write_text("before")
        command("report", "--output", self.page, "--tree", "--depth", "0", self.good)
        self.assertEqual(self.page.read_text(), "before")
        self.assertEqual(command("report", "--output", self.page, self.good)[2], 0)
        self.assertTrue(self.page.read_text().startswith("<!DOCTYPE html>"))

    def test_a_disk_that_is_full(self):
        """No file may have more than 64 KB, or 4: a temporary file would, and then the page."""
        for count, wanted in (
            (12_000, "/tmp: write fault: disk I/O error\n"),
            (1, "delivery.html: write fault: File too large\n"),
        ):
            path = self.file(
                HEADER + b"".join(feature(f"{number:0240}") for number in range(count)),
                "stream.jsonl",
            )
            limit = 65_536 if count > 1 else 4_096
            ran = subprocess.run(
                [sys.executable, "-m", "cityseq", "report", "--output", self.page, path],
                capture_output=True,
                timeout=120,
                preexec_fn=lambda: resource.setrlimit(resource.RLIMIT_FSIZE, (limit, limit)),
                env={
                    **os.environ,
                    "PYTHONPATH": os.path.join(support.ROOT, "python"),
                    "TMPDIR": "/tmp",
                    "PYTHONDONTWRITEBYTECODE": "1",
                },
            )
            said = ran.stderr.decode()
            self.assertTrue(said.endswith(wanted) and said.count("\n") == 1, said)
            self.assertEqual(ran.returncode, 4)
            self.assertEqual(self.names(), ["good.jsonl", "stream.jsonl"])

    def test_a_package_that_is_missing(self):
        for name in extras.PACKAGES:
            code = (
                f"import sys; sys.modules[{name!r}] = None\n"
                "from cityseq.cli import main; sys.exit(main(sys.argv[1:]))"
            )
            ran = subprocess.run(
                [sys.executable, "-c", code, "report", "--output", self.page, self.good],
                capture_output=True,
                timeout=120,
                env={**os.environ, "PYTHONPATH": os.path.join(support.ROOT, "python")},
            )
            self.assertEqual((ran.stdout, ran.returncode), (b"", 2))
            self.assertEqual(
                ran.stderr.decode(),
                f"a report needs the package {name}, which is missing:"
                f" install {extras.PACKAGES[name]}"
                " by apt, or cityseq[report] by pip\n",
            )
        self.assertEqual(self.names(), ["good.jsonl"])

    def test_an_interrupt_leaves_nothing(self):
        path = self.folder / "long.jsonl"
        path.write_bytes(HEADER + b"".join(feature(f"f{number}") for number in range(300_000)))
        for number, words in (
            (signal.SIGINT, "interrupted\n"),
            (signal.SIGTERM, "stopped by SIGTERM\n"),
        ):
            run = subprocess.Popen(
                [sys.executable, "-m", "cityseq", "report", "--output", self.page, path, path],
                stdout=subprocess.PIPE,
                stderr=subprocess.PIPE,
                env={**os.environ, "PYTHONPATH": os.path.join(support.ROOT, "python")},
                preexec_fn=support.heed_interrupts,
            )
            for _ in range(6_000):
                if len(support.unfinished(self.page.parent)) == 3:
                    break
                time.sleep(0.01)
            self.assertEqual(len(support.unfinished(self.page.parent)), 3)
            run.send_signal(number)
            _, said = run.communicate(timeout=120)
            self.assertEqual((said.decode(), run.returncode), (words, 128 + number))
            self.assertEqual(self.names(), ["good.jsonl", "long.jsonl"])

    def test_an_interrupt_of_the_opening_leaves_nothing(self):
        """No file is there before what removes it is in place."""
        report_run._Output([str(self.good)], str(self.page))
        self.assertEqual(self.names(), ["good.jsonl"])
        open_all = report_run._Output.open

        def interrupted(output):
            open_all(output)
            self.assertEqual(len(self.names()), 4)
            raise KeyboardInterrupt

        with mock.patch.object(report_run._Output, "open", interrupted):
            with self.assertRaises(KeyboardInterrupt):
                cityseq.report(self.good, self.page)
        self.assertEqual(self.names(), ["good.jsonl"])

    def test_names_that_are_no_text(self):
        path = os.path.join(os.fsencode(self.folder), b"\xff<b>\x1b=\n.jsonl")
        with open(path, "wb") as file:
            file.write(HEADER + feature("a", last=9))
        output, said, status = command(
            "report", "--json", "--output", self.page, "--title", b"\xfe", path
        )
        self.assertEqual((said, status), ("", 1))
        self.assertEqual(os.fsencode(json.loads(output)["files"][0]["file"]), path)
        rows, objects = lists_of(self.page)
        self.assertEqual((os.fsencode(objects[0]["file"]), len(rows)), (path, 1))
        self.assertIn("\\udcff&lt;b&gt;\\u001b=\\u000a.jsonl", self.page.read_text("utf-8"))

    def test_a_title_and_a_list_of_files(self):
        listed = self.file(f"{self.good}\n".encode(), "list")
        self.assertEqual(
            command(
                "report", "--output", self.page, "--title", "Nord & <Süd>", "--files-from", listed
            )[2],
            0,
        )
        text = self.page.read_text("utf-8")
        self.assertIn("<h1>Nord &amp; &lt;Süd&gt;</h1>", text)

    def test_quiet_and_progress(self):
        self.assertEqual(
            command("report", "--quiet", "--output", self.page, self.good), (b"", "", 0)
        )
        _, said, status = command("report", "--progress", "--output", self.page, self.good)
        self.assertEqual((said.count("100 %"), said.count(str(self.good)), status), (1, 1, 0))


@unittest.skipIf(MISSING, MISSING)
class Call(InFolder):
    """The call of the package."""

    def test_requests_that_are_refused(self):
        path = self.file(HEADER)
        for paths, output in (
            ([], None),
            ([b"x"], None),
            ([3], None),
            ("-", None),
            (path, "-"),
            (path, 3),
            (path, path),
        ):
            with self.assertRaises(cityseq.RequestError):
                cityseq.report(paths, output)
        for options in ({"jobs": 0}, {"line_limit": 0}, {"depth": 0}, {"part_size": 0}):
            with self.assertRaises(cityseq.RequestError):
                cityseq.report(path, **options)
        self.assertEqual([each.name for each in self.folder.iterdir()], [path.name])

    def test_progress_counts_all_bytes(self):
        paths = [
            self.file(HEADER + feature("a") * 99, "a.jsonl"),
            self.file(HEADER + feature("b"), "b.jsonl.gz"),
        ]
        done = []
        cityseq.report(paths, progress=done.append)
        self.assertEqual(sum(done), sum(path.stat().st_size for path in paths))

    def test_the_object_of_a_page(self):
        made = cityseq.report(example("town"), self.folder / "page.html", title="T")
        told = made.json_object()
        self.assertEqual(
            (told["title"], told["command"], told["report_files"]),
            ("T", "cityseq.report", ["page.reports.csv", "page.reports.jsonl"]),
        )


if __name__ == "__main__":
    unittest.main()
