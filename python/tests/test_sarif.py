"""Reports as SARIF 2.1.0: what the standard asks of a log, and that it is that of the reports."""
import json
import unittest
from urllib.parse import unquote

import cityseq

from .support import HEADER, InFolder, command, feature
from .test_told import example


class Log(InFolder):
    def log(self, *words, status):
        output, said, ended = command("check", "--format", "sarif", *words)
        self.assertEqual((said, ended), ("", status))
        told = json.loads(output)
        self.assertEqual((told["version"], len(told["runs"])), ("2.1.0", 1))
        run = told["runs"][0]
        self.assertEqual(
            (run["tool"]["driver"]["name"], run["tool"]["driver"]["version"]),
            ("cityseq", cityseq.__version__),
        )
        rules = {rule["id"] for rule in run["tool"]["driver"]["rules"]}
        for result in run["results"]:
            self.assertIn(result["ruleId"], rules)
            self.assertTrue(result["message"]["text"])
            self.assertGreaterEqual(
                result["locations"][0]["physicalLocation"]["region"]["startLine"], 1
            )
        return run

    def test_each_report_is_a_result(self):
        paths = [example("delivery"), example("town"), example("broken")]
        run = self.log("--keep-going", *paths, status=1)
        wanted = [
            (report.file, report.line, str(report.code))
            for path in paths
            for report in cityseq.check(path, keep_going=True).reports
        ]
        found = [
            (result["locations"][0]["physicalLocation"], result["ruleId"])
            for result in run["results"]
        ]
        self.assertEqual(
            [
                (unquote(place["artifactLocation"]["uri"]), place["region"]["startLine"], code)
                for place, code in found
            ],
            wanted,
        )
        self.assertEqual(run["invocations"], [{"executionSuccessful": True}])

    def test_a_valid_stream_has_none(self):
        self.assertEqual(self.log(example("town"), status=0)["results"], [])

    def test_the_line_that_ends_a_run_is_one(self):
        self.assertEqual(len(self.log(example("broken"), status=1)["results"]), 1)

    def test_a_fault_is_told(self):
        run = self.log(self.folder / "none", example("town"), status=3)
        self.assertFalse(run["invocations"][0]["executionSuccessful"])
        self.assertIn(
            "No such file",
            run["invocations"][0]["toolExecutionNotifications"][0]["message"]["text"],
        )

    def test_reports_that_are_left_out(self):
        path = self.file(HEADER + b"[]\n" * 20)
        words = ("--keep-going", "--max-reports", "5", path, example("town"), example("delivery"))
        run = self.log(*words, status=1)
        self.assertEqual(len(run["results"]), 10)
        (invocation,) = run["invocations"]
        self.assertTrue(invocation["executionSuccessful"])
        (notification,) = invocation["toolExecutionNotifications"]
        self.assertEqual(
            (notification["level"], notification["message"]["text"]),
            ("warning", f"{path}: 20 lines are invalid, and --max-reports left out 15"),
        )
        place = notification["locations"][0]["physicalLocation"]["artifactLocation"]["uri"]
        self.assertEqual(unquote(place), str(path))
        for most, left_out in ((0, 20), (19, 1), (20, None), (21, None)):
            run = self.log("--keep-going", "--max-reports", str(most), path, status=1)
            told = run["invocations"][0].get("toolExecutionNotifications", [])
            self.assertEqual(len(run["results"]), min(most, 20))
            self.assertEqual(
                [one["message"]["text"].split()[-1] for one in told],
                [] if left_out is None else [str(left_out)],
            )

    def test_hostile_names_and_ids(self):
        path = self.file(HEADER + feature("<b>\\u202e\\ud800", last=9), "a b%ü#?.jsonl")
        (result,) = self.log(path, status=1)["results"]
        self.assertNotRegex(
            result["locations"][0]["physicalLocation"]["artifactLocation"]["uri"], "[ #?ü]"
        )
        self.assertIn("\\u202e\\ud800", result["message"]["text"])

    def test_requests_that_are_refused(self):
        for words in (
            ["--json"],
            ["--quiet"],
            ["--summary"],
            ["--record", self.folder / "record", "--resume"],
        ):
            self.assertEqual(
                command("check", "--format", "sarif", *words, example("town"))[::2], (b"", 2)
            )
        self.assertEqual(command("check", "--format", "xml", example("town"))[::2], (b"", 2))


if __name__ == "__main__":
    unittest.main()
