"""Runs all tests, or those of the modules that are named: python3 -m tests [MODULE..].

All run in processes of their own, as many at once as there are processors. The last line is
'N passed, M failed', and what was left out is said before it."""
import glob
import os
import re
import subprocess
import sys
import unittest
from concurrent.futures import ThreadPoolExecutor


class Counted(unittest.TextTestResult):
    """Counts the tests that passed."""

    passed = 0

    def addSuccess(self, test):
        super().addSuccess(test)
        self.passed += 1


def run(names):
    """Runs the tests of these modules, and answers how many passed and how many failed."""
    suite = unittest.defaultTestLoader.loadTestsFromNames([f"tests.{name}" for name in names])
    result = unittest.TextTestRunner(sys.stdout, resultclass=Counted).run(suite)
    for test, why in result.skipped:
        print(f"left out: {test.id()}: {why}")
    return result.passed, len(
        {getattr(test, "test_case", test).id() for test, _ in result.failures + result.errors}
    )


def run_all():
    """Runs each module's tests in a process, shows what these print, and answers the sums."""
    names = sorted(
        os.path.basename(path)[:-3]
        for path in glob.glob(os.path.join(os.path.dirname(__file__), "test_*.py"))
    )
    words = [sys.executable, "-B", "-W", "ignore", "-m", "tests"]
    with ThreadPoolExecutor(os.cpu_count()) as pool:
        ran = list(
            pool.map(
                lambda name: subprocess.run(
                    [*words, name], stdout=subprocess.PIPE, stderr=subprocess.STDOUT
                ),
                names,
            )
        )
    sums = [0, 0]
    for name, each in zip(names, ran):
        *told, last = each.stdout.decode("utf-8", "replace").splitlines() or [""]
        print(f"{name}:", *told, sep="\n")
        counts = re.fullmatch(r"(\d+) passed, (\d+) failed", last)
        if counts is None:
            print(last, f"{name}: it did not say what passed", sep="\n")
        sums = [
            sums[0] + int(counts[1] if counts else 0),
            sums[1] + int(counts[2] if counts else 1),
        ]
    return sums


if __name__ == "__main__":
    passed, failed = run(sys.argv[1:]) if len(sys.argv) > 1 else run_all()
    print(f"{passed} passed, {failed} failed")
    sys.exit(int(failed > 0))
