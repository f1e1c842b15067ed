"""Streams for the scripts in this folder, and the command of the package."""
import os
import pathlib
import subprocess
import sys

ROOT = pathlib.Path(__file__).resolve().parent.parent.parent
HEADER = (
    b'{"type":"CityJSON","version":"2.0","transform":{"scale":[1,1,1],"translate":[0,0,0]},'
    b'"CityObjects":{},"vertices":[]}\n'
)
PYTHON = os.environ.get("PYTHON", sys.executable)


def feature(name, kind="Building", size=0):
    """Returns a feature with about that number of bytes more."""
    return (
        f'{{"type":"CityJSONFeature","id":"{name}","CityObjects":{{"{name}":{{"type":"{kind}",'
        f'"attributes":{{"x":"{"x" * size}"}}}}}},"vertices":[[0,0,0],[1,1,1]]}}\n'
    ).encode()


def write(path, megabytes, kind="Building"):
    """Writes a stream of features of about 4 KB."""
    with open(path, "wb") as file:
        file.write(HEADER)
        file.writelines(feature(f"b{number}", kind, 4_000) for number in range(megabytes * 245))


def begun(*words, **more):
    """Begins the command, and returns its process."""
    settings = {**os.environ, "PYTHONPATH": str(ROOT / "python")}
    return subprocess.Popen(
        [PYTHON, "-m", "cityseq", *map(str, words)],
        env=settings,
        stdout=subprocess.PIPE,
        stderr=subprocess.PIPE,
        **more,
    )


def ran(*words, **more):
    """Runs the command, and returns its status and what it says."""
    process = begun(*words, **more)
    _, said = process.communicate(timeout=600)
    return process.returncode, said.decode("utf-8", "replace")


def parts(folder):
    """Returns the names of files in a folder that are not whole."""
    return [name for name in os.listdir(folder) if name.endswith(".part")]


class Counts:
    """Counts what passed and what failed, and prints each test case."""

    passed = failed = 0

    def case(self, name, is_right, told=""):
        """Takes a test case."""
        print(f"{'passed' if is_right else 'FAILED'}  {name}{f': {told}' if told else ''}")
        self.passed += bool(is_right)
        self.failed += not is_right

    def end(self):
        """Prints the sums, and returns the status."""
        print(f"{self.passed} passed, {self.failed} failed")
        return int(self.failed > 0)
