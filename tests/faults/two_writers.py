#!/usr/bin/env python3
"""Runs two commands with the same output at once, with many delays between them.

    tests/run faults/two_writers [--megabytes N]

Both have to end well, and the output has to be that of one of them. The last line is
'N passed, M failed', and the status is 0 if none failed.
"""
import argparse
import gzip
import os
import pathlib
import signal
import sys
import tempfile
import time

from stream import Counts, begun, parts, ran, write

DELAYS = (0, 0.02, 0.05, 0.1, 0.15, 0.2, 0.25, 0.3, 0.35, 0.4, 0.45, 0.5, 0.7, 1.0)


def text_of(path):
    """Returns the text of an output, unpacked."""
    return gzip.decompress(path.read_bytes()) if path.suffix == ".gz" else path.read_bytes()


def filters(counts, folder, first, second, output):
    """Runs two filters with the same output."""
    wanted = []
    for words in (first, second):
        ran(*words, "--output", output)
        wanted.append(text_of(output))
        output.unlink()
    for delay in DELAYS:
        one = begun(*first, "--output", output)
        time.sleep(delay)
        other = begun(*second, "--output", output)
        said = [each.communicate()[1].decode() for each in (other, one)]
        statuses = one.returncode, other.returncode
        is_right = statuses == (0, 0) and text_of(output) in wanted and not parts(folder)
        counts.case(
            f"two runs to {output.name}, {delay} s apart",
            is_right,
            f"{statuses} {' '.join(said).strip()}",
        )
        output.unlink()


def builders(counts, folder, paths):
    """Runs two builders of the same index."""
    index, output = folder / "r.gpkg", folder / "cut"
    for path in paths:
        for delay in DELAYS:
            one = begun("index", "--quiet", "--output", index, path)
            time.sleep(delay)
            other = begun("index", "--quiet", "--output", index, path)
            said = [each.communicate()[1].decode() for each in (other, one)]
            statuses = one.returncode, other.returncode
            status, told = ran("filter", "--index", index, "--output", output)
            is_right = (statuses, status) == ((0, 0), 0) and not parts(folder)
            is_right = is_right and output.read_bytes() == path.read_bytes()
            counts.case(
                f"two indexes of {path.name}, {delay} s apart",
                is_right,
                f"{statuses} {' '.join(said).strip()} {told}".strip(),
            )
            index.unlink()
            output.unlink()


def kills(counts, folder, path):
    """Kills a builder and a filter: an older output stays, and one file is left to remove."""
    for words in (("index", "--quiet"), ("filter",)):
        output = folder / f"{words[0]}.killed"
        ran(*words, "--output", output, path)
        before = output.read_bytes()
        run = begun(*words, "--output", output, path)
        while not parts(folder) and run.poll() is None:
            time.sleep(0.002)
        time.sleep(0.05)
        os.kill(run.pid, signal.SIGKILL)
        run.communicate()
        left = parts(folder)
        is_named = all(name.startswith(f".{output.name}.") for name in left)
        counts.case(f"{words[0]}, killed", output.read_bytes() == before and is_named, f"{left}")
        for name in left:
            (folder / name).unlink()
        status, said = ran(*words, "--output", output, path)
        counts.case(f"{words[0]}, run again", status == 0 and output.exists(), said)


def main():
    """Runs all test cases, and returns the status."""
    asked = argparse.ArgumentParser(description=__doc__.split("\n")[0])
    asked.add_argument("--megabytes", type=int, default=60)
    wanted, counts = asked.parse_args(), Counts()
    with tempfile.TemporaryDirectory() as name:
        folder = pathlib.Path(name)
        path, index = folder / "s.city.jsonl", folder / "s.gpkg"
        write(path, wanted.megabytes)
        ran("index", "--quiet", "--output", index, path)
        for end in (".jsonl", ".jsonl.gz"):
            output = folder / f"x{end}"
            filters(
                counts,
                folder,
                ("filter", "--quiet", "--jobs", "1", path),
                ("filter", "--quiet", "--id", "b7", path),
                output,
            )
            filters(
                counts,
                folder,
                ("filter", "--quiet", "--index", index),
                ("filter", "--quiet", "--index", index, "--id", "b7"),
                output,
            )
        builders(counts, folder, [path])
        kills(counts, folder, path)
    return counts.end()


if __name__ == "__main__":
    sys.exit(main())
