#!/usr/bin/env python3
"""Measures `cityseq check --keep-going` on a stream with one invalid line in ten.

    bench/run going [MEGABYTES]      (20)

It divides the time by that of `cityseq check` on the same stream with these lines valid. Both are
the best of 15 runs, which alternate. Times are of the processor. It needs the built program.
"""
import subprocess
import sys
from functools import partial

from measure import OUT, PROGRAM, ROOT, best, run

ROUNDS = 15


def streams(megabytes):
    """Writes the sample again and again. Returns the path of that, and of the same with the type of
    each tenth feature misspelt. Both have the same length."""
    sample = (ROOT / "examples/sample.city.jsonl").read_bytes()
    header, *features = sample.splitlines(keepends=True)
    times = megabytes * 1_000_000 // sum(map(len, features)) + 1
    misspelt = [
        line.replace(b"CityJSONFeature", b"CityJSONFeaturf", 1) if number % 10 == 9 else line
        for number, line in enumerate(features)
    ]
    paths = OUT / "good.city.jsonl", OUT / "bad.city.jsonl"
    for path, lines in zip(paths, (features, misspelt)):
        path.write_bytes(header + b"".join(lines) * times)
    return paths


def main(megabytes="20"):
    good, bad = streams(int(megabytes))
    going = [PROGRAM, "check", "--keep-going"]
    calls = [
        partial(run, [PROGRAM, "check"], good),
        partial(run, going, bad, status=1, stderr=subprocess.DEVNULL),
    ]
    one, other = best(calls, ROUNDS)
    print(
        f"check {one:.3f} s, check --keep-going with one invalid line in ten {other:.3f} s,"
        f" ratio {other / one:.3f}"
    )


if __name__ == "__main__":
    main(*sys.argv[1:])
