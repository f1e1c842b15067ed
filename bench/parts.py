#!/usr/bin/env python3
"""Measures the Python package's `check` with one, two and four threads, on one file.

    bench/run parts [MEGABYTES [SHAPE [ROUNDS [CASE..]]]]      (1000, usual, 3, and all)

It compares them with the program's `check`. It measures `filter` and `info` in the same way with
one and four threads. The program's `check` runs before and after each run, and the ratio is to the
mean of these two. It prints the median ratio of all rounds, by the clock. It also prints the least
time by the clock, the least processor time, and the least peak of resident memory.

The shapes are those of make_stream.py. A case is named as it is printed. It needs the library
python/cityseq/libcityseq.so, and the built program.
"""
import subprocess
import sys
from functools import partial

from measure import (
    PACKAGE,
    PROGRAM,
    SETTINGS,
    between,
    chosen,
    least,
    machine,
    megabytes_of,
    middle,
    run,
    stream_of,
)

JOBS = (("check", (1, 2, 4)), ("filter", (1, 4)), ("info", (1, 4)), ("info --lods", (1, 4)))


def cases(stream):
    """Returns a call for each case by its name."""
    found = {
        f"program, {name}": partial(run, [PROGRAM, name], stream)
        for name in ("check", "filter", "info")
    }
    for name, numbers in JOBS:
        for count in numbers:
            words = [*PACKAGE, *name.split(), "--jobs", str(count), stream]
            found[f"{name}, {count} jobs"] = partial(run, words)
    return found


def main(megabytes="1000", shape="usual", rounds="3", *wanted):
    stream = stream_of(shape, megabytes)
    named = chosen(cases(stream), wanted)
    subprocess.run([*PACKAGE, "--version"], stdout=subprocess.DEVNULL, env=SETTINGS, check=True)
    base = partial(run, [PROGRAM, "check"], stream)
    runs, ratios = between(base, list(named.values()), int(rounds))
    size = megabytes_of(stream)
    print(f"{size:.0f} MB, {rounds} rounds, {machine()}")
    print(f"{'':<24}{'of check':>9}{'seconds':>9}{'MB/s':>8}{'processor':>11}{'peak MB':>9}")
    for name, one, ratio in zip(named, map(least, runs), map(middle, ratios)):
        print(
            f"{name:<24}{ratio.clock:>9.3f}{one.clock:>9.2f}{size / one.clock:>8.0f}"
            f"{one.processor:>11.2f}{one.peak:>9.0f}"
        )


if __name__ == "__main__":
    main(*sys.argv[1:])
