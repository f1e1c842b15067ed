#!/usr/bin/env python3
"""Measures cases of the Python package's command that depend on its own code.

    bench/run package [ROUNDS [CASE..]]      (3, and all)

Each is a ratio of two runs, by the clock and of the processor. It prints the ratio of the least
times of all rounds, and the median of the ratios within a round.

ids      `filter` by a million ids, compared with ten ids, with one job, on 600 MB of a million
         features
mixed    the same ids in no order
lines    the same ids in order, with the features in no order
some     `filter` by 30,000 of these ids, in no order
packed   `check` of eight .gz files with four jobs, compared with `xargs -P4` of zcat and the
         program
threads  `check` with four jobs, compared with one, on 600 MB of a million features
table    `table` of a tenth as many features of 210 bytes, compared with a loop of `json.loads`
start    how long `explain 25` takes, less what Python takes that does nothing

It needs the library python/cityseq/libcityseq.so, and the built program. FEATURES sets the number
of features and ids (1000000).
"""
import gzip
import os
import random
import sys
from functools import partial

from measure import (
    OUT,
    PACKAGE,
    PROGRAM,
    chosen,
    in_turn,
    least,
    machine,
    made,
    megabytes_of,
    middle,
    of_each,
    run,
)

FEATURES = int(os.environ.get("FEATURES", 1_000_000))
SOME = 30_000
HEADER = (
    b'{"type":"CityJSON","version":"2.0","transform":{"scale":[1,1,1],"translate":[0,0,0]},'
    b'"CityObjects":{},"vertices":[]}\n'
)
FEATURE = (
    b'{"type":"CityJSONFeature","id":"b%07d","CityObjects":{"b%07d":{"type":"Building",'
    b'"geometry":[{"type":"MultiSurface","lod":"2.2","boundaries":[%s]}]}},"vertices":[%s]}\n'
)


def feature(number):
    """Returns a feature of some 600 bytes."""
    x, y = number * 7 % 10007, number * 3 % 10009
    corners = b",".join(b"[%d,%d,%d]" % (x, y, height) for height in range(24))
    rings = b",".join(b"[[%d,%d,%d,%d]]" % (i, i + 1, i + 2, i + 3) for i in range(0, 20, 4))
    return FEATURE % (number, number, rings, corners)


def small_feature(number):
    """Returns a feature of some 210 bytes."""
    x, y = number * 700 % 10007, number * 300 % 10009
    return FEATURE % (
        number,
        number,
        b"[[0,1,1]]",
        b"[%d,%d,0],[%d,%d,3000]" % (x, y, x + 9, y + 7),
    )


def write_stream(numbers, file):
    file.write(HEADER)
    file.writelines(map(feature, numbers))


def write_packed(file):
    with gzip.GzipFile("", "wb", 6, file, 0) as packed:
        write_stream(range(FEATURES // 8), packed)


def ids_of(name, numbers):
    """Returns the path of a file with the ids of these features, one a line. Half of a million
    features are asked for."""
    lines = (b"b%07d\n" % (number * 2) for number in numbers)
    return made(OUT / f"{name}.txt", lambda file: file.writelines(lines))


def compare(name, goal, ours, base, rounds):
    """Runs both in turn, and prints the ratios."""
    runs = in_turn([partial(run, ours), partial(run, base)], rounds)
    (low,), mean = of_each(*([least(each)] for each in runs)), middle(of_each(*runs))
    print(
        f"{name}: by the clock {low.clock:.2f}, in the middle {mean.clock:.2f};"
        f" of the processor {low.processor:.2f}, {mean.processor:.2f} (goal {goal}); {machine()}",
        flush=True,
    )


def by_ids(case, numbers, rounds, features=None):
    kind, features = ("ids", range(FEATURES)) if features is None else (case, features)
    stream = made(OUT / f"{kind}-{FEATURES}.jsonl", partial(write_stream, features))
    many, ten = ids_of(f"{case}-{FEATURES}", numbers), ids_of("ids-10", range(10))
    words = [*PACKAGE, "filter", "--jobs", "1", "--output", os.devnull, stream, "--ids-from"]
    compare(f"{case}, {megabytes_of(stream):.0f} MB", 1.5, [*words, many], [*words, ten], rounds)


def by_chance(count):
    """Returns so many of all features, in no order."""
    return random.Random(1).sample(range(FEATURES), min(count, FEATURES))


def packed(rounds):
    paths = [made(OUT / f"packed-{FEATURES}-{n}.jsonl.gz", write_packed) for n in range(8)]
    checked = f"printf '%s\\n' {' '.join(paths)} | "
    checked += f"xargs -P4 -I{{}} sh -c 'zcat {{}} | {PROGRAM} check'"
    ours = [*PACKAGE, "check", "--jobs", "4", *paths]
    compare("packed, eight files", 1.1, ours, ["sh", "-c", checked], rounds)


LOOP = """
import json, sys
with open(sys.argv[1], "rb") as file:
    next(file)
    for line in file:
        feature = json.loads(line)
        len(feature["id"]), len(feature["CityObjects"])
"""
TABLE = "import cityseq, sys; cityseq.table(sys.argv[1])"


def threads(rounds):
    stream = made(OUT / f"ids-{FEATURES}.jsonl", partial(write_stream, range(FEATURES)))
    words = [*PACKAGE, "check", stream, "--jobs"]
    compare(f"threads, {megabytes_of(stream):.0f} MB", 0.28, [*words, "4"], [*words, "1"], rounds)


def table(rounds):
    features = map(small_feature, range(FEATURES // 10))
    stream = made(
        OUT / f"small-{FEATURES}.jsonl", lambda file: file.writelines([HEADER, *features])
    )
    ours, base = ([sys.executable, "-c", code, stream] for code in (TABLE, LOOP))
    compare(f"table, {megabytes_of(stream):.0f} MB", 0.5, ours, base, rounds)


def start(rounds):
    nothing, ours = [sys.executable, "-c", ""], [*PACKAGE, "explain", "25"]
    base, runs = in_turn([partial(run, nothing), partial(run, ours)], 10 * rounds)
    more = [1_000 * (one - none) for one, none in zip(least(runs), least(base))]
    print(f"start: {more[0]:.0f} ms by the clock, {more[1]:.0f} of the processor (goal 80)")


CASES = {
    "ids": lambda rounds: by_ids("ids", range(FEATURES), rounds),
    "mixed": lambda rounds: by_ids("mixed", by_chance(FEATURES), rounds),
    "lines": lambda rounds: by_ids("lines", range(FEATURES), rounds, by_chance(FEATURES)),
    "some": lambda rounds: by_ids("some", by_chance(SOME), rounds),
    "packed": packed,
    "threads": threads,
    "table": table,
    "start": start,
}

if __name__ == "__main__":
    for measured in chosen(CASES, sys.argv[2:]).values():
        measured(int((sys.argv + ["3"])[1]))
