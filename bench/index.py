#!/usr/bin/env python3
"""Measures indexes of the Python package: each time by the clock and of the processor, as a ratio
within one round.

    bench/run index [MEGABYTES [ROUNDS [CASE..]]]      (1000, 3, and all)

build    `index` of usual lines with one and four jobs, of the time of `check` with as many, and the
         memory of both
cut      `filter --index` of 1,000 features in a block, a process of its own, of the time of
         `filter` with four jobs and of the program's: out of lines of 2 KB on a grid, and of usual
         lines in squares
packed   the same out of archives of blocks, of the time of `filter` over the archive: a box with a
         square of usual lines, and one with a hundredth of small features that are scattered
tiny     `index` of tiny lines with four jobs, of the time of `check`, and the bytes of a feature
hash     `index` with four jobs, of the time of one that makes no hash of the stream
columns  `index --attributes year,street` with four jobs, of the time of one without, out of usual
         and of tiny lines
records  10 million made-up records (RECORDS sets how many): the time to write the index, its size,
         and a box of 1,000 rows

It needs the library python/cityseq/libcityseq.so, and the built program for its own `filter`.
"""
import os
import random
import sqlite3
import sys
import time
from contextlib import closing
from functools import partial
from statistics import median

from measure import (
    OUT,
    PACKAGE,
    PROGRAM,
    ROOT,
    chosen,
    in_turn,
    least,
    machine,
    middle,
    of_each,
    run,
    stream_of,
)

sys.path.insert(0, str(ROOT / "python"))
BOXES = {"grid": "84616,447422,84936,447739", "spread": "84620,447430,85010,447500"}


HEADER = (
    b'{"type":"CityJSON","version":"2.0","transform":{"scale":[0.001,0.001,0.001],'
    b'"translate":[84616.468,447422.999,0]},"CityObjects":{},"vertices":[]}\n'
)


def compared(name, words, bases, rounds):
    """Prints the time of a run, and its ratios to each other run of the same round."""
    own, *others = in_turn(
        [partial(run, words), *(partial(run, *base) for base in bases.values())], rounds
    )
    one = least(own)
    print(f"{name}: {one.clock:.3f} s, processor {one.processor:.3f} s, peak {one.peak:.0f} MB")
    for base, found in zip(bases, others):
        ratio = middle(of_each(own, found))
        print(f"    of {base}: {ratio.clock:.3f}, of its processor time: {ratio.processor:.3f},")
        print(f"        where the peak is {least(found).peak:.0f} MB")


def build(megabytes, rounds):
    stream, index = stream_of("usual", megabytes), str(OUT / "build.gpkg")
    for jobs in ("1", "4"):
        words = [*PACKAGE, "index", "--jobs", jobs, "--output", index, stream]
        compared(
            f"build, {jobs} jobs",
            words,
            {f"check, {jobs} jobs": ([*PACKAGE, "check", "--jobs", jobs, stream],)},
            rounds,
        )


def tiny(megabytes, rounds):
    stream, index = stream_of("tiny", megabytes), str(OUT / "tiny.gpkg")
    words = [*PACKAGE, "index", "--jobs", "4", "--output", index, stream]
    check = [*PACKAGE, "check", "--jobs", "4", stream]
    compared("tiny, 4 jobs", words, {"check, 4 jobs": (check,)}, rounds)
    with closing(sqlite3.connect(index)) as base:
        ((count,),) = base.execute("SELECT max(fid) FROM features")
    print(f"{count:,} features, {os.path.getsize(index) / count:.1f} bytes each")


# `index` whose threads make no hash
WITHOUT_HASH = """
import sys
from cityseq.cli import main
from cityseq.sources import regular
regular.HashedFile.read = regular.RegularFile.read
regular.HashedFile.content = lambda file: ""
sys.exit(main(sys.argv[1:]))
"""


def hashed(megabytes, rounds):
    stream, index = stream_of("usual", megabytes), str(OUT / "hash.gpkg")
    words = ["index", "--jobs", "4", "--output", index, stream]
    base = [sys.executable, "-c", WITHOUT_HASH, *words]
    compared("hash, 4 jobs", [*PACKAGE, *words], {"one without it": (base,)}, rounds)


def columns(megabytes, rounds):
    for shape in ("usual", "tiny"):
        stream, index = stream_of(shape, megabytes), str(OUT / f"columns-{shape}.gpkg")
        words = [*PACKAGE, "index", "--jobs", "4", "--output", index, stream]
        named = [*words, "--attributes", "year,street"]
        compared(f"columns, {shape}, 4 jobs", named, {"one without them": (words,)}, rounds)


def cut(megabytes, rounds):
    for shape, box in BOXES.items():
        stream, index = stream_of(shape, megabytes), str(OUT / f"cut-{shape}.gpkg")
        run([*PACKAGE, "index", "--output", index, stream])
        selected = [*PACKAGE, "filter", "--index", index, f"--bbox={box}"]
        target = str(OUT / "cut.city.jsonl")
        run([*selected, "--output", target])
        with open(target, "rb") as file:
            features = sum(1 for _ in file) - 1
        print(f"{shape}: {features} features, {os.path.getsize(target) / 1e6:.1f} MB")
        whole = {"filter, 4 jobs": ([*PACKAGE, "filter", "--jobs", "4", f"--bbox={box}", stream],)}
        if os.path.exists(PROGRAM):
            whole["the program's filter"] = ([PROGRAM, "filter", f"--bbox={box}"], stream)
        compared(f"cut, {shape}", selected, whole, rounds)


def scattered(megabytes):
    """Writes small features, each anywhere in a square of 1 km, and returns the path."""
    path, chance = OUT / f"scattered-{megabytes}.city.jsonl", random.Random(1)
    with open(path, "wb") as file:
        file.write(HEADER)
        while file.tell() < megabytes * 1_000_000:
            name, x, y = f"t{file.tell()}", chance.randrange(10**6), chance.randrange(10**6)
            file.write(
                f'{{"type":"CityJSONFeature","id":"{name}","CityObjects":{{"{name}":{{"type":'
                f'"SolitaryVegetationObject","geometry":[{{"type":"MultiPoint","lod":"1",'
                f'"boundaries":[0]}}]}}}},"vertices":[[{x},{y},0]]}}\n'.encode()
            )
    return path


def packed(megabytes, rounds):
    boxes = {"spread": "84620,447430,84710,447500", "scattered": "84700,447500,84800,447600"}
    for shape, box in boxes.items():
        stream = scattered(megabytes) if shape == "scattered" else stream_of(shape, megabytes)
        archive, index = str(OUT / f"{shape}.gz"), str(OUT / f"packed-{shape}.gpkg")
        run([*PACKAGE, "pack", "--output", archive, str(stream)])
        run([*PACKAGE, "index", "--output", index, archive])
        selected = [*PACKAGE, "filter", "--index", index, f"--bbox={box}"]
        target = str(OUT / "cut.city.jsonl")
        run([*selected, "--output", target])
        sizes = [os.path.getsize(path) / 1e6 for path in (target, stream)]
        print(f"{shape}: {sizes[0]:.1f} MB of {sizes[1]:.1f} MB")
        whole = {"filter, 4 jobs": ([*PACKAGE, "filter", "--jobs", "4", f"--bbox={box}", archive],)}
        compared(f"packed, {shape}", selected, whole, rounds)


def parts_of_records(count, header):
    """Made-up records, 4,000 at a time: each feature somewhere in a square of 100 km."""
    from cityseq.engine.records import RECORD, Records

    chance, done, place = random.Random(1), 0, len(header)
    while done < count:
        raw = []
        for number in range(4_000):
            x, y = chance.randrange(10**8), chance.randrange(10**8)
            raw.append(
                RECORD.pack(
                    number + 2,
                    number * 601,
                    600,
                    30,
                    32,
                    1,
                    1,
                    2,
                    4,
                    1,
                    x,
                    x + 12_345,
                    1,
                    y,
                    y + 9_876,
                    1,
                    0,
                    8_765,
                )
            )
        yield done, Records(
            place,
            b"".join(raw),
            [b"NL.IMBAG.Pand.%016d" % number for number in range(done, done + 4_000)],
        )
        done, place = done + 4_000, place + 4_000 * 601


def records(_megabytes, _rounds):
    count, path = int(os.environ.get("RECORDS", 10_000_000)), str(OUT / "records.gpkg")
    seconds, processor = written(count, path)
    size = os.path.getsize(path) / count
    print(f"{count} records: {seconds:.0f} s, processor {processor:.0f} s, {size:.0f} bytes each")
    clock, processor, rows = map(median, zip(*boxes(count, path)))
    print(f"a box of {rows:.0f} rows: {1e3 * clock:.1f} ms, processor {1e3 * processor:.1f} ms")


def written(count, path):
    """Writes an index of made-up records, and returns the seconds that this took, by the clock and
    of the processor."""
    import cityseq
    from cityseq.engine.judge import Options, work_of
    from cityseq.indexes.builder import Builder, File
    from cityseq.run import Result

    builder, made, begun, processor = Builder(path), 0.0, time.monotonic(), time.process_time()
    builder.open()
    entry, parts = builder.begin(1, HEADER), parts_of_records(count, HEADER)
    while True:
        before = time.process_time()
        lines, part = next(parts, (0, None))
        made += time.process_time() - before
        if part is None:
            break
        builder.add(entry, part, lines)
    result = Result("", cityseq.Status.VALID, count + 1, count, 0, 0, 0, 0)
    builder.end(entry, File(str(OUT / "records.jsonl"), None, (0, 0), ""), result)
    builder.finish(work_of("check", Options()), cityseq.__version__)
    return time.monotonic() - begun - made, time.process_time() - processor - made


def boxes(count, path):
    """Yields the seconds of 20 boxes that have about 1,000 rows each, by the clock and of the
    processor, and the rows."""
    import cityseq

    side, chance = 1e5 * (1000 / count) ** 0.5, random.Random(2)
    with cityseq.Index(path) as index:
        for _ in range(20):
            x, y = (chance.random() * (1e5 - side) for _ in "xy")
            edges = (84616 + x, 447422 + y, 84616 + x + side, 447422 + y + side)
            work = index.work(box=tuple(f"{edge:.3f}" for edge in edges))
            before, processor = time.monotonic(), time.process_time()
            found = sum(1 for _ in index.rows(work))
            yield time.monotonic() - before, time.process_time() - processor, found


def main():
    words = sys.argv[1:]
    megabytes, rounds = int((words + ["1000"])[0]), int((words + ["", "3"])[1] or 3)
    cases = {"build": build, "tiny": tiny, "hash": hashed, "columns": columns}
    cases |= {"cut": cut, "packed": packed, "records": records}
    measured = chosen(cases, words[2:])
    print(f"{megabytes} MB, {rounds} rounds, {machine()}")
    for measure in measured.values():
        measure(megabytes, rounds)


if __name__ == "__main__":
    main()
