#!/usr/bin/env python3
"""Measures the page about a delivery, each time as a ratio within one round.

    bench/run report [MEGABYTES [ROUNDS [CASE..]]]      (1000, 3, and all)

usual    `report` of usual lines with four jobs, of the time of `index` with as many, and the memory
         of both
tiny     the same of lines of 300 bytes, and of the time of `check`
one      `report` of one feature, a process of its own: the seconds
size     the bytes of a page of 10,000 reports and 10 million made-up features (FEATURES sets how
         many), and the seconds to write it

It needs the library python/cityseq/libcityseq.so, and Jinja2 and matplotlib.
"""
import os
import random
import sys
import time
from functools import partial
from statistics import median

from measure import (
    OUT,
    PACKAGE,
    ROOT,
    chosen,
    in_turn,
    least,
    machine,
    middle,
    of_each,
    run,
    stream_of,
)

sys.path.insert(0, str(ROOT / "python"))
PAGE = str(OUT / "report.html")


def by_index(shape, megabytes, rounds):
    """Prints the time of a page, and its difference and ratio to an index of the same round."""
    stream, index = stream_of(shape, megabytes), str(OUT / "report.gpkg")
    page = [*PACKAGE, "report", "--jobs", "4", "--output", PAGE, stream]
    build = [*PACKAGE, "index", "--jobs", "4", "--output", index, stream]
    pages, builds = in_turn([partial(run, page), partial(run, build)], rounds)
    beyond = median(one.clock - 1.5 * other.clock for one, other in zip(pages, builds))
    ratio, one = middle(of_each(pages, builds)).clock, least(pages)
    print(f"{shape}: {one.clock:.2f} s, peak {one.peak:.0f} MB")
    print(f"    of index, 4 jobs: {ratio:.2f}, where the peak is {least(builds).peak:.0f} MB")
    print(f"    {beyond:+.2f} s beyond 1.5 times its time (the goal: at most 3 s)")


def by_check(megabytes, rounds):
    """Prints the time of a page of tiny lines, and of `check`, both beyond that of one line."""
    by_index("tiny", megabytes, rounds)
    page = [*PACKAGE, "report", "--jobs", "4", "--output", PAGE]
    check = [*PACKAGE, "check", "--jobs", "4"]
    calls = [
        partial(run, [*words, stream_of("tiny", size)])
        for words in (page, check)
        for size in (megabytes, 0)
    ]
    rounds_of = list(zip(*in_turn(calls, rounds)))
    for name in ("clock", "processor"):
        ratio = median(
            (getattr(whole, name) - getattr(start, name))
            / (getattr(check, name) - getattr(begin, name))
            for whole, start, check, begin in rounds_of
        )
        print(f"    of check, both without their start: {ratio:.2f}, {name} (the goal: 1.5)")


def one_feature(_megabytes, rounds):
    stream = OUT / "one.jsonl"
    town = (ROOT / "examples/town.city.jsonl").read_bytes().splitlines(keepends=True)
    stream.write_bytes(b"".join(town[:2]))
    words = [*PACKAGE, "report", "--output", PAGE, str(stream)]
    (runs,) = in_turn([partial(run, words)], max(rounds, 5))
    print(
        f"one feature: {least(runs).clock:.2f} s, {middle(runs).clock:.2f} s in the middle"
        " (the goal: below 1.5 s)"
    )


def size(_megabytes, _rounds):
    import cityseq
    from cityseq.delivery.areas import Place, np
    from cityseq.delivery.facts import Contents, Delivery, File, Reasons, Run
    from cityseq.delivery.page import html
    from cityseq.engine.reports import Report

    count, chance, begun = (
        int(os.environ.get("FEATURES", 10_000_000)),
        random.Random(1),
        time.monotonic(),
    )
    place, numbers = Place(None), np.random.default_rng(1)
    for _ in range(0, count, 100_000):
        x, y = numbers.normal(84_000, 9_000, 100_000), numbers.normal(447_000, 9_000, 100_000)
        place.add(x, x + 10, y, y + 10)
    print(f"{place.features} places: {time.monotonic() - begun:.1f} s")
    excerpt = 'face","lod":"2.2","boundaries":[[[0,1,2,4]]]}]}},"vertices":[[0,0,0],[1000,0,0],'
    reasons, reports = Reasons(), []
    for number in range(10_000):
        code = chance.choice((25, 20, 4, 13))
        report = Report(
            "region/north-west.city.jsonl.gz",
            3 + 7 * number,
            chance.randrange(9_999),
            code,
            cityseq.explain(code).text,
            f"NL.IMBAG.Pand.05031000000{number:05}",
            excerpt,
            40,
            "the index is 4",
        )
        reasons.add(report)
        reports.append(report)
    made = File(
        reports[0].file,
        cityseq.Status.INVALID,
        1,
        "0" * 64,
        count,
        len(reports),
        contents=Contents(count, {"Building": count}, {"2": count}, {11: count}),
    )
    run_told = Run(
        cityseq.__version__, "bench/report", "2026-01-01T00:00:00Z", 1.0, 4, 8_388_608, 64, False
    )
    begun = time.monotonic()
    text = html(
        Delivery("size", run_told, [made], [place.area()], reasons.listed(), reports=reports)
    )
    seconds, count = time.monotonic() - begun, len(text.encode())
    print(f"page: {count:,} bytes in {seconds:.1f} s (the goal: below 2,000,000 bytes)")


CASES = {
    "usual": lambda megabytes, rounds: by_index("usual", megabytes, rounds),
    "tiny": by_check,
    "one": one_feature,
    "size": size,
}


def main():
    words = sys.argv[1:]
    megabytes, rounds = int((words + ["1000"])[0]), int((words + ["", "3"])[1] or 3)
    measured = chosen(CASES, words[2:])
    print(f"{megabytes} MB, {rounds} rounds, {machine()}")
    for measure in measured.values():
        measure(megabytes, rounds)


if __name__ == "__main__":
    main()
