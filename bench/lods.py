#!/usr/bin/env python3
"""Measures the Python package's `info`, without and with the texts of LoDs.

    bench/run lods [MEGABYTES [ROUNDS [SHAPE..]]]      (300, 3, and the shapes below)

It compares them with the package's `check` by as many threads. Each run stands between two runs of
`check`, and the ratio is to the mean of these two: the median of all rounds, by the clock and of
the processor. The shapes are usual, lods, huge and tiny of make_stream.py, and `attribute`. That is
the shape `lods` with an attribute of the name `lod` in each feature, so that queries count the
texts.

It needs the library python/cityseq/libcityseq.so. JOBS sets the numbers of threads ("1 4").
"""
import os
import sys
from functools import partial

from measure import OUT, PACKAGE, between, machine, made, middle, run, stream_of

CASES = {"info": ["info"], "info --lods": ["info", "--lods"]}
SHAPES = ("usual", "lods", "huge", "tiny", "attribute")


def with_attribute(megabytes, file):
    """Writes the shape `lods` with the attribute."""
    with open(stream_of("lods", megabytes), "rb") as lines:
        for line in lines:
            file.write(line.replace(b'"attributes":{', b'"attributes":{"lod":"2",', 1))


def stream(shape, megabytes):
    """Returns the path of a stream of this shape."""
    if shape != "attribute":
        return stream_of(shape, megabytes)
    path = OUT / f"parts-attribute-{megabytes}.jsonl"
    return made(path, partial(with_attribute, megabytes))


def main(megabytes="300", rounds="3", *shapes):
    print(machine())
    print(f"{'stream':<12}{'threads':>8}  {'':<12}{'of check':>9}{'processor':>11}")
    for shape in shapes or SHAPES:
        path = stream(shape, megabytes)
        for jobs in os.environ.get("JOBS", "1 4").split():
            check, *calls = [
                partial(run, [*PACKAGE, *words, "--jobs", jobs, path])
                for words in (["check"], *CASES.values())
            ]
            _, ratios = between(check, calls, int(rounds))
            for name, one in zip(CASES, map(middle, ratios)):
                print(
                    f"{shape:<12}{jobs:>8}  {name:<12}{one.clock:>9.2f}{one.processor:>11.2f}",
                    flush=True,
                )


if __name__ == "__main__":
    main(*sys.argv[1:])
