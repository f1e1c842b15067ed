#!/usr/bin/env python3
"""Times the program that filters by one part of a query: by_parts.py INPUT.

It compares each time with that of the filter that keeps all. Times are of the processor, the best
of ten rounds."""
import subprocess
import sys
from functools import partial
from pathlib import Path

sys.path.insert(0, str(Path(__file__).resolve().parent.parent))

from measure import PROGRAM, best, run  # noqa: E402

PARTS = (
    (),
    ("--id=b3",),
    ("--id=none",),
    ("--type=Building",),
    ("--type=Road",),
    ("--lod=2.2",),
    ("--lod=1",),
    ("--bbox=84616,447422,90617,448424",),
    ("--bbox=84616,447422,85216,448424",),
)
ROUNDS = 10


def kept(words, path):
    """Returns how many features these words keep."""
    with open(path, "rb") as stream:
        ran = subprocess.run(words, stdin=stream, stdout=subprocess.PIPE, check=True)
    return ran.stdout.count(b"\n") - 1


def main(path):
    commands = [[PROGRAM, "filter", *words] for words in PARTS]
    times = best([partial(run, words, path) for words in commands], ROUNDS)
    print("options                               kept   seconds   of the time of all")
    for words, command, seconds in zip(PARTS, commands, times):
        print(
            f"{' '.join(words):34} {kept(command, path):>7} {seconds:>9.3f}"
            f" {seconds / times[0]:>20.2f}"
        )


if __name__ == "__main__":
    main(*sys.argv[1:])
