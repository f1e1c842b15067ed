#!/usr/bin/env python3
"""Counts the instructions of `check` on adversarial lines of 1 MB, for each of some programs.

    bench/hostile_counts.py PROGRAM.. [--only WORD]

It shows millions of instructions under callgrind, and then those of the last program compared with
each other one. Trees are checked with --tree. With a WORD only shapes whose names have it are
counted. It needs valgrind and cc, and takes a minute or two for each program."""
import argparse
import subprocess
import sys
import tempfile
from pathlib import Path

from counts import BENCH
from hostile import shapes

LENGTH = 1_000_000


def instructions(program: str, stream: Path, words: "list[str]") -> int:
    """Returns how many instructions a program takes for a stream. Some of the lines are invalid."""
    profile = stream.with_suffix(".callgrind")
    command = ["valgrind", "--quiet", "--tool=callgrind", f"--callgrind-out-file={profile}"]
    with open(stream, "rb") as source:
        ran = subprocess.run(
            [*command, program, *words],
            stdin=source,
            stdout=subprocess.DEVNULL,
            stderr=subprocess.DEVNULL,
        )
    if ran.returncode not in (0, 1):
        sys.exit(f"{program} {' '.join(words)}: status {ran.returncode}")
    totals = [line for line in profile.read_text().splitlines() if line.startswith("totals:")]
    return int(totals[0].split()[1])


def print_row(shape: str, programs: "list[str]", folder: Path) -> None:
    """Counts the line of a shape, and prints its row."""
    stream = folder / "line.jsonl"
    stream.write_text(shapes.stream_of(shape, LENGTH), "utf-8")
    words = ["check", "--tree"] if shape in shapes.TREES else ["check"]
    counts = [instructions(program, stream, words) for program in programs]
    ratios = "".join(f"{counts[-1] / count:>9.3f}" for count in counts[:-1])
    millions = "".join(f"{count / 1e6:>10.2f}" for count in counts)
    print(f"{shape:<46}{millions}{ratios}", flush=True)


def main() -> None:
    """Counts all shapes."""
    parser = argparse.ArgumentParser(description="Counts instructions on adversarial lines.")
    parser.add_argument("programs", nargs="+", metavar="PROGRAM")
    parser.add_argument("--only", default="", metavar="WORD")
    given = parser.parse_args()
    with tempfile.TemporaryDirectory() as name:
        folder = Path(name)
        shapes.MEETING = str(folder / "meeting")
        source = str(BENCH / "hostile" / "meeting.c")
        subprocess.run(["cc", "-O2", "-o", shapes.MEETING, source], check=True)
        for shape in (*shapes.SHAPES, *shapes.TREES):
            if given.only in shape:
                print_row(shape, given.programs, folder)


if __name__ == "__main__":
    main()
