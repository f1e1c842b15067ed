#!/usr/bin/env python3
"""Counts what `cityseq check` and `cityseq filter` do for each byte of four streams, under callgrind: instructions,
indirect jumps, and the jumps that a simple predictor would miss.

    bench/counts.py [PROGRAM..]

With no PROGRAM it builds crates/cityseq, which is quick where nothing changed since the last build; several are told one
after another. It needs valgrind, takes about two minutes for each program, and ends with status 1 if a program passes a
bound of LIMITS: a jump table in a hot loop costs 24 cycles for each jump that is missed, on machines where a sequence of
comparisons costs 3. The counts are the same on each machine, whatever else runs there; times move by 5 to 10 % with the
layout of the code alone. Of the simulated misses, those of conditional jumps do not tell which program is faster."""
import subprocess
import sys
import tempfile
from pathlib import Path

BENCH = Path(__file__).resolve().parent
# how many megabytes of each stream of make_stream.py
SIZES = {"usual": 3, "tiny": 3, "huge": 8, "text": 3}
# the most indirect jumps for each byte
LIMITS = {"usual": 0.02, "tiny": 0.03, "huge": 0.02, "text": 0.01}
COMMANDS = ("check", "filter")
# what callgrind counts: instructions, and jumps with those missed, conditional and indirect
EVENTS = ("Ir", "Bc", "Bcm", "Bi", "Bim")


def built():
    """The path of the program, built from the sources."""
    crate = BENCH.parent / "crates" / "cityseq"
    sample = BENCH.parent / "examples" / "sample.city.jsonl"
    with open(sample, "rb") as source:
        subprocess.run(
            ["rt", "run", "--", "filter"],
            cwd=crate,
            stdin=source,
            stdout=subprocess.DEVNULL,
            check=True,
        )
    return crate / "out" / "cityseq"


def stream(shape, folder):
    """The path of a stream of this shape."""
    path = folder / f"{shape}.jsonl"
    with open(path, "wb") as sink:
        subprocess.run(
            [sys.executable, BENCH / "make_stream.py", shape, str(SIZES[shape])],
            stdout=sink,
            check=True,
        )
    return path


def counted(program, command, path, folder):
    """How often each event came for each byte of the stream."""
    profile = folder / "callgrind.out"
    words = [
        "valgrind",
        "--quiet",
        "--tool=callgrind",
        "--branch-sim=yes",
        f"--callgrind-out-file={profile}",
    ]
    with open(path, "rb") as source:
        ran = subprocess.run([*words, program, command], stdin=source, stdout=subprocess.DEVNULL)
    if ran.returncode:
        sys.exit(f"{program} {command} on {path.stem}: status {ran.returncode}")
    lines = dict(
        line.split(":", 1)
        for line in profile.read_text().splitlines()
        if line.startswith(("events:", "totals:"))
    )
    totals = dict(zip(lines["events"].split(), map(int, lines["totals"].split())))
    return {event: totals[event] / path.stat().st_size for event in EVENTS}


def is_within(program, streams, folder):
    """Prints the counts of a program, and says whether they are within the limits."""
    print(
        f"\n{program}\n\n| stream | command | instructions | conditional, missed | indirect | indirect, missed |"
    )
    print("|---|---|---|---|---|---|")
    within = True
    for shape, path in streams.items():
        for command in COMMANDS:
            each = counted(program, command, path, folder)
            passed = each["Bi"] > LIMITS[shape]
            within = within and not passed
            print(
                f"| {shape} | {command} | {each['Ir']:.1f} | {each['Bc']:.2f}, {each['Bcm']:.3f} "
                f"| {each['Bi']:.3f}{f', above {LIMITS[shape]}' if passed else ''} | {each['Bim']:.3f} |",
                flush=True,
            )
    return within


def main(programs):
    with tempfile.TemporaryDirectory() as name:
        folder = Path(name)
        streams = {shape: stream(shape, folder) for shape in SIZES}
        return all([is_within(program, streams, folder) for program in programs or [built()]])


if __name__ == "__main__":
    sys.exit(0 if main(sys.argv[1:]) else 1)
