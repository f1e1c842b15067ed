#!/usr/bin/env python3
"""Runs the program with little of the stack, over the lines that need most of it.

    tests/cli/stack.py [--measure] [PROGRAM]

With the stack that its options need, the program judges each of these lines, and no signal ends it.
With a KiB less it reads nothing and ends with status 5. The words and the environment lie on the
stack too: here they take a quarter of it, which is all that the system lets through.
--measure prints the least stack with which the program judges each line. The last line is 'N passed,
M failed'.
"""
from __future__ import annotations

import argparse
import resource
import subprocess
import sys
from collections.abc import Callable, Iterator
from pathlib import Path

ROOT = Path(__file__).resolve().parent.parent.parent
KIB = 1024
SHORT_LINE, USUAL_LINE = 65_536, 8_388_608
TOO_SMALL = b"the stack is too small for these options\n"
HEADER = (
    '{"type":"CityJSON","version":"2.0","transform":{"scale":[1,1,1],"translate":[0,0,0]},'
    '"CityObjects":{},"vertices":[]%s}\n'
)
TEMPLATES = ',"geometry-templates":{"vertices-templates":[[0,0,0]],"templates":[%s]}'
BEGIN = '{"type":"CityJSONFeature","id":"b","vertices":[[0,0,0],[1,0,0],[0,1,0]]'
SURFACE = '{"type":"MultiSurface","lod":"2","boundaries":[[[0,1,2]]]}'
MATRIX = "[1,0,0,0,0,1,0,0,0,0,1,0,0,0,0,1]"


def filled(begin: str, items: Iterator[str], end: str, size: int) -> str:
    """Returns a feature with as many items, with commas between them, as go into so many bytes."""
    room = size - len(begin) - len(end)
    kept: list[str] = []
    for item in items:
        room -= len(item) + 1
        if room < 0:
            break
        kept.append(item)
    return begin + ",".join(kept) + end + "\n"


def numbers(size: int) -> Iterator[int]:
    """Yields more numbers than a line of this size has room for."""
    return iter(range(1, size))


def parts(size: int) -> str:
    """Returns a building, and its parts with a surface each."""
    count = size // 140
    children = ",".join(f'"p{i}"' for i in range(count))
    begin = f'{BEGIN},"CityObjects":{{"b":{{"type":"Building","children":[{children}]}},'
    objects = (
        f'"p{i}":{{"type":"BuildingPart","parents":["b"],"geometry":[{SURFACE}]}}'
        for i in range(count)
    )
    return begin + ",".join(objects) + "}}\n"


def chain(size: int) -> str:
    """Returns a chain of buildings, the last first."""
    last = size // 80
    objects = []
    for i in range(last, 0, -1):
        before = f"p{i - 1}" if i > 1 else "b"
        after = f'"p{i + 1}"' if i < last else ""
        objects.append(f'"p{i}":{{"type":"Building","parents":["{before}"],"children":[{after}]}}')
    objects.append('"b":{"type":"Building","children":["p1"]}')
    return f'{BEGIN},"CityObjects":{{{",".join(objects)}}}}}\n'


def instances(size: int) -> str:
    """Returns roads with an instance each of a template of its own."""
    count = min(size // 200, 512)
    roads = "".join(
        f',"r{i}":{{"type":"Road","geometry":[{{"type":"GeometryInstance","template":{i},'
        f'"boundaries":[0],"transformationMatrix":{MATRIX}}}]}}'
        for i in range(1, count)
    )
    return f'{BEGIN},"CityObjects":{{"b":{{"type":"Building"}}{roads}}}}}\n'


def group(size: int) -> str:
    """Returns a group of every second one of many roads."""
    count = size // 32
    children = ",".join(f'"r{i}"' for i in range(0, count, 2))
    roads = ",".join(f'"r{i}":{{"type":"Road"}}' for i in range(count))
    return (
        f'{BEGIN},"CityObjects":{{"b":{{"type":"CityObjectGroup","children":[{children}]}},'
        f"{roads}}}}}\n"
    )


def shortest(size: int) -> str:
    """Returns city objects whose names and values are as short as may be."""
    begin = f'{BEGIN},"CityObjects":{{"b":{{"type":"Building","children":[""]}},'
    return filled(begin, ('"":0' for _ in numbers(size)), "}}", size)


def parents(size: int) -> str:
    """Returns a part of none but the last of many parents."""
    begin = (
        f'{BEGIN},"CityObjects":{{"b":{{"type":"Building","children":["p"]}},'
        '"p":{"type":"BuildingPart","parents":['
    )
    return filled(begin, (f'"x{i}"' for i in numbers(size)), ',"b"]}}}', size)


def names(size: int) -> str:
    """Returns members of the feature that are unread, the last name first."""
    count = (size - 200) // 12
    members = "".join(f',"n{i}":0' for i in range(count, 0, -1))
    return f'{BEGIN}{members},"CityObjects":{{"b":{{"type":"Building"}}}}}}\n'


def header_of(make: Callable[[int], str]) -> str:
    """Returns the header, with templates of many LoDs for instances."""
    if make is not instances:
        return HEADER % ""
    templates = (f'{{"type":"MultiPoint","lod":"{i % 4}","boundaries":[0]}}' for i in range(512))
    return HEADER % (TEMPLATES % ",".join(templates))


# Of long lines, those of few names need little.
MAKERS = {
    SHORT_LINE: (parts, chain, instances, group, shortest, parents, names),
    USUAL_LINE: (parts, chain, shortest, names),
}
COMMANDS = (["check"], ["filter", "--lod", "2", "--tree"])


def needed(words: list[str], limit: int) -> int:
    """Returns the stack that the program needs with these words, in KiB, as the guide says."""
    if limit <= SHORT_LINE:
        return 512
    return 3_072 if "--tree" in words else 1_024


class Trial:
    """The program with words, a line limit and a stream."""

    def __init__(self, program: str, words: list[str], limit: int, stream: bytes) -> None:
        self.words = [program, *words, "--line-limit", str(limit)]
        self.needed = needed(words, limit)
        self.stream = stream

    def run(self, kib: int, room: int = 0) -> subprocess.CompletedProcess[bytes]:
        """Runs it with a stack of so many KiB, and an environment of so many bytes."""
        environment = {f"ROOM{i}": "x" * 100_000 for i in range(room // 100_000)}
        return subprocess.run(
            self.words,
            input=self.stream,
            capture_output=True,
            env=environment,
            preexec_fn=lambda: resource.setrlimit(
                resource.RLIMIT_STACK, (kib * KIB, resource.RLIM_INFINITY)
            ),
        )

    def least(self) -> int:
        """Returns the least stack in KiB with which the line is judged."""
        low, high = 64, self.needed
        while low + 8 < high:
            kib = (low + high) // 2
            low, high = (low, kib) if self.run(kib).returncode in (0, 1) else (kib, high)
        return high


def trials(program: str) -> Iterator[tuple[str, Trial]]:
    """Yields each trial with its name."""
    for limit, makers in MAKERS.items():
        for make in makers:
            stream = (header_of(make) + make(limit)).encode()
            for words in COMMANDS:
                name = f"{make.__name__} under {limit}: {' '.join(words)}"
                yield name, Trial(program, words, limit, stream)


def faults(trial: Trial) -> Iterator[str]:
    """Yields what is wrong."""
    done = trial.run(trial.needed, trial.needed * KIB // 4 - 20_000)
    if done.returncode not in (0, 1):
        yield f"status {done.returncode} with {trial.needed} KiB"
    done = trial.run(trial.needed - 1)
    if (done.returncode, done.stdout, done.stderr) != (5, b"", TOO_SMALL):
        yield f"status {done.returncode} with {trial.needed - 1} KiB: {done.stderr[:80]!r}"


def main() -> int:
    """Runs all trials, and returns the status."""
    reader = argparse.ArgumentParser(description=__doc__)
    reader.add_argument("--measure", action="store_true")
    reader.add_argument("program", nargs="?", default=str(ROOT / "crates/cityseq/out/cityseq"))
    asked = reader.parse_args()
    passed = failed = 0
    for name, trial in trials(asked.program):
        if asked.measure:
            print(f"{name}: {trial.least()} KiB", flush=True)
            continue
        found = list(faults(trial))
        for fault in found:
            print(f"{name}: {fault}")
        passed, failed = passed + (not found), failed + bool(found)
    print(f"{passed} passed, {failed} failed")
    return 1 if failed else 0


if __name__ == "__main__":
    sys.exit(main())
