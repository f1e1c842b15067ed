#!/usr/bin/env python3
"""Compares programs for commands.sh: compare.py TWIN NARROW TYPED PEER SMALL INPUT..

An empty word stands for a program that is not there. It prints the time of a run on a stream of one
feature, the input SMALL. Then it prints MB/s, the ratios to the times of `cityseq check`, of the
two twins and of the peer, and the greatest resident memory. Times are of the processor, the best of
all rounds."""
import os
import subprocess
import sys
from functools import partial

from measure import PROGRAM, best, megabytes_of, run

RUNS = 5
STARTS = 200
GNU_TIME = "/usr/bin/time"
BOX = "--bbox=84616,447422,100000,500000"  # around all that the inputs have
PEERS = {"cityseq check": 10, "Rust twin": 13, "typed twin": 15, "simdjson peer": 13}


def resident_of(words, path):
    """Returns the greatest resident kilobytes of one run, by GNU time. Otherwise it would not be
    below that of Python."""
    if not os.path.exists(GNU_TIME):
        return "-"
    with open(path, "rb") as source:
        ran = subprocess.run(
            [GNU_TIME, "-f", "%M", *words],
            stdin=source,
            stdout=subprocess.DEVNULL,
            stderr=subprocess.PIPE,
        )
    return ran.stderr.split()[-1].decode()


def programs_of(commands, twin, narrow, typed, peer):
    """Returns the words of each program that is there, by its name."""
    programs = {**commands, "cat": ["cat"], "wc -l": ["wc", "-l"]}
    if twin:
        programs["Rust twin"] = [twin]
        programs["twin, SSE alone"] = [narrow]
        programs["twin, no JSON"] = [twin, "copy"]
    if typed:
        programs["typed twin"] = [typed]
    if peer:
        programs["simdjson peer"] = [peer]
    return programs


def print_rows(programs, path):
    """Measures all programs on an input, and prints a row for each."""
    calls = [partial(run, words, path) for words in programs.values()]
    seconds = dict(zip(programs, best(calls, RUNS)))
    for name, took in seconds.items():
        ratios = "".join(
            f"{f'{took / seconds[peer]:.2f}' if peer in seconds else '-':>{width}}"
            for peer, width in PEERS.items()
        )
        print(
            f"{os.path.basename(path):<16}{name:<18}{megabytes_of(path) / took:>8.0f}{ratios}"
            f"{resident_of(programs[name], path):>13}"
        )


def main(twin, narrow, typed, peer, small, *paths):
    commands = {f"cityseq {name}": [PROGRAM, name] for name in ("check", "filter", "info")}
    commands["filter by a box"] = [PROGRAM, "filter", BOX]
    for name, words in {**commands, "true": ["true"]}.items():
        (took,) = best([partial(run, words, small)], STARTS)
        print(f"{name} on one feature: {1000 * took:.2f} ms")
    titles = "".join(
        f"{f'of {name}':>{width}}"
        for name, width in zip(("check", "the twin", "typed twin", "the peer"), PEERS.values())
    )
    print(f"{'input':<16}{'program':<18}{'MB/s':>8}{titles}{'resident KB':>13}")
    for path in paths:
        print_rows(programs_of(commands, twin, narrow, typed, peer), path)


if __name__ == "__main__":
    main(*sys.argv[1:])
