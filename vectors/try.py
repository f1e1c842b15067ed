#!/usr/bin/env python3
"""Tries the vectors with a program: python3 vectors/try.py cityseq PROGRAM, or python3 vectors/try.py peer COMMAND..

With `cityseq` all of each test case is wanted: what `filter` writes, its fault line and its status;
and what `info` says of lines and peaks where a stream is complete and nothing is asked but types of
extensions. The last line is 'N passed, M failed', and the status is 0 where all passed.

With `peer` another checker's command is run, which has the stream on its standard input and ends with status 0 exactly where it
takes it for valid. It says where that differs from these vectors, those aside that ask for limits of their own or have a query,
and always ends with status 0: what another checker means by valid may well be something else."""
import os
import sys
from concurrent.futures import ThreadPoolExecutor

from table import cases, run, wanted_of


def differences(program, case):
    """What of a test case comes out otherwise."""
    limits = ["--line-limit", case["line limit"], "--depth", case["depth"]]
    query = [] if case["query"] == "-" else case["query"].split(" ")
    for name, wanted, got in zip(
        ("written", "said", "status"),
        wanted_of(case),
        run([program, "filter", *limits, *query], case["text"]),
    ):
        if wanted != got:
            yield f"{name}: wanted {wanted!r}, got {got!r}"
    if case["answer"] == "complete" and set(query) <= {"--extensions"}:
        report = run([program, "info", *limits, *query], case["text"])[0].decode().splitlines()
        told = dict(line.rsplit(" ", 1) for line in report)
        got = [told.get("lines")] + [
            told.get(f"peak {kind}") for kind in ("bytes", "tokens", "open")
        ]
        wanted = [case["lines"], *case["peaks"].split(" ")]
        if wanted != got:
            yield f"lines and peaks: wanted {wanted}, got {got}"


def for_each(call, tried):
    """What comes of each test case, in order; as many are tried at once as there are processors."""
    with ThreadPoolExecutor(os.cpu_count()) as pool:
        yield from zip(tried, pool.map(call, tried))


def try_cityseq(program):
    passed = failed = 0
    for case, wrong in for_each(lambda case: list(differences(program, case)), list(cases())):
        for difference in wrong:
            print(f"{case['name']}: {difference}")
        passed, failed = passed + (not wrong), failed + bool(wrong)
    print(f"{passed} passed, {failed} failed")
    return int(failed > 0)


def try_peer(command):
    usual = [
        case
        for case in cases()
        if case["query"] == "-" and (case["line limit"], case["depth"]) == ("1000", "64")
    ]
    differ = 0
    for case, (_, _, status) in for_each(lambda case: run(command, case["text"]), usual):
        valid = case["answer"] == "complete"
        if valid != (status == 0):
            differ += 1
            print(f"{case['name']}: {case['answer']} here, status {status} there")
    print(f"{len(usual)} vectors tried, {differ} told otherwise")
    return 0


if __name__ == "__main__":
    if len(sys.argv) == 3 and sys.argv[1] == "cityseq":
        sys.exit(try_cityseq(sys.argv[2]))
    if len(sys.argv) > 2 and sys.argv[1] == "peer":
        sys.exit(try_peer(sys.argv[2:]))
    sys.exit(__doc__)
