#!/usr/bin/env python3
"""Runs the program with each of its calls failing in turn, and with each vector cut in two at every place.

    python3 tests/faults/failing_calls.py [PROGRAM]

A read that fails ends as a read fault, one that is interrupted too; a write that fails or takes nothing as a write fault; and what
was written until then is a front of the output. A standard error that fails changes no status. However a stream is cut, by single
bytes and in two at each place, its answer is the same. It needs a C compiler, for the calls that fail, and takes a minute or two on
four cores. The last line is 'N passed, M failed', and the status is 0 where all passed."""
import errno
import multiprocessing
import os
import subprocess
import sys
import tempfile

HERE = os.path.dirname(os.path.abspath(__file__))
TOP = os.path.dirname(os.path.dirname(HERE))
sys.path.insert(0, os.path.join(TOP, "vectors"))
from table import cases, run, wanted_of  # noqa: E402

READ_FAULT, WRITE_FAULT = 3, 4


class Calls:
    """The program with calls that fail or give less, as tests/faults/failing_calls.c has it."""

    def __init__(self, program, scratch):
        self.program = program
        self.library = os.path.join(scratch, "failing_calls.so")
        self.counted = os.path.join(scratch, "counted")
        source = os.path.join(HERE, "failing_calls.c")
        subprocess.run(
            ["cc", "-O1", "-shared", "-fPIC", "-o", self.library, source, "-ldl"], check=True
        )

    def run(self, words, text, **calls):
        """What is written, said and answered where the calls do this."""
        environment = {
            "LD_PRELOAD": self.library,
            **{name: str(value) for name, value in calls.items()},
        }
        return run([self.program, *words], text, environment)

    def count(self, words, text, **calls):
        """How many reads, writes and writes of the standard error there are."""
        self.run(words, text, COUNTED=self.counted, **calls)
        with open(self.counted, encoding="ascii") as counts:
            return [int(count) for count in counts.read().split()]


def words_of(case):
    """The command line of a vector."""
    query = [] if case["query"] == "-" else case["query"].split(" ")
    return ["filter", "--line-limit", case["line limit"], "--depth", case["depth"], *query]


def cut_trials(calls, case):
    """A vector by single bytes, and cut in two at every place."""
    wanted, words = wanted_of(case), words_of(case)
    for asked in [{"READ_SIZE": 1}, *({"CUT": place} for place in range(1, len(case["text"])))]:
        yield f"{case['name']} {asked}", lambda asked=asked: calls.run(
            words, case["text"], **asked
        ) == wanted


def report_trials(calls, case):
    """What is told of a complete stream, by single bytes."""
    if case["answer"] == "complete" and case["query"] == "-":
        words = ["info", *words_of(case)[1:]]
        whole = run([calls.program, *words], case["text"])
        yield f"{case['name']} info", lambda: calls.run(words, case["text"], READ_SIZE=1) == whole


def read_trials(calls, words, text, wanted):
    """Each read fails in turn, or is interrupted, where reads give 7 bytes."""
    reads = calls.count(words, text, READ_SIZE=7)[0]
    for number in range(1, reads + 1):
        for error in (errno.EIO, errno.EINTR):

            def is_right(number=number, error=error):
                written, said, status = calls.run(
                    words, text, READ_SIZE=7, READ_FAILS=number, READ_ERROR=error
                )
                return wanted.startswith(written) and (said, status) == (
                    b"read fault\n",
                    READ_FAULT,
                )

            yield f"{words} read {number} error {error}", is_right


def write_trials(calls, words, text, wanted):
    """Writes take a byte each, or none, and each fails in turn."""
    yield f"{words} single bytes", lambda: calls.run(words, text, WRITE_SIZE=1) == (wanted, b"", 0)
    yield f"{words} no bytes", lambda: calls.run(words, text, WRITE_SIZE=0) == (
        b"",
        b"write fault\n",
        WRITE_FAULT,
    )
    for number in range(1, len(wanted) + 1):

        def is_right(number=number):
            return calls.run(words, text, WRITE_SIZE=1, WRITE_FAILS=number) == (
                wanted[: number - 1],
                b"write fault\n",
                WRITE_FAULT,
            )

        yield f"{words} write {number}", is_right


def error_trials(calls, words, text, **asked):
    """A standard error that fails changes neither what is written nor the status."""
    written, _, status = calls.run(words, text, **asked)
    yield f"{words} {asked} error", lambda: calls.run(words, text, ERROR_FAILS=1, **asked) == (
        written,
        b"",
        status,
    )


def failing_trials(calls, cases_by_name):
    """The calls of each command that fail, over a small stream."""
    text = cases_by_name["blank-and-no-last-lf"]["text"]
    for words in (["check"], ["filter"], ["filter", "--bbox", "1,2,3,4"], ["info"]):
        wanted = run([calls.program, *words], text)[0]
        yield from read_trials(calls, words, text, wanted)
        yield from write_trials(calls, words, text, wanted)
        yield from error_trials(calls, words, text, READ_FAILS=1)
        yield from error_trials(calls, words, text, WRITE_SIZE=0)
        yield from error_trials(calls, words, text[:-2])
    yield from error_trials(calls, ["filter", "--bbox", "1"], text)


# What is to be tried: each with its name, and a function that tells whether it comes out right. Workers have them by a fork.
TRIALS = []


def passes(number):
    name, is_right = TRIALS[number]
    right = is_right()
    if not right:
        print(f"failed: {name}", flush=True)
    return right


def main(program):
    with tempfile.TemporaryDirectory() as scratch:
        calls, table = Calls(program, scratch), {case["name"]: case for case in cases()}
        TRIALS.extend(failing_trials(calls, table))
        for case in table.values():
            TRIALS.extend([*cut_trials(calls, case), *report_trials(calls, case)])
        with multiprocessing.get_context("fork").Pool() as pool:
            passed = sum(pool.imap_unordered(passes, range(len(TRIALS)), chunksize=64))
    print(f"{passed} passed, {len(TRIALS) - passed} failed")
    return int(passed < len(TRIALS))


if __name__ == "__main__":
    sys.exit(
        main(
            os.path.abspath(
                sys.argv[1]
                if len(sys.argv) > 1
                else os.path.join(TOP, "crates/cityseq/out/cityseq")
            )
        )
    )
