"""Times commands, for the scripts of this folder.

A script runs cases in turn, since the speed of a machine changes from second to second. So a ratio
is of two runs of one round. Processor time hardly depends on what else the machine does.

PROGRAM names the built program, if it is another than the usual one."""
import os
import subprocess
import sys
import time
from pathlib import Path
from statistics import median
from typing import NamedTuple

BENCH = Path(__file__).resolve().parent
ROOT = BENCH.parent
OUT = BENCH / "out"
OUT.mkdir(exist_ok=True)
PROGRAM = os.path.realpath(os.environ.get("PROGRAM", ROOT / "crates/cityseq/out/cityseq"))
PACKAGE = [sys.executable, "-m", "cityseq"]
# An installed package is compiled already, so this one is compiled before it is timed.
SETTINGS = {
    **os.environ,
    "PYTHONPATH": str(ROOT / "python"),
    "PYTHONPYCACHEPREFIX": str(OUT / "compiled"),
}
SETTINGS.pop("PYTHONDONTWRITEBYTECODE", None)


class Run(NamedTuple):
    """What a command took, with all that it started: seconds by the clock, seconds of the
    processor, and MB of resident memory at the peak."""

    clock: float
    processor: float
    peak: float


def run(words, source=os.devnull, status=0, **more):
    """Runs a command over a file as its standard input, without its output. Ends with a message if
    the command has another status. The peak is not below that of this process."""
    settings = {"stdout": subprocess.DEVNULL, "env": SETTINGS, **more}
    with open(source, "rb") as given:
        begun = time.monotonic()
        child = subprocess.Popen(words, stdin=given, **settings)
        _, ended, used = os.wait4(child.pid, 0)
        taken = time.monotonic() - begun
    child.returncode = os.WEXITSTATUS(ended) if os.WIFEXITED(ended) else -os.WTERMSIG(ended)
    if child.returncode != status:
        sys.exit(f"{' '.join(map(str, words))}: status {child.returncode}")
    return Run(taken, used.ru_utime + used.ru_stime, used.ru_maxrss / 1024)


def in_turn(calls, rounds):
    """Makes each of some calls in each round. Returns the results of each."""
    found = [[] for _ in calls]
    for _ in range(rounds):
        for results, call in zip(found, calls):
            results.append(call())
    return found


def best(calls, rounds):
    """Returns the least seconds of the processor that each of some calls took."""
    return [min(one.processor for one in runs) for runs in in_turn(calls, rounds)]


def between(base, calls, rounds):
    """Makes each call between two calls of the base. Returns the runs of each, and their ratios to
    the mean of the two beside them."""
    runs, ratios = [[] for _ in calls], [[] for _ in calls]
    before = base()
    for _ in range(rounds):
        for place, call in enumerate(calls):
            one, after = call(), base()
            runs[place].append(one)
            ratios[place].append(
                Run(*(2 * each / (left + right) for each, left, right in zip(one, before, after)))
            )
            before = after
    return runs, ratios


def least(runs):
    """Returns the least of each quantity."""
    return Run(*map(min, zip(*runs)))


def middle(runs):
    """Returns the median of each quantity."""
    return Run(*map(median, zip(*runs)))


def of_each(ours, others):
    """Returns the ratios of runs to those of the same rounds."""
    return [Run(*(one / other for one, other in zip(*pair))) for pair in zip(ours, others)]


def made(path, write):
    """Returns the path of a file that is made once."""
    if not os.path.exists(path):
        with open(f"{path}.part", "wb") as file:
            write(file)
        os.rename(f"{path}.part", path)
    return str(path)


def stream_of(shape, megabytes):
    """Returns the path of a stream of this shape, made once."""
    words = [sys.executable, BENCH / "make_stream.py", shape, str(megabytes)]
    return made(
        OUT / f"parts-{shape}-{megabytes}.jsonl",
        lambda file: subprocess.run(words, stdout=file, check=True),
    )


def megabytes_of(path):
    """Returns the size of a file in MB."""
    return os.path.getsize(path) / 1e6


def machine():
    """Returns what else a figure depends on."""
    return f"{os.cpu_count()} processors, load {os.getloadavg()[0]:.1f}, {sys.executable}"


def chosen(cases, wanted):
    """Returns the cases that are named, or all. Ends with their names if there is no such case."""
    if not set(wanted) <= set(cases):
        sys.exit(f"the cases are: {'; '.join(cases)}")
    return {name: case for name, case in cases.items() if not wanted or name in wanted}
