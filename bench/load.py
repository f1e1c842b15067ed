#!/usr/bin/env python3
"""Measures how long examples/load/load.py takes to load a stream into PostgreSQL.

    bench/run load [MEGABYTES [SHAPE [ROUNDS]]]      (100, usual and 3)

It compares that with the package's `check` by one thread, by the clock: the least and the median of
all rounds. The server is Debian's, in a folder of its own, without fsync. It needs the library
python/cityseq/libcityseq.so, and Debian's postgresql and python3-psycopg2.
"""
import sys
from functools import partial

from measure import (
    PACKAGE,
    ROOT,
    in_turn,
    least,
    machine,
    megabytes_of,
    middle,
    of_each,
    run,
    stream_of,
)

sys.path.insert(0, str(ROOT / "tools"))

import postgres  # noqa: E402


def main(megabytes="100", shape="usual", rounds="3"):
    if postgres.missing():
        sys.exit(postgres.missing())
    stream = stream_of(shape, megabytes)
    with postgres.server() as database:
        load = [sys.executable, ROOT / "examples/load/load.py", database, stream]
        check = [*PACKAGE, "check", "--jobs", "1", stream]
        checked, loaded = in_turn([partial(run, check), partial(run, load)], int(rounds))
    ratios, size = of_each(loaded, checked), megabytes_of(stream)
    print(
        f"{size:.0f} MB: {size / least(loaded).clock:.0f} MB/s; of check by one thread"
        f" {least(ratios).clock:.2f}, in the middle {middle(ratios).clock:.2f}; {machine()}"
    )


if __name__ == "__main__":
    main(*sys.argv[1:])
