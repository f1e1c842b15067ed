"""Prints how long a check took for each function and each file of lemmas of a crate, in seconds.

    module_times.py FOLDER [FOLDER]

FOLDER is the one that a check with an empty `--incremental` folder and `--jobs 1` filled. Such a
check writes a file for each module as soon as it has checked it. So the time between two files is
that of the second one's module, and of loading what it is the first to import. With two folders,
the table has both, and where they differ most comes first.
"""

import os
import re
import sys
from collections import Counter

GENERATED = {"Answers", "Borrows", "Goals", "Invariants", "Kinds", "Lts", "Proof", "Tie", "decls"}
ROWS = 40


def module_of(name):
    """The function or the file of lemmas that a module belongs to; all of `specs/` is one."""
    found = re.fullmatch(r"Rattle-\w+-proofs\.(.*)\.oantt", name)
    if not found:
        return "specs"
    parts = found[1].split(".")
    while len(parts) > 1 and parts[-1] in GENERATED:
        parts.pop()
    return ".".join(parts)


def times(folder):
    """The seconds of each module, from the times of the files."""
    files = []
    for above, _, names in os.walk(folder):
        files += [(os.stat(f"{above}/{name}").st_mtime_ns, name) for name in names]
    files.sort()
    spent = Counter()
    for (before, _), (after, name) in zip(files, files[1:]):
        spent[module_of(name)] += (after - before) / 1e9
    return spent


def main(folder, other=None):
    first, second = times(folder), times(other) if other else Counter()
    shown = [(first[it], second[it], it) for it in first.keys() | second.keys()]
    shown.sort(key=lambda row: abs(row[1] - row[0]), reverse=True)
    totals = sum(first.values()), sum(second.values()), "all"
    for before, after, module in [totals] + shown[:ROWS]:
        print(f"{before:9.2f} {after:9.2f}  {module}" if other else f"{before:9.2f}  {module}")


if __name__ == "__main__":
    if len(sys.argv) not in (2, 3):
        sys.exit(__doc__)
    main(*sys.argv[1:])
