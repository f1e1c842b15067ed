#!/usr/bin/env python3
"""Looks whether the crates of Rust that were ported to Rattle do the work that they are here for.

    tests/docs/crates.py [FOLDER]     (with no folder, in this repository)

For each of them crates.txt has to name it beside the crate that uses it, and a source of that crate
has to import it and call it. It prints what is missing, and the status is 0 if nothing is."""
import re
import sys
from pathlib import Path
from typing import Dict, Iterator, List, NamedTuple


class Use(NamedTuple):
    """A ported crate, the crate and the source that use it, and how the call begins."""

    ported: str
    crate: str
    source: str
    call: str


USES = (
    Use("memchr", "cj_stream", "line_splitter.rt", "memchr(b'\\n', "),
    Use("simdutf8", "cj_spans", "utf8.rt", "from_utf8("),
    Use("smallvec", "cj_budget", "stack.rt", "places: SmallVec<u32, INLINE>,"),
    Use("itoa", "cityseq_command", "summary.rt", ".format("),
    Use("thiserror", "cj_budget", "growth.rt", "PartialEq, Eq, Error)]"),
    Use("clap", "cityseq_command", "words.rt", "try_get_matches_from("),
)


def named_in(table: str) -> Dict[str, List[str]]:
    """Returns for each crate of crates.txt what it stands on."""
    rows = (line.partition("#")[0].partition(":") for line in table.splitlines())
    return {left.split()[0]: right.split() for left, colon, right in rows if colon}


def missing(use: Use, named: Dict[str, List[str]], source: str) -> Iterator[str]:
    """Yields what is missing of a use."""
    if use.ported not in named.get(use.crate, []):
        yield "is not in crates.txt"
    if not re.search(rf"^use {use.ported}::", source, re.MULTILINE):
        yield "is not imported"
    if use.call not in source:
        yield f"is not used: {use.call}"


def main(folder: Path) -> bool:
    """Prints what is missing, and returns whether nothing is."""
    named = named_in((folder / "crates.txt").read_text("utf-8"))
    complete = True
    for use in USES:
        path = folder / "crates" / use.crate / "src" / use.source
        for fault in missing(use, named, path.read_text("utf-8")):
            print(f"{use.crate}/src/{use.source}: {use.ported} {fault}")
            complete = False
    return complete


if __name__ == "__main__":
    here = Path(__file__).resolve().parent.parent.parent
    sys.exit(0 if main(Path(sys.argv[1]) if len(sys.argv) > 1 else here) else 1)
