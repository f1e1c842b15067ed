#!/usr/bin/env python3
"""Counts the words of the documents that somebody writes by hand.

    tools/words.py [--check]

The documents are README.md, docs/*.md and python/README.md, and apart from these the pages at the
top. A word is what `wc -w` counts. What a tool writes is counted apart: docs/CLAUSES.md, and what
is between `<!-- NAME: made by TOOL -->` and `<!-- NAME: end -->`, or between `<!-- figures` and
`<!-- figures end -->`. With --check the status is 1 if documents have more words than their goal.
"""

import argparse
import re
import sys
from pathlib import Path
from typing import Iterator, NamedTuple

ROOT = Path(__file__).resolve().parent.parent
MADE = {Path("docs/CLAUSES.md")}  # A tool writes all of it.
BLOCK = re.compile(
    r"^ *<!-- (?:figures(?! end)|\w+: made by)(?:(?! -->)[\s\S])*? -->\n"
    r"[\s\S]*?^ *<!-- (?:figures|\w+:) end -->$",
    re.M,
)
TOP = "CHANGELOG.md", "CONTRIBUTING.md", "SECURITY.md"
TOTAL = 21_800  # words by hand in README.md, docs/*.md and python/README.md


class Goal(NamedTuple):
    """The most words by hand that some documents may have together.

    Attributes:
        words: how many.
        names: the documents.
    """

    words: int
    names: tuple[str, ...]


REFERENCE = "docs/geopackage.md", "docs/json.md", "docs/VERSIONS.md"
GOALS = (
    Goal(600, ("README.md",)),
    Goal(4_500, ("docs/GUIDE.md",)),
    Goal(5_000, ("docs/RULES.md",)),
    Goal(900, ("docs/PROMISES.md",)),
    Goal(1_000, ("docs/PROOF.md",)),
    Goal(2_500, ("docs/DECISIONS.md",)),
    Goal(800, ("docs/MEASURED.md",)),
    Goal(300, ("docs/STATUS.md",)),
    Goal(3_500, ("docs/ARCHITECTURE.md", "docs/HACKING.md", "CONTRIBUTING.md")),
    Goal(4_500, (*REFERENCE, "CHANGELOG.md", "SECURITY.md", "python/README.md")),
)


class Count(NamedTuple):
    """The words of a document.

    Attributes:
        name: its path in the repository.
        by_hand: those that somebody writes.
        made: those that a tool writes.
    """

    name: str
    by_hand: int
    made: int


def count_of(name: str, text: str) -> Count:
    """Returns the words of a document with this text."""
    words = len(text.split())
    by_hand = 0 if Path(name) in MADE else len(BLOCK.sub("", text).split())
    return Count(name, by_hand, words - by_hand)


def counts(root: Path = ROOT) -> Iterator[Count]:
    """Yields the words of each document that the total is of, and then of the pages at the top."""
    paths = [root / "README.md", *sorted(root.glob("docs/*.md")), root / "python/README.md"]
    for path in [*paths, *(root / name for name in TOP)]:
        name = path.relative_to(root).as_posix()
        yield count_of(name, path.read_text(encoding="utf-8"))


def total_of(found: list[Count]) -> Count:
    """Returns the sums of the documents that the total is of."""
    parts = [each for each in found if each.name not in TOP]
    by_hand, made = sum(each.by_hand for each in parts), sum(each.made for each in parts)
    return Count("all of these", by_hand, made)


def too_long(found: list[Count]) -> Iterator[str]:
    """Yields a line about each goal that is missed."""
    by_name = {each.name: each.by_hand for each in found}
    for goal in GOALS:
        words = sum(by_name.get(name, 0) for name in goal.names)
        if words > goal.words:
            yield f"{', '.join(goal.names)}: {words} words, and the goal is {goal.words}"
    if (total := total_of(found).by_hand) > TOTAL:
        yield f"the documents have {total} words, and the goal is {TOTAL}"


def main() -> int:
    """Runs the command. Returns its status."""
    parser = argparse.ArgumentParser(description=(__doc__ or "").partition("\n")[0])
    parser.add_argument("--check", action="store_true", help="compare with the goals")
    chosen = parser.parse_args()
    found = list(counts())
    if chosen.check:
        missed = list(too_long(found))
        print(*missed, sep="\n", end="\n" * bool(missed), file=sys.stderr)
        return 1 if missed else 0
    first_at_top = len(found) - len(TOP)
    print(f"{'by hand':>8}{'made':>8}")
    for each in [*found[:first_at_top], total_of(found), *found[first_at_top:]]:
        print(f"{each.by_hand:8,}{each.made:8,}  {each.name}")
    return 0


if __name__ == "__main__":
    sys.exit(main())
