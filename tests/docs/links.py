#!/usr/bin/env python3
"""Checks the documents of the repository: links, table cells and sentences.

    tests/docs/links.py [--help]

Every relative link and image of a Markdown file names a file or folder that exists, and its anchor
a heading of that file. No table cell has more than 160 characters. No sentence of the documents for
users has more than 40 words.

Addresses of the web are not visited. Code between backticks and blocks of code are not read. Each
link, cell and sentence counts. One that fails is printed with its file and line. The last line is
'N passed, M failed', and the status is 0 if none failed.
"""

from __future__ import annotations

import argparse
import os
import re
import sys
from collections.abc import Iterator
from dataclasses import dataclass, field
from functools import cache
from pathlib import Path
from typing import NamedTuple
from urllib.parse import unquote

ROOT = Path(__file__).resolve().parent.parent.parent

LONGEST_CELL = 160  # characters
LONGEST_SENTENCE = 40  # words

# Documents whose sentences are measured.
FOR_USERS = ("README.md", "CONTRIBUTING.md", "docs/GUIDE.md", "python/README.md")

# Folders that builds leave, without documents of the repository. Hidden folders have none either.
PASSED_OVER = ("out", "target", "build", "dist", "venv", "node_modules", "__pycache__")

TARGET = re.compile(r"\]\(\s*<?([^()\s<>]+)>?(?:\s+\"[^\"]*\")?\s*\)")
DEFINITION = re.compile(r"^ {0,3}\[[^\]]+\]:\s*<?([^\s<>]+)>?", re.MULTILINE)
ATTRIBUTE = re.compile(r"\b(?:href|src)=\"([^\"]+)\"")
NAMED = re.compile(r"<a\s+(?:id|name)=\"([^\"]+)\"")
HEADING = re.compile(r"^ {0,3}#{1,6}\s+(.*?)\s*#*\s*$", re.MULTILINE)
OUTSIDE = re.compile(r"[a-z][a-z0-9+.-]*:|//", re.IGNORECASE)
FENCE = re.compile(r"\s*(`{3,}|~{3,})")
CELL_BORDER = re.compile(r"(?<!\\)\|")
RULE_CELL = re.compile(r"[-: ]*")
ITEM = re.compile(r"\s*(?:[-*+]|\d+\.)\s+")
SENTENCE_END = re.compile(r"(?<=[.!?])[)\"'*]*\s+(?=[A-Z0-9`*(\"'\[])")
WORD = re.compile(r"[A-Za-z0-9'’_-]+")


class Text(NamedTuple):
    """Some text of a document, and the number of the line where it begins, from 1."""

    line: int
    text: str


@dataclass
class Report:
    """What was checked."""

    passed: int = 0
    failures: list[str] = field(default_factory=list)

    def count(self, is_right: bool, place: str, fault: str) -> None:
        """Counts a check, and keeps the fault if it failed."""
        if is_right:
            self.passed += 1
        else:
            self.failures.append(f"{place}: {fault}")


def documents() -> list[Path]:
    """Returns the Markdown files of the repository, in order."""
    found: list[Path] = []
    for folder, inner, files in os.walk(ROOT):
        inner[:] = [name for name in inner if name not in PASSED_OVER and not name.startswith(".")]
        found += [Path(folder, name) for name in files if name.endswith(".md")]
    return sorted(found)


def name_of(document: Path) -> str:
    """Returns the path of a document from the top of the repository."""
    return document.relative_to(ROOT).as_posix()


@cache
def prose_of(document: Path) -> str:
    """Returns the text of a document with blocks of code as empty lines."""
    lines: list[str] = []
    fence = ""
    may_be_code = True  # after an empty line, or in a block of indented code
    for line in document.read_text(encoding="utf-8").split("\n"):
        mark = FENCE.match(line)
        if fence or mark:
            if mark and not fence:
                fence = mark[1]
            elif mark and mark[1].startswith(fence):
                fence = ""
            line = ""
        elif may_be_code and line.startswith("    ") and not ITEM.match(line):
            line = ""
        else:
            may_be_code = not line.strip()
        lines.append(line)
    return "\n".join(lines)


def without_code(text: str) -> str:
    """Returns a text with what is between backticks taken out, as many lines as before."""
    return re.sub(r"(`+).+?\1", lambda found: "\n" * found[0].count("\n"), text, flags=re.DOTALL)


def anchor_of(heading: str) -> str:
    """Returns the anchor of a heading: small letters, hyphens for spaces, no other signs."""
    shown = re.sub(r"!?\[([^\]]*)\]\([^)]*\)", r"\1", heading)
    return re.sub(r"[^\w\- ]", "", shown.lower()).replace(" ", "-")


@cache
def anchors_of(document: Path) -> frozenset[str]:
    """Returns the anchors of a document. A heading that comes again gets a number."""
    prose = prose_of(document)
    anchors = set(NAMED.findall(prose))
    times: dict[str, int] = {}
    for heading in HEADING.findall(prose):
        anchor = anchor_of(heading)
        anchors.add(f"{anchor}-{times[anchor]}" if anchor in times else anchor)
        times[anchor] = times.get(anchor, 0) + 1
    return frozenset(anchors)


def fault_of_link(document: Path, target: str) -> str | None:
    """Returns what is wrong with a relative link of a document, or None."""
    path, _, anchor = target.partition("#")
    linked = (document.parent / unquote(path)).resolve() if path else document
    if not linked.is_relative_to(ROOT):
        return f"{target} leaves the repository"
    if not linked.exists():
        return f"{target} is not there"
    if not anchor:
        return None
    if linked.suffix != ".md":
        return f"{target}: only a Markdown file has anchors"
    if unquote(anchor) not in anchors_of(linked):
        return f"{target}: no heading has this anchor"
    return None


def check_links(document: Path, report: Report) -> None:
    """Checks the relative links of a document."""
    prose = without_code(prose_of(document))
    for pattern in (TARGET, DEFINITION, ATTRIBUTE):
        for found in pattern.finditer(prose):
            target = found[1]
            if OUTSIDE.match(target):
                continue
            fault = fault_of_link(document, target)
            line = prose.count("\n", 0, found.start(1)) + 1
            report.count(fault is None, f"{name_of(document)}:{line}", fault or "")


def cells_of(document: Path) -> Iterator[Text]:
    """Yields the cells of the tables of a document, without the lines below their heads."""
    for number, line in enumerate(prose_of(document).split("\n"), 1):
        row = line.strip()
        if row.startswith("|"):
            for cell in CELL_BORDER.split(row.strip("|")):
                if not RULE_CELL.fullmatch(cell):
                    yield Text(number, cell.strip())


def paragraphs_of(document: Path) -> Iterator[Text]:
    """Yields the paragraphs and the items of lists of a document, each in one line."""
    start, lines = 0, list[str]()
    for number, line in enumerate(prose_of(document).split("\n") + [""], 1):
        text = line.strip()
        is_apart = not text or text.startswith(("|", "#", "<"))
        if lines and (is_apart or ITEM.match(line)):
            yield Text(start, " ".join(lines))
            lines = []
        if not is_apart:
            start = start if lines else number
            lines.append(ITEM.sub("", line).strip())


def sentences_of(document: Path) -> Iterator[Text]:
    """Yields the sentences of a document. Code is one word, the address of a link none."""
    for paragraph in paragraphs_of(document):
        text = re.sub(r"(`+).+?\1", "code", paragraph.text)
        text = re.sub(r"\]\([^()]*\)", "]", text)
        for sentence in SENTENCE_END.split(text):
            yield Text(paragraph.line, sentence)


def check_cells(document: Path, report: Report) -> None:
    """Checks that the cells of a document are short."""
    for cell in cells_of(document):
        length = len(cell.text)
        fault = f"a cell has {length} characters: {cell.text[:60]}.."
        report.count(length <= LONGEST_CELL, f"{name_of(document)}:{cell.line}", fault)


def check_sentences(document: Path, report: Report) -> None:
    """Checks that the sentences of a document are short."""
    for sentence in sentences_of(document):
        words = len(WORD.findall(sentence.text))
        fault = f"a sentence has {words} words: {sentence.text[:60]}.."
        report.count(words <= LONGEST_SENTENCE, f"{name_of(document)}:{sentence.line}", fault)


def check_document(document: Path, report: Report) -> None:
    """Checks the links of a document, its cells, and if it is for users its sentences."""
    name = name_of(document)
    check_links(document, report)
    check_cells(document, report)
    if name in FOR_USERS:
        check_sentences(document, report)


def main() -> int:
    """Checks all documents, and returns the status."""
    parser = argparse.ArgumentParser(
        description=__doc__, formatter_class=argparse.RawDescriptionHelpFormatter
    )
    parser.parse_args()
    report = Report()
    for document in documents():
        check_document(document, report)
    for failure in report.failures:
        print(failure)
    print(f"{report.passed} passed, {len(report.failures)} failed")
    return 1 if report.failures else 0


if __name__ == "__main__":
    sys.exit(main())
