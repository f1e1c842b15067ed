"""Makes the report about a delivery: judges the files, writes the page, and all reports next to it
in two files, for spreadsheets and for programs. A run without a page does not load what only a page
needs."""
from __future__ import annotations

import csv
import importlib
import io
import json
import logging
import os
import re
import time
from collections.abc import Callable, Iterable, Sequence
from contextlib import closing
from dataclasses import dataclass
from typing import TYPE_CHECKING

from .. import __version__
from ..cli.json_output import report_object
from ..engine import CityseqError, RequestError, WriteFault, shortened, shown
from ..engine.judge import Work
from ..engine.reports import Report
from ..indexes.index_run import Hashes, by_threads
from ..run import Result, number_of_jobs
from ..sources import is_path, part_of, refuse_same, size_of
from ..sources.outputs import Writer
from ..sources.parts import regular_paths
from ..sources.regular import sha256_of, time_now
from .facts import Delivery, Run

if TYPE_CHECKING:
    from ..foreign import Package
    from ..sources import AnyPath

PACKAGES = {
    "jinja2": "python3-jinja2",
    "numpy": "python3-numpy",
    "matplotlib": "python3-matplotlib",
}
COLUMNS = ("file", "line", "byte", "code", "reason", "feature", "hint", "excerpt", "fix")
SIGNS = "=+-@\uff1d\uff0b\uff0d\uff20"  # a spreadsheet may compute a cell that begins with them
FORMULAS = (*SIGNS, "\t", "\r")
# In many countries `;` separates the cells. It does so within quotes too, as `,` does not begin a
# cell there. A quote that follows it begins a quoted cell.
LATER_CELL = re.compile(rf'([;\t]"*)(?=[{re.escape(SIGNS)}])')
LONGEST = 1_000  # characters of an id in a cell; JSON has all
TOGETHER = 1 << 16  # characters of one write
MARK = "\ufeff"  # marks UTF-8 for spreadsheets
HASHES = 2  # files that are hashed at once


class PackageMissing(CityseqError, ImportError):
    """A package that a page needs is missing."""


def needed(name: str) -> Package:
    """Returns a module of a package that a page needs.

    Raises:
        PackageMissing: The package is missing, or cannot be loaded.
    """
    package = name.partition(".")[0]
    if package == "matplotlib":
        # it warns on standard error if it can keep no list of fonts in the home folder
        logger = logging.getLogger("matplotlib")
        if logger.level == logging.NOTSET:
            logger.setLevel(logging.ERROR)
    try:
        return importlib.import_module(name)
    except ImportError as fault:
        raise PackageMissing(
            f"a report needs the package {package}, which is missing: install {PACKAGES[package]}"
            " by apt, or cityseq[report] by pip"
        ) from fault


def need_all() -> None:
    """Loads all of them, before anything is read.

    Raises:
        PackageMissing: One of them is missing.
    """
    for name in PACKAGES:
        needed(name)


def names_of_lists(page: str) -> tuple[str, str]:
    """Returns the names of the CSV file and of the JSON lines next to a page."""
    stem, suffix = os.path.splitext(page)
    start = stem if suffix.lower() in (".html", ".htm") else page
    return f"{start}.reports.csv", f"{start}.reports.jsonl"


def cell(text: str) -> str:
    """Returns a text as a cell, on one line. No spreadsheet takes it for a formula, or a part of it
    if another sign separates cells there."""
    told = LATER_CELL.sub(r"\1'", shown(shortened(text, LONGEST)))
    return f"'{told}" if text.startswith(FORMULAS) or told.startswith(FORMULAS) else told


def row_of(report: Report) -> list[str | int]:
    """Returns the cells of a report, in the order of the columns."""
    return [
        cell(report.file),
        report.line,
        report.byte,
        report.code,
        report.text,
        cell(report.id or ""),
        cell(report.met or ""),
        cell(report.excerpt),
        cell(report.explanation.fix),
    ]


class Lists:
    """Writes both files. Each is renamed when it is whole."""

    def __init__(self, page: str) -> None:
        """Takes the name of the page. It opens no file."""
        self.names = names_of_lists(page)
        self._csv, self._json = (Writer(name) for name in self.names)
        self._rows, self._lines = io.StringIO(newline=""), io.StringIO()
        self._rows.write(MARK)
        self._writer = csv.writer(self._rows)
        self._writer.writerow(COLUMNS)

    def open(self) -> None:
        """Opens both files, so that a folder that cannot be written to is reported at once.

        Raises:
            WriteFault: One cannot be opened.
        """
        self._csv.write(b"")
        self._json.write(b"")

    def add(self, report: Report) -> None:
        """Writes a report.

        Raises:
            WriteFault: It cannot be written.
        """
        self._writer.writerow(row_of(report))
        self._lines.write(f"{json.dumps(report_object(report))}\n")
        if self._lines.tell() >= TOGETHER:
            self._flush()

    def _flush(self) -> None:
        for writer, held in ((self._csv, self._rows), (self._json, self._lines)):
            writer.write(held.getvalue().encode("utf-8"))
            held.seek(0)
            held.truncate()

    def close(self) -> None:
        """Writes the rest, and gives both files their names.

        Raises:
            WriteFault: They cannot be written.
        """
        self._flush()
        self._csv.close(True)
        self._json.close(True)

    def discard(self) -> None:
        """Removes files that are not whole."""
        self._csv.discard()
        self._json.discard()


@dataclass
class How:
    """How a page is made.

    Attributes:
        jobs: How many threads judge. None is one for each processor.
        size: How many bytes a part has. None is 512 KiB.
        title: The heading of the page.
        words: What the page says about how it was made.
        progress: Is called with a file, and how many bytes of it were done since the call before.
        take: Is called with the result of each file.
        whole: Whether the files are whole CityJSON files. None: their names say it.
    """

    jobs: int | None = None
    size: int | None = None
    title: str | None = None
    words: str = "cityseq.report"
    progress: Callable[[str, int], None] | None = None
    take: Callable[[Result], None] = lambda result: None
    whole: bool | None = None


def of_bytes(progress: Callable[[int], None]) -> Callable[[str, int], None]:
    """Returns a function of a file and a number of bytes, which passes on only the bytes."""
    return lambda _, size: progress(size)


def checked(
    paths: bytes | AnyPath | Iterable[object], output: object
) -> tuple[list[str], str | None]:
    """Returns the paths of the files and of the page.

    Raises:
        RequestError: No path is given. One is not a path, or is that of a device or a pipe.
    """
    named = regular_paths(paths, "a report is about")
    if not named:
        raise RequestError("no file is given that a report can be about")
    if output is None:
        return named, None
    if not is_path(output) or part_of(os.fsdecode(output)) is None:
        raise RequestError(f"a report is written to a regular file: {output!r} is none")
    return named, os.fsdecode(output)


class _Output(Lists):
    """The page, and the lists next to it."""

    def __init__(self, names: Sequence[str], page: str) -> None:
        refuse_same(names, [page, *names_of_lists(page)])
        super().__init__(page)
        self._page = Writer(page)

    def open(self) -> None:
        """Opens all files. An interrupt may come at once, so who calls it must call `discard`."""
        super().open()
        self._page.write(b"")

    def finish(self, delivery: Delivery) -> None:
        """Writes the page, and gives all files their names.

        Raises:
            WriteFault: They cannot be written.
        """
        from .page import html

        self._page.write(html(delivery).encode("utf-8"))
        self.close()
        self._page.close(True)

    def discard(self) -> None:
        super().discard()
        self._page.discard()


def report(
    paths: bytes | AnyPath | Iterable[object], output: object, work: Work, how: How
) -> Delivery:
    """Writes a page about files. Paths and output are those of `cityseq.report`."""
    names, page = checked(paths, output)
    needed("numpy") if page is None else need_all()
    jobs = number_of_jobs(how.jobs)
    rules = work.line_limit, work.depth, work.tree, work.extensions
    run = Run(__version__, how.words, time_now(), 0.0, jobs, *rules)
    delivery = Delivery(how.title or _title(page), run)
    made = None if page is None else _Output(names, page)
    try:
        if made is not None:
            made.open()
        _survey(delivery, names, work, how, made)
        if made is not None:
            delivery.report_files = tuple(map(os.path.basename, made.names))
            made.finish(delivery)
        return delivery
    finally:
        if made is not None:
            made.discard()


def _survey(
    delivery: Delivery, names: Sequence[str], work: Work, how: How, lists: Lists | None
) -> None:
    """Judges the files, and fills the facts of a delivery."""
    from .survey import Survey, Surveyed

    clock = time.monotonic()
    with Survey(names, lists) as survey, Hashes(HASHES, sha256_of) as hashes:
        sums = [hashes.submit(name) for name in names]
        surveyed = (Surveyed(number, name, work, survey, how) for number, name in enumerate(names))
        for file in survey.files:
            file.size = _size(file.name)
        with closing(by_threads(surveyed, how.jobs)) as results:
            for result in results:
                if isinstance(result.raises, WriteFault):
                    raise result.raises
                how.take(result)
        for number, file in enumerate(survey.files):
            file.sha256 = sums[number].result()
        delivery.files, delivery.areas = survey.files, survey.areas()
        delivery.reasons, delivery.reports = survey.reasons.listed(), survey.reports
        delivery.repeated = survey.repeated()
    delivery.run.seconds = time.monotonic() - clock


def _size(name: str) -> int | None:
    try:
        return size_of(name)
    except OSError:
        return None


def _title(page: str | None) -> str:
    return os.path.splitext(os.path.basename(page))[0] if page else "delivery"
