"""Runs over streams: threads judge their chunks, and the answers are joined in order.

A chunk is a part of a stream that is in memory. At most `jobs` chunks of a plain file are, and at
most `jobs` + 3 of any other source. `filter` also holds the output of up to `jobs` + 3 chunks. A
chunk has about 4 MiB. It is longer if its first line is, or if the header has more than 1 MiB. No
line is held beyond the line limit.

The library prepares the ids of a query for each chunk. So chunks have up to 16 MiB for up to 256 KB
of ids. Of more ids, Python passes on those that may be in the chunk. If its lines are sorted by
their ids, these lie between the first and the last one. Otherwise Python reads the id of each line.
A list of ids takes about five times its length, and each id up to 130 bytes more if they differ in
length, or if the lines are not sorted.

Each thread has a stack of 4 MiB. If the system refuses one, the run goes on with fewer. The thread
that judges a chunk of a regular file also reads it, in steps of 512 KiB: a step is still in the
processor's cache when it is judged. The thread that calls the package reads pipes and sockets.

Reports come when a chunk is full, or at the end. From a pipe they come after 50 ms in which nothing
arrives.
"""
from __future__ import annotations

import os
from collections.abc import Callable, Iterable, Iterator
from contextlib import contextmanager
from dataclasses import dataclass, field, fields
from importlib import import_module
from typing import TYPE_CHECKING, Protocol

from ..engine import (
    CallStatus,
    CityseqError,
    InvalidStream,
    MemoryFault,
    ReadFault,
    RequestError,
    Status,
    WriteFault,
)
from ..engine.judge import Answer, Limits, Options, Query, Work
from ..sources import CHANGED, size_of

if TYPE_CHECKING:
    from decimal import Decimal

    from ..engine.records import Range, Tally
    from ..engine.reports import Report
    from ..engine.world import Extent
    from ..foreign import Package
    from ..sources.outputs import Writer


Tell = Callable[["Report"], None]
Progress = Callable[[int], None]
Take = Callable[[Answer, int], None]  # gets an answer, and how many lines came after the header


@dataclass
class Result:
    """The result for a stream. It is true if the whole stream is valid.

    Attributes:
        file: The name of the source.
        status: As the program's: 0 valid, 1 a line is invalid, 3 to 5 a fault.
        lines: The lines up to the end, with blank ones and the header.
        features: The features that are kept.
        refused: The invalid lines that the run went on after.
        peak_bytes: The most bytes of lines that were in memory.
        peak_tokens: The most tokens that were in memory.
        peak_depth: The most arrays and objects that were open at once.
        end: The report that ended the run, if one did.
        reports: The reports in order: the first, or with `keep_going` all.
        fault: The fault that ended the run, in words, if one did.
        hints: What the file may be, if it is not a stream.
        fault_file: The file of the fault, if it is not the stream's.
        raises: The fault as an exception.
    """

    file: str
    status: Status
    lines: int
    features: int
    refused: int
    peak_bytes: int
    peak_tokens: int
    peak_depth: int
    end: Report | None = None
    reports: list[Report] = field(default_factory=list)
    fault: str | None = None
    hints: list[str] = field(default_factory=list)
    fault_file: str | None = None
    raises: CityseqError | None = field(default=None, repr=False, compare=False)

    def __repr__(self) -> str:
        """Returns the fields that are not empty, and how many reports there are."""
        values = {each.name: getattr(self, each.name) for each in fields(self) if each.repr}
        values["end"], values["reports"] = self.end and str(self.end), len(self.reports)
        shown = [f"{name}={value!r}" for name, value in values.items() if value or value == 0]
        return f"{type(self).__name__}({', '.join(shown)})"

    def __bool__(self) -> bool:
        return self.valid

    @property
    def valid(self) -> bool:
        """Whether the whole stream is valid."""
        return self.status == Status.VALID

    def fail(self, fault: CityseqError) -> None:
        """Takes the fault that ended the run."""
        self.status, self.fault, self.fault_file = fault.status, fault.words, fault.file
        self.raises = fault

    def raised(self) -> Result:
        """Returns the same. Raises the fault that ended the run, if one did, with this result. A
        whole file that cannot be split is a verdict, and no such fault."""
        if self.raises is not None and not isinstance(self.raises, InvalidStream):
            self.raises.result = self
            raise self.raises
        return self

    def raised_if_invalid(self, keep_going: bool) -> Result:
        """Returns the same. Raises `InvalidStream` too if the stream is invalid. A run that goes on
        after invalid lines raises it only for an invalid header."""
        self.raised()
        if self.status == Status.INVALID and (self.end is not None or not keep_going):
            raise InvalidStream(str(self.end), self, self.file)
        return self


@dataclass(repr=False)
class Info(Result):
    """The summary of a valid stream. All is empty if the stream is invalid.

    Attributes:
        scale: The scale of the header's transform.
        translate: The translation of the header's transform.
        types: City objects by type.
        classes: Geometries by the class of their LoD: "0" to "4", and "other".
        x: The least and the greatest x of all vertices, as the features have them.
        y: The same for y.
        z: The same for z.
        box: The box around all vertices in world coordinates, as `filter` takes it.
        lods: Features by the text of an LoD. None if they were not counted, or were too many.
        unasked: Texts that may be LoDs, and that no query can ask for.
    """

    scale: list[Decimal] = field(default_factory=list)
    translate: list[Decimal] = field(default_factory=list)
    types: dict[str, int] = field(default_factory=dict)
    classes: dict[str, int] = field(default_factory=dict)
    x: Range = None
    y: Range = None
    z: Range = None
    box: str | None = None
    lods: dict[str, int] | None = None
    unasked: tuple[str, ...] = ()

    @property
    def extent(self) -> tuple[Extent, Extent, Extent]:
        """The least and greatest world coordinate on x, y and z, as decimals. None if there is no
        vertex. A coordinate of more than 200 digits is rounded outward."""
        from ..engine.world import outer_extent_of

        if not self.scale:
            return None, None, None
        return outer_extent_of((self.x, self.y, self.z), self.scale, self.translate)

    def fill(self, header: bytes, tally: Tally) -> None:
        """Takes the header and the tally of a valid stream."""
        from ..engine.world import box_of, transform_of  # only `info` needs it

        self.scale, self.translate = transform_of(header)
        self.types = {name: count for name, count in tally.types.items() if count}
        self.classes = {name: count for name, count in tally.classes.items() if count}
        self.x, self.y, self.z = tally.ranges
        self.box = box_of(tally.ranges, self.scale, self.translate)
        self.lods, self.unasked = tally.lods, tuple(sorted(tally.unasked))


class Origin(Protocol):
    """What is known of the source of a stream."""

    file: str
    header: bytes
    head: bytes

    @property
    def is_changed(self) -> bool:
        """Whether the file has changed since it was opened."""


class Passing:
    """What takes reports and keeps none, so that they are not described before it asks.

    Attributes:
        take: Gets each report.
    """

    def __init__(self, take: Tell) -> None:
        self.take = take

    def __call__(self, report: Report) -> None:
        self.take(report)


class Fold:
    """The answer for the chunks of a stream so far. The parts of each answer go to their takers,
    which may raise `WriteFault`.

    Attributes:
        joined: The counts of the answers.
        fault: The fault that ended the stream, if one did.
        reports: The reports, if nobody else takes them.
    """

    def __init__(
        self,
        origin: Origin,
        work: Work,
        *,
        output: Writer | None = None,
        tell: Tell | None = None,
        take: Iterable[Take] = (),
    ) -> None:
        self.origin, self.work = origin, work
        self.joined = Answer(parts=0)
        self.fault: CityseqError | None = None
        self.reports: list[Report] = []
        self._output = output
        self._tell = self.reports.append if tell is None else tell
        self._take = list(take)

    @property
    def has_ended(self) -> bool:
        """Whether the stream has ended, so that no later answer counts."""
        return self.joined.status != CallStatus.COMPLETE or self.fault is not None

    def add(self, answer: Answer) -> None:
        """Joins the answer of the next chunk."""
        lines = self.joined.lines_after_header
        self.joined = self.joined.then(answer.counts())
        if answer.status == CallStatus.NO_MEMORY:
            self.fault = MemoryFault("out of memory", None, self.origin.file)
        try:
            self._pass_on(answer, lines)
        except WriteFault as fault:
            self.fault = self.fault or fault
        self.fault = self.fault or answer.fault

    def _pass_on(self, answer: Answer, lines: int) -> None:
        """Passes on the reports, the output and the rest of an answer that follows so many lines
        after the header."""
        are_kept = not isinstance(self._tell, Passing)
        for report in answer.reports:
            moved = report.moved(lines)
            self._tell(moved.kept() if are_kept else moved)
        if answer.end is not None:
            self._tell(answer.end.moved(lines))
        if self.fault is not None:
            return
        if self._output is not None:
            write = self._output.write_packed if answer.is_packed else self._output.write
            for text in answer.output:
                write(text)
        for take in self._take:
            take(answer, lines)

    def finish(self) -> Result:
        """Returns the result, after all answers were added."""
        joined, origin = self.joined, self.origin
        if origin.is_changed:
            self.fault = ReadFault(f"read fault: {CHANGED}", None, origin.file)
        is_invalid = joined.status == CallStatus.REFUSED or joined.refused > 0
        if self._output is not None:
            self._close(self._output, is_invalid)
        made: type[Result] = Info if self.work.kind == "info" else Result
        result = made(
            origin.file,
            Status(is_invalid),
            joined.lines,
            self._features,
            joined.refused,
            *joined.peaks,
            end=joined.end,
            reports=self.reports,
            hints=self._hints(),
        )
        if self.fault is not None:
            result.fail(self.fault)
        elif isinstance(result, Info) and not self.has_ended and joined.tally is not None:
            result.fill(origin.header, joined.tally)
        return result

    @property
    def _features(self) -> int:
        """How many features were kept: with a limit those that were written."""
        output = self._output
        return self.joined.kept if output is None or output.limit is None else output.features

    def _hints(self) -> list[str]:
        """Returns what the file may be, if its first line ended the run."""
        if self.joined.end is None:
            return []
        from ..engine.hints import hints_for  # few runs need it

        return hints_for(self.joined.end, self.origin.head)

    def _close(self, output: Writer, is_invalid: bool) -> None:
        """Closes the output, which is whole if the run came to its end."""
        is_whole = self.fault is None and self.joined.end is None
        try:
            output.close(is_whole and (self.work.keep_going or not is_invalid))
        except WriteFault as fault:
            self.fault = self.fault or fault

    def discard(self) -> None:
        """Removes the output of a stream that is given up."""
        if self._output is not None:
            self._output.discard()


def number_of_jobs(jobs: int | None) -> int:
    """Returns how many threads there are: one for each processor that this process may use if it is
    None. Raises `RequestError` if it is no number of threads."""
    if jobs is None:
        has_call = hasattr(os, "sched_getaffinity")
        return len(os.sched_getaffinity(0)) if has_call else os.cpu_count() or 1
    if isinstance(jobs, bool) or not isinstance(jobs, int) or jobs < 1:
        raise RequestError(f"jobs are a whole number from 1: {jobs!r}")
    return jobs


def one_options(
    options: Options | None,
    limits: tuple[int, int],
    flags: tuple[bool, bool, bool],
    jobs: int | None = None,
    part_size: int | None = None,
) -> Options:
    """Returns the options, or those that the keywords make.

    Args:
        options: The options, if they are given.
        limits: The keywords `line_limit` and `depth`.
        flags: The keywords `keep_going`, `tree` and `extensions`.
        jobs, part_size: These keywords.

    Raises:
        RequestError: Both are given, or one has a value that it may not have.
    """
    keep_going, tree, extensions = flags
    keywords = Options(Limits(*limits), keep_going, tree, jobs, part_size, extensions)
    if options is not None and keywords != Options():
        raise RequestError("options are given as `options` or by keywords, and not as both")
    found = keywords if options is None else options
    number_of_jobs(found.jobs)
    size = found.part_size
    if size is not None and (isinstance(size, bool) or not isinstance(size, int) or size < 1):
        raise RequestError(f"a part has one byte or more: {size!r}")
    return found


def one_query(query: Query | None, keywords: Query) -> Query:
    """Returns the query, or that of the keywords. Raises `RequestError` if both are given."""
    if query is None:
        return keywords
    conditions = keywords.ids, keywords.types, keywords.lods, keywords.box
    if keywords.exclude or any(condition is not None for condition in conditions):
        raise RequestError("a query is given as `query` or by keywords, and not as both")
    return query


@contextmanager
def watched(
    progress: Callable[[int], None] | bool | None, sources: Iterable[object]
) -> Iterator[Callable[[int], None] | None]:
    """Gives what takes the number of bytes that were done. If it is a bar, closes it at the end.

    Raises:
        CityseqError: A bar is wanted, and the package tqdm is missing.
    """
    if not isinstance(progress, bool):
        yield progress
    elif not progress:
        yield None
    else:
        try:
            tqdm: Package = import_module("tqdm.auto").tqdm
        except ImportError as missing:
            words = "a bar needs the package tqdm: install cityseq[progress]"
            raise CityseqError(words) from missing
        with tqdm(total=_size(sources), unit="B", unit_scale=True) as bar:
            yield bar.update


def _size(sources: Iterable[object]) -> int | None:
    """Returns how many bytes sources have. None if one has no known size."""
    try:
        sizes = [size_of(source) for source in sources]
    except OSError:
        return None
    return None if None in sizes else sum(filter(None, sizes))
