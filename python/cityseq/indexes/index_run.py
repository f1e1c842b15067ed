"""Makes an index of streams, writes the new times of streams into one, and describes one as lines
of text and as JSON."""
from __future__ import annotations

import os
import sqlite3
from collections import deque
from collections.abc import Callable, Iterable, Iterator, Sequence
from contextlib import closing
from dataclasses import replace
from decimal import Decimal
from functools import partial
from typing import TYPE_CHECKING, Generic, Protocol, TypeVar

from ..coordinates import around
from ..engine import (
    CityseqError,
    MemoryFault,
    OutOfDate,
    ReadFault,
    RequestError,
    quoted,
    read_fault,
    shown,
    write_fault,
)
from ..engine.judge import Answer, Work
from ..engine.reports import Report
from ..engine.world import plain
from ..run import Result, number_of_jobs
from ..run.streams import Job, Judge, Pool, Results, Stream, results
from ..sources import CHANGED, State, is_packed, is_path, is_url, refuse_same, refuse_whole
from ..sources.chunks import Chunks
from ..sources.parts import regular_paths
from ..sources.regular import Digest, HashedFile, digest_of
from .builder import Builder, Entry, File, Wanted, judge_details
from .database import INDEX_CHANGED
from .line_reader import Blocks, IndexedStream, check_file
from .lookup import Index

if TYPE_CHECKING:
    from ..foreign import Object
    from ..run.streams import Pending
    from ..sources import AnyPath

Tell = Callable[[Report], None] | None
Progress = Callable[[int], None] | None
T = TypeVar("T")
WAIT = 5  # seconds that another program may hold the file


class Digests(Protocol):
    """Makes the hashes of files, which indexes know them by."""

    def submit(self, path: str) -> Pending[Digest | None]:
        """Begins to make the hash of a file."""


class Hashes(Generic[T]):
    """Makes the hashes of files in threads of their own. Leaving a `with` block ends them."""

    def __init__(self, jobs: int, make: Callable[[str, Callable[[], bool]], T]) -> None:
        """Takes how many threads there are, and what makes the hash of a path."""
        self._pool, self._make, self._is_stopped = Pool(jobs), make, False

    def __enter__(self) -> Hashes[T]:
        return self

    def __exit__(self, *given: object) -> None:
        self._is_stopped = True
        self._pool.__exit__(*given)

    def submit(self, path: str) -> Job[T]:
        """Begins to make the hash of a file."""
        return self._pool.submit(partial(self._make, path, lambda: self._is_stopped))


class Indexed:
    """A stream whose records go to an index. The threads that judge a file also hash it. Another
    thread hashes a packed file, or one that a cluster judges.

    Attributes:
        is_slow: Whether a cut has to unpack the stream from its beginning, after `end`.
    """

    def __init__(
        self,
        number: int,
        path: str,
        work: Work,
        builder: Builder,
        size: int | None = None,
        tell: Tell = None,
        progress: Progress = None,
        is_elsewhere: bool = False,
    ) -> None:
        """Takes the number of the stream in the index, from 1, and whether a cluster judges it. The
        others are those of `Stream`."""
        self._number, self.path, self._builder = number, path, builder
        self._keep_going = work.keep_going
        self._entry: Entry | None = None
        self._blocks, self.is_slow = Blocks(), False
        is_read_here = not is_elsewhere and not is_packed(path)
        self._digest = None if is_read_here else builder.digests.submit(path)
        self._then = tell
        records = replace(work, kind="records")
        self.stream = Stream(
            path,
            records,
            size,
            None,
            self._report,
            progress,
            take=[self._take],
            judge_by=None if is_elsewhere else self._judge(records, size),
            chunks=Chunks(path, records, size, HashedFile, self._blocks.add),
        )
        self._fold = self.stream.fold

    def _judge(self, work: Work, size: int | None) -> Judge | None:
        """Returns what judges a chunk if the index has more than records of it. Otherwise that is
        usual."""
        if not any(self._builder.wanted):
            return None
        return partial(judge_details, work=work, size=size, wanted=self._builder.wanted)

    def _report(self, report: Report) -> None:
        if self._then is None:
            self._fold.reports.append(report)
        else:
            self._then(report)
        if self._keep_going and self._fold.fault is None and report.line > 1:
            self._builder.report(self._number, report)

    def _take(self, answer: Answer, lines: int) -> None:
        """Writes the records of the next chunk. `lines` lines came between it and the header.

        Raises:
            WriteFault: They cannot be written.
        """
        for records in answer.records:
            if records.raw:
                self._builder.add(self._begun(), records, lines + records.lines)

    def _begun(self) -> Entry:
        """Returns the entry of the stream in the index. The header is valid."""
        if self._entry is None:
            self._entry = self._builder.begin(self._number, self.stream.chunks.header)
        return self._entry

    def end(self, result: Result) -> Result:
        """Returns the result of the stream. If the run reached its end, the index has it then."""
        if result.fault is None and result.end is None:
            try:
                unpacker = self.stream.chunks.unpacker
                packing = None if unpacker is None else unpacker.packing.name.lower()
                has_blocks = packing is not None and self._blocks.are_all
                self.is_slow = packing is not None and not has_blocks
                blocks = self._blocks if has_blocks else None
                file = File(self.path, packing, self._state(), self._hash(), blocks)
                self._builder.end(self._begun(), file, result)
            except CityseqError as fault:
                result.fail(fault)
        return result

    def _hash(self) -> str:
        """Returns the hash of the file. Raises `ReadFault` if the file has changed."""
        try:
            content, is_changed = self._content()
        except OSError as fault:
            raise read_fault(fault, self.path) from fault
        except MemoryError as fault:
            raise MemoryFault("out of memory", None, self.path) from fault
        if is_changed:
            raise ReadFault(f"read fault: {CHANGED}", None, self.path)
        return content

    def _content(self) -> tuple[str, bool]:
        """Returns the hash of the file, and whether the file has changed."""
        chunks = self.stream.chunks
        if self._digest is None and isinstance(chunks, Chunks):
            if isinstance(chunks.regular, HashedFile):
                return chunks.regular.content(), chunks.is_changed
        job = self._digest or self._builder.digests.submit(self.path)
        digest = job.result()
        assert digest is not None
        return digest.content, not digest.before == digest.after == self._state()

    def _state(self) -> State:
        """Returns the size and the time of change that the file had at the beginning."""
        state = self.stream.chunks.state
        assert state is not None
        return state


class Taker(Protocol):
    """What takes all that comes of a stream."""

    stream: Stream

    def end(self, result: Result) -> Result:
        """Takes the result of the stream, and returns it."""


def of_takers(takers: Iterable[Taker], run: Callable[[Iterator[Stream]], Results]) -> Results:
    """Yields the result of each stream, in order, when its taker has it. `run` yields the results
    of streams."""
    begun: deque[Taker] = deque()

    def streams() -> Iterator[Stream]:
        for each in takers:
            begun.append(each)
            yield each.stream

    with closing(run(streams())) as found:
        for result in found:
            yield begun.popleft().end(result)


def checked(paths: bytes | AnyPath | Iterable[object], output: object) -> list[str]:
    """Returns the paths of the streams.

    Raises:
        RequestError: No path is given. One is not a path, or is that of a device or a pipe. Two
            are one file, or the output is one of them.
    """
    named = regular_paths(paths, "an index is of")
    if any(is_url(path) and "?" in path for path in named):
        raise RequestError("an index stores no URL with a query, which may have a key in it")
    if not is_path(output):
        raise RequestError(f"an index is written to a path: {output!r} is none")
    if not named:
        raise RequestError("no stream is given that can be indexed")
    if len({os.path.realpath(path) for path in named}) < len(named):
        raise RequestError("one stream is given twice")
    refuse_whole(named)
    refuse_same(named, [output])
    return named


def by_threads(takers: Iterable[Taker], jobs: int | None) -> Results:
    """Yields the result of each stream, in order, by that number of threads."""
    return of_takers(takers, lambda streams: results(streams, jobs))


def written(
    builder: Builder,
    run: Callable[[], Results],
    work: Work,
    take: Callable[[Result], None] = lambda result: None,
    digests: Digests | None = None,
) -> bool:
    """Writes an index of streams, and passes the result of each to `take`. Returns whether the
    index is whole, and removes it if it is not. Stops after the first stream that ended early.
    `digests` makes the hashes of the files, by default a thread of this process."""
    from .. import __version__

    try:
        builder.open()
        with Hashes(1, digest_of) as own, closing(run()) as found:
            builder.digests = own if digests is None else digests
            for result in found:
                take(result)
                if result.fault is not None or result.end is not None:
                    return False
        builder.finish(work, __version__)
        return True
    finally:
        builder.discard()


def index(
    paths: Sequence[str],
    output: AnyPath,
    work: Work,
    jobs: int | None,
    size: int | None,
    tell: Tell,
    progress: Progress,
    wanted: Wanted = Wanted(),
) -> list[Result]:
    """Writes an index of streams. The arguments are those of `cityseq.index`."""
    builder = Builder(os.fsdecode(output), wanted)
    made: list[Result] = []
    streams = (
        Indexed(number, path, work, builder, size, tell, progress)
        for number, path in enumerate(paths, 1)
    )
    written(builder, lambda: by_threads(streams, jobs), work, made.append)
    for result in made:
        result.raised_if_invalid(work.keep_going)
    return made


def refresh(path: str, jobs: int | None = None) -> tuple[int, int]:
    """Looks at each stream whose time is not that of an index, and writes the new times if the
    content of all is the same. Otherwise it writes nothing.

    Args:
        path: The path of the index.
        jobs: How many streams are read at once. The default is the number of processors.

    Returns:
        How many streams the index has, and of how many the time was written.

    Raises:
        OutOfDate: A stream has other content, or another program has changed the index.
        ReadFault: The index or a stream cannot be read.
        WriteFault: The index cannot be written.
    """
    with Index(path) as index:
        streams = index.streams
        if index.is_changed:
            raise OutOfDate.because(INDEX_CHANGED, path)
    with Hashes(number_of_jobs(jobs), digest_of) as digests:
        begun = [(stream, digests.submit(stream.path)) for stream in _touched(streams)]
        times = [(_time_of(stream, job), stream.number) for stream, job in begun]
    if times:
        _write(path, times)
    return len(streams), len(times)


def _touched(streams: list[IndexedStream]) -> Iterator[IndexedStream]:
    """Yields the streams with another time. Raises `OutOfDate` if a stream has another size."""
    for stream in streams:
        try:
            told = os.stat(stream.path)
        except OSError as fault:
            raise read_fault(fault, stream.path) from fault
        stream.compare(told.st_size, stream.mtime_ns)
        if told.st_mtime_ns != stream.mtime_ns:
            yield stream


def _time_of(stream: IndexedStream, job: Job[Digest | None]) -> int:
    """Returns the time of a stream. Raises `OutOfDate` if its content is not that of the index."""
    try:
        digest = job.result()
    except OSError as fault:
        raise read_fault(fault, stream.path) from fault
    assert digest is not None
    if digest.before != digest.after:
        raise ReadFault(f"read fault: {CHANGED}", None, stream.path)
    if digest.content != stream.content:
        raise OutOfDate.because("the stream has other content", stream.path)
    return digest.before[1]


def _write(path: str, times: list[tuple[int, int]]) -> None:
    """Writes the times of streams, all or none. A trigger then notes that the index was changed, so
    this is undone, unless another program has changed it."""
    try:
        with closing(sqlite3.connect(path, timeout=WAIT, isolation_level=None)) as base:
            base.execute("BEGIN IMMEDIATE")
            if base.execute("SELECT changed FROM cityseq_index").fetchone() != (0,):
                raise OutOfDate.because(INDEX_CHANGED, path)
            base.executemany("UPDATE streams SET mtime_ns = ? WHERE fid = ?", times)
            base.execute("UPDATE cityseq_index SET changed = 0")
            base.execute("COMMIT")
    except sqlite3.Error as fault:
        raise write_fault(fault, path) from fault


Extent = list[float] | None
# members of the JSON of a stream that have the names of its columns
MEMBERS = ("packing", "size", "mtime_ns", "lines", "features", "refused", "reference_system")


def _extent(streams: Sequence[IndexedStream]) -> Extent:
    """Returns the box around streams: minx, miny, maxx, maxy. None if nothing has a place."""
    boxes = [
        (stream.xmin, stream.ymin, stream.xmax, stream.ymax)
        for stream in streams
        if stream.xmin is not None and stream.ymin is not None
        if stream.xmax is not None and stream.ymax is not None
    ]
    return list(around(boxes)) if boxes else None


def _fault(index: Index) -> str | None:
    """Returns why the index cannot be used at all, or None."""
    return OutOfDate.because(INDEX_CHANGED, index.path).words if index.is_changed else None


def _state(index: Index, stream: IndexedStream) -> str | None:
    """Returns why the index cannot be used for a stream, or None."""
    if index.base is not None:
        return None
    try:
        check_file(stream)
    except ReadFault as fault:
        return fault.words
    return None


def _boxed(extent: Extent) -> str:
    """Returns a box as `--bbox` takes it: each edge with at most 15 digits, as a float has them
    exactly."""
    edges = [] if extent is None else [plain(Decimal(f"{edge:.15g}")) for edge in extent]
    return f" bbox {','.join(edges)}" if edges else ""


def lines(index: Index) -> Iterator[str]:
    """Yields what an index covers, and each id that appears more than once."""
    streams = index.streams
    yield f"streams {len(streams)}"
    yield f"features {sum(stream.features for stream in streams)}"
    yield f"invalid lines {sum(stream.refused for stream in streams)}"
    extent = _extent(streams)
    if extent is not None:
        yield _boxed(extent).lstrip()
    for each in index.attributes.values():
        of = "" if each.name == each.column else f" of {quoted(each.name)}"
        kind = "" if each.format is None else f" {each.format}"
        yield f"attribute {quoted(each.column)}{of} {each.type}{kind}"
    why = _fault(index)
    if why is not None:
        yield why
    for stream in streams:
        counts = f"lines {stream.lines} features {stream.features} invalid {stream.refused}"
        yield f"stream {shown(stream.path)} {counts}{_boxed(_extent([stream]))}"
        if stream.reference_system is not None:
            yield f"    reference system {quoted(stream.reference_system)}"
        why = _state(index, stream)
        if why is not None:
            yield f"    {why}"
        for line, byte, code, text, name in index.reports(stream):
            of = "" if name is None else f", feature {quoted(name)}"
            yield f"    left out: line {line}, byte {byte}: {code} {shown(text)}{of}"
    for repeated in index.repeated_ids():
        yield f"repeated id {quoted(repeated.id)} in {len(repeated.places)} features"
        yield from (f"    {shown(path)} line {line}" for path, line in repeated.places)


def described(index: Index, program: str) -> Object:
    """Returns the same as the members of a JSON object."""
    return {
        "index": index.path,
        "cityseq": program,
        "features": sum(stream.features for stream in index.streams),
        "bbox": _extent(index.streams),
        "fault": _fault(index),
        "attributes": [
            {name: getattr(each, name) for name in ("name", "column", "type", "format")}
            for each in index.attributes.values()
        ],
        "streams": [
            {
                "file": stream.path,
                **{name: getattr(stream, name) for name in MEMBERS},
                "bbox": _extent([stream]),
                "fault": _state(index, stream),
                "reports": [
                    dict(zip(("line", "byte", "code", "text", "id"), report))
                    for report in index.reports(stream)
                ],
            }
            for stream in index.streams
        ],
        "repeated_ids": [
            {
                "id": each.id,
                "places": [{"file": path, "line": line} for path, line in each.places],
            }
            for each in index.repeated_ids()
        ],
    }
