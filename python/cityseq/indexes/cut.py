"""Cuts by an index: reads the selected lines, judges them again, and writes the kept ones."""
from __future__ import annotations

from collections.abc import Callable, Generator, Iterable, Iterator
from dataclasses import dataclass, replace
from itertools import chain
from typing import TYPE_CHECKING

from ..engine import OutOfDate, RequestError, Status
from ..engine.judge import Work
from ..run import Result
from ..run.streams import Stream, results
from ..sources import TextsFile, is_path
from ..sources.outputs import Batch, Limit, Target, Whole, Writer
from .line_reader import OTHER_LINES, IndexedStream, Row, header_of, lines_of, placed

if TYPE_CHECKING:
    from .lookup import Index

Selections = Iterable[tuple[IndexedStream, Iterator[Row]]]


def _needed(selections: Selections) -> Selections:
    """Yields the selections that have rows, or the first if none has."""
    spare: IndexedStream | None = None
    is_empty = True
    for stream, rows in selections:
        for first in rows:
            is_empty = False
            yield stream, chain([first], rows)
            break
        spare = spare or stream
    if is_empty and spare is not None:
        yield spare, iter(())


@dataclass(frozen=True)
class _Cut:
    """A cut by an index.

    Attributes:
        index: The index.
        work: The query.
        jobs: How many threads judge. None is one for each processor.
        writer: Makes the writer of an output.
        limit: How many features all outputs may have.
    """

    index: Index
    work: Work
    jobs: int | None
    writer: Callable[..., Writer] = Writer
    limit: Limit | None = None

    def written(self, name: str, selections: Selections, writer: Writer) -> Result:
        """Judges the selected lines again, and writes those that are kept."""
        writer.limit = self.limit
        with TextsFile(name, self._texts(selections)) as source:
            (result,) = results([Stream(source, self.work, output=writer)], self.jobs)
        if result.end is not None and result.end.line > 1 and result.fault is None:
            raise OutOfDate.because(OTHER_LINES, name)
        return result.raised_if_invalid(False)

    def _texts(self, selections: Selections) -> Generator[bytes, None, None]:
        """Yields the header, and then the selected lines of each stream. On a web server it reads
        only streams that have such lines, and for the header one stream if none has.

        The last line of a stream may have no LF. It gets one before the next kept line, and no
        other line may bring it. So lines up to that one are judged here, and left out.
        """
        is_first, lacks_end = True, False
        base = self.index.base
        for stream, rows in selections if base is None else _needed(selections):
            with placed(stream, base, self.index.blocks) as place:
                header = header_of(stream, place)
                if is_first:
                    yield header
                is_first = False
                for part, numbers in lines_of(stream, place, rows):
                    if self.limit is not None and not self.limit.left:
                        break
                    if lacks_end:
                        if not self._keeps_some(stream, header, part, numbers):
                            continue
                        yield b"\n"
                    yield part
                    lacks_end = not part.endswith(b"\n")

    def _keeps_some(
        self, stream: IndexedStream, header: bytes, part: bytes, numbers: list[int]
    ) -> bool:
        """Whether the query keeps one of some lines."""
        from .lookup import kept  # a cut has loaded it

        found = list(kept(self.work, stream, header, part, numbers))
        return bool(found)


def _counted(result: Result, streams: Iterable[IndexedStream]) -> Result:
    """Returns the same result with the counts of a run over the whole streams."""
    listed = list(streams)
    refused = sum(stream.refused for stream in listed)
    return replace(
        result,
        lines=sum(stream.lines for stream in listed),
        refused=refused,
        status=Status(refused > 0),
    )


def cut(
    index: Index,
    work: Work,
    output: Target,
    jobs: int | None,
    writer: Callable[..., Writer] = Writer,
    limit: Limit | None = None,
) -> Result:
    """Writes what a query keeps of all streams of an index. They have one header and one output.
    `writer` makes the writer of an output, and `limit` is how many features it may have.

    Raises:
        CityseqError: As `Index.filter` does.
    """
    streams = index.streams
    if len({stream.header_sha256 for stream in streams}) > 1:
        raise RequestError(
            "each stream has its own header, and so its own output: name a folder by --output-dir"
        )
    index.check()
    made = _Cut(index, work, jobs, writer, limit)
    name, selections = streams[0].path, index.selections(work)
    if is_path(output):
        return _counted(made.written(name, selections, writer(output)), streams)
    target = Whole(writer(output))  # which gets the output only when that is whole
    try:
        result = made.written(name, selections, Writer(target))
        target.close()
    finally:
        target.discard()
    return _counted(result, streams)


def cut_each(
    index: Index,
    work: Work,
    output_of: Callable[[IndexedStream], str],
    jobs: int | None,
    writer: Callable[..., Writer] = Writer,
    limit: Limit | None = None,
) -> list[Result]:
    """Writes what a query keeps of each stream to an output of its own. The outputs get their names
    when all are whole. `writer` makes the writer of an output, and `limit` is how many features all
    may have.

    Raises:
        CityseqError: As `Index.filter` does. No output is there then.
    """
    index.check()
    made, results = _Cut(index, work, jobs, writer, limit), []
    with Batch() as batch:
        for stream, rows in index.selections(work):
            target = writer(output_of(stream), batch=batch)
            result = made.written(stream.path, [(stream, rows)], target)
            results.append(_counted(result, [stream]))
        batch.replace()
    return results
