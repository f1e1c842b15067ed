"""An open index: what is in it, which lines a query may keep, and the features there."""
from __future__ import annotations

import os
from collections.abc import Generator, Iterator, Sequence
from dataclasses import dataclass, replace
from itertools import chain, groupby
from operator import itemgetter
from typing import TYPE_CHECKING

from ..engine import CallStatus, OutOfDate, RawFeature, ReadFault, RequestError, library
from ..engine.judge import Box, Limits, Options, Query, Texts, Work, work_of
from ..engine.records import id_of
from ..run import Result
from ..run.features import Feature, fault_of, feature_of
from ..sources import is_url, refuse_same
from ..sources.outputs import Limit, Target
from . import geopackage
from .candidates import condition_of, has_more, reads_all, terms_of, want
from .database import ATTRIBUTES as ATTRIBUTE_ROWS
from .database import INDEX_CHANGED, OPTIONS, REPORTS, STREAMS, Database, checked
from .geopackage import ATTRIBUTES
from .geopackage import FOOTPRINTS as LAYER
from .geopackage import Attribute
from .line_reader import (
    BETWEEN,
    NO_RANGES,
    OTHER_LINES,
    AllLines,
    IndexedStream,
    Row,
    check_file,
    header_of,
    lines_of,
    placed,
)

if TYPE_CHECKING:
    from ..attributes.cql2 import Condition, Filter
    from ..foreign import Cells
    from ..sources import AnyPath

TOGETHER = 500  # footprints of one query: older versions of SQLite take at most 999 values
REPEATED = (
    "SELECT id, id_exact, stream, line FROM features WHERE id IN"
    " (SELECT id FROM features GROUP BY id HAVING count(*) > 1) ORDER BY id, id_exact, fid"
)
COLUMNS = {
    "cityseq_index": ("version", *OPTIONS, "changed", "places"),
    "features": ("fid", "stream", "line", "begin", "length", "id", "id_exact", "types", "lods"),
    "streams": tuple(STREAMS),
    "reports": tuple(REPORTS),
}


@dataclass(frozen=True)
class IndexedFeature(Feature):
    """A kept feature, and the path of the stream that it is in."""

    file: str = ""


@dataclass(frozen=True)
class RepeatedId:
    """An id that more than one feature has, with the path and the line of each."""

    id: str
    places: tuple[tuple[str, int], ...]


class Selection(Iterator[IndexedFeature]):
    """The features that a query selects. Leaving a `with` block closes their streams."""

    def __init__(self, features: Generator[IndexedFeature, None, None]) -> None:
        self._features = features

    def __enter__(self) -> Selection:
        return self

    def __exit__(self, *_: object) -> None:
        self._features.close()

    def __next__(self) -> IndexedFeature:
        return next(self._features)


class Index:
    """An index that `cityseq.index` has written. Only one thread at a time may use it.

    Attributes:
        path: Its path.
        streams: The streams of the index, in order.
        tree, extensions, keep_going, line_limit, depth: How the streams were judged. Cuts are
            judged so too.
        attributes: The attributes that a filter can name, by their columns.
    """

    def __init__(self, path: bytes | AnyPath, *, base: str | None = None) -> None:
        """Opens an index.

        Args:
            path: The path of the GeoPackage.
            base: The URL that the streams are below. None if they are files.

        Raises:
            ReadFault: It cannot be read, it is not an index, or it has another version.
            RequestError: The base is no URL.
        """
        if base is not None:
            from .web import checked_base  # few runs need it

            checked_base(base)
        self.path, self.base = os.fsdecode(path), base
        self._base = Database(self.path)
        try:
            self._check_version()
            rules = self._options()
            self.tree, self.extensions, self.keep_going, self.line_limit, self.depth = rules
            self.streams = list(self._streams())
            self._check_streams()
            self.attributes = self._attributes()
        except BaseException:
            self._base.close()
            raise

    def __repr__(self) -> str:
        return f"Index({self.path!r}, streams={len(self.streams)})"

    def __enter__(self) -> Index:
        return self

    def __exit__(self, *_: object) -> None:
        self.close()

    def close(self) -> None:
        """Closes the file."""
        self._base.close()

    def _fault(self, words: str) -> ReadFault:
        return ReadFault(f"read fault: {words}", None, self.path)

    def _check_version(self) -> None:
        """Checks the version, the tables and their columns."""
        with self._base.reading():
            rows = self._base.execute("SELECT version FROM cityseq_index LIMIT 2").fetchall()
        version = rows[0][0] if len(rows) == 1 else None
        if version != geopackage.VERSION:
            words = f"it is an index of version {version!r:.20}, and not of version"
            raise self._fault(f"{words} {geopackage.VERSION}: build it again")
        self._base.check_tables()
        for table, columns in COLUMNS.items():
            missing = sorted(set(columns) - self._base.columns(table))
            if missing:
                raise self._fault(f"its table {table} has no {missing[0]}: build it again")

    def _options(self) -> tuple[bool, bool, bool, int, int]:
        with self._base.reading():
            select = f"SELECT {', '.join(OPTIONS)} FROM cityseq_index"
            row = self._base.execute(select).fetchone()
        *flags, limit, depth = checked("cityseq_index", OPTIONS, row, self.path)
        tree, extensions, keep_going = map(bool, flags)
        return tree, extensions, keep_going, limit, depth

    def _streams(self) -> Iterator[IndexedStream]:
        folder = os.path.dirname(os.path.realpath(self.path))
        with self._base.reading():
            rows = self._base.execute(f"SELECT {', '.join(STREAMS)} FROM streams ORDER BY fid")
            for row in rows:
                number, text, exact, *others = checked("streams", STREAMS, row, self.path)
                told = text if exact is None else os.fsdecode(exact)
                path = told if is_url(told) else os.path.join(folder, told)
                if told.startswith(f"{os.pardir}{os.sep}"):
                    path = os.path.normpath(path)  # no part of the folder is a link
                stream = IndexedStream(number, path, told, *others)
                yield replace(stream, has_blocks=self._has_blocks(number))

    def _attributes(self) -> dict[str, Attribute]:
        """Returns the attributes of the index by their columns."""
        if ATTRIBUTES not in self._base.tables:
            return {}
        columns = self._base.columns("features")
        found: dict[str, Attribute] = {}
        with self._base.reading():
            select = f"SELECT {', '.join(ATTRIBUTE_ROWS)} FROM {ATTRIBUTES} ORDER BY fid"
            for row in self._base.execute(select):
                name, exact, column, *others = checked(ATTRIBUTES, ATTRIBUTE_ROWS, row, self.path)
                if column not in columns - geopackage.OWN or column in found:
                    raise OutOfDate.because(INDEX_CHANGED, self.path)
                found[column] = Attribute(id_of(name, exact), column, *others)
        return found

    def _has_blocks(self, number: int) -> bool:
        """Whether a stream has blocks. Indexes of plain streams, and older ones, have none."""
        select = "SELECT EXISTS (SELECT 1 FROM blocks WHERE stream = ?)"
        return "blocks" in self._base.tables and bool(
            self._base.execute(select, (number,)).fetchone()[0]
        )

    def _length(self, stream: IndexedStream) -> int:
        """Returns the bytes of a stream: of its text, if the index knows its blocks."""
        select = "SELECT max(begin) FROM blocks WHERE stream = ?"
        if not stream.has_blocks:
            return stream.size
        (length,) = self._base.execute(select, (stream.number,)).fetchone()
        return length if type(length) is int else stream.size

    def blocks(self, stream: IndexedStream, begin: int, end: int) -> list[tuple[int, int]]:
        """Returns where the blocks begin that have the text of a stream between two places, in the
        text and in the file. The last row has the ends of the last block."""
        with self._base.reading():
            return self._base.execute(BETWEEN, (stream.number, begin, end)).fetchall()

    def _check_streams(self) -> None:
        """Checks that the index has streams, that their features follow one another, and that no
        two have one URL."""
        first = 1
        for stream in self.streams:
            if stream.first_fid != first:
                raise OutOfDate.because(INDEX_CHANGED, self.path)
            first += stream.features
        if not self.streams:
            raise self._fault("it has no streams")
        if self.base is not None:
            from .web import url_of  # few runs need it

            urls: dict[str, str] = {}
            for stream in self.streams:
                other = urls.setdefault(url_of(self.base, stream.told_path), stream.path)
                if other != stream.path:
                    words = f"it has the same URL as {other}: give each stream a name of its own"
                    raise RequestError(words, None, stream.path)

    def footprints(self, fids: Sequence[int]) -> dict[int, bytes]:
        """Returns the footprints of features, by their numbers in the index, if it has any."""
        found: dict[int, bytes] = {}
        if LAYER in self._base.tables:
            with self._base.reading():
                for begin in range(0, len(fids), TOGETHER):
                    some = fids[begin : begin + TOGETHER]
                    marks = ",".join("?" * len(some))
                    select = f"SELECT fid, geom FROM {LAYER} WHERE fid IN ({marks})"
                    found.update(self._base.execute(select, some))
        return found

    # ---- which lines

    def work(
        self,
        ids: Texts | bytes | None = None,
        types: Texts | None = None,
        lods: Texts | None = None,
        box: Box | None = None,
        where: str | Filter | None = None,
    ) -> Work:
        """Returns the work for a query. It is judged as the streams of the index were.

        Raises:
            RequestError: An argument has a value that it may not have.
        """
        limits = Limits(self.line_limit, self.depth)
        rules = Options(limits, tree=self.tree, extensions=self.extensions)
        work = work_of("filter", rules, Query(ids, types, lods, box))
        return work if where is None else replace(work, where=self._condition(where))

    def _condition(self, where: str | Filter) -> Condition:
        paths = {each.number: each.path for each in self.streams}
        return condition_of(self._base, self.attributes, paths, where)

    def rows(self, work: Work) -> Iterator[Row]:
        """Yields where the lines are that a query may keep, in order. It misses none."""
        for _, *row in self._found(work, [], []):
            yield Row(*row)

    def candidates(
        self, work: Work, stream: IndexedStream, after: int, most: int
    ) -> list[tuple[int, Row]]:
        """Returns the next features of a stream that a query may keep: the number of each in the
        stream, from 1, and where its line is.

        Args:
            work: The query.
            stream: One of the streams of the index.
            after: The number of the feature after which it begins.
            most: The most features to return.
        """
        first = stream.first_fid - 1
        within: list[object] = [first + min(after, stream.features), first + stream.features]
        found = self._found(work, ["fid > ? AND fid <= ?"], within, f" LIMIT {most}")
        return [(fid - first, Row(*row)) for fid, *row in found]

    def has_more(self, work: Work, stream: IndexedStream, after: int, most: int) -> bool:
        """Returns whether `candidates` would find more than `most` features. It stops there, and
        makes no rows, so it takes a fraction of the time."""
        first = stream.first_fid - 1
        fids = range(first + min(after, stream.features) + 1, first + stream.features + 1)
        self._check_index(work)
        with self._base.reading():
            return has_more(self._base, work, fids, most)

    def _reads_all(self, work: Work) -> bool:
        """Whether to read the whole streams takes less time than to read the lines that a query may
        keep. This is an estimate. Lines that were left out, and web servers, forbid it."""
        if self.base is not None or any(stream.refused for stream in self.streams):
            return False
        features = sum(stream.features for stream in self.streams)
        with self._base.reading():
            size = sum(map(self._length, self.streams))
            return features > 0 and reads_all(self._base, work, features, size)

    def _found(
        self, work: Work, conditions: list[str], given: list[object], end: str = ""
    ) -> Iterator[Cells]:
        """Yields the rows of the features that meet the conditions and that a query may keep."""
        of_work, values = terms_of(work)
        conditions += of_work
        given += values
        self._check_index(work)
        with self._base.reading():
            if work.ids is not None:
                want(self._base, work.ids)
            which = f" WHERE {' AND '.join(conditions)}" if conditions else ""
            select = "SELECT fid, stream, line, begin, length FROM features"
            # `yield from` would close the cursor with the generator, perhaps after the database
            yield from self._base.search(f"{select}{which} ORDER BY fid{end}", given)
        if self._base.is_changed():
            raise OutOfDate.because(INDEX_CHANGED, self.path)

    def _check_index(self, work: Work | None = None) -> None:
        """Checks that no other program has changed the index.

        Raises:
            OutOfDate: One has.
        """
        self._base.check(sum(stream.features for stream in self.streams))
        if work is not None and work.box is not None:
            self._base.check_tree()

    def selections(self, work: Work) -> Iterator[tuple[IndexedStream, Iterator[Row]]]:
        """Yields each stream with the rows that a query may keep of it, or with `AllLines` if to
        read all takes less time. The caller reads the rows before it asks for the next stream."""
        if self._reads_all(work):
            yield from ((stream, AllLines()) for stream in self.streams)
        else:
            yield from self._selected(work)

    def _selected(self, work: Work) -> Iterator[tuple[IndexedStream, Iterator[Row]]]:
        grouped = groupby(self.rows(work), lambda row: row.stream)
        ahead = next(grouped, None)
        for stream in self.streams:
            if ahead is not None and ahead[0] == stream.number:
                yield stream, ahead[1]
                ahead = next(grouped, None)
            else:
                yield stream, iter(())
        if ahead is not None:  # rows of no stream, or not in the order of the streams
            raise OutOfDate.because(INDEX_CHANGED, self.path)

    def check(self) -> None:
        """Checks that no other program has changed the index, and that the files of all streams
        have the size and the time that the index has.

        Raises:
            OutOfDate: The index was changed, or a file has another size or time.
            ReadFault: One is missing.
            RequestError: One is packed without blocks, so a web server has no ranges of it.
        """
        self._check_index()
        for stream in self.streams:
            if self.base is None:
                check_file(stream)
            elif stream.is_slow:
                raise RequestError(NO_RANGES, None, stream.path)

    # ---- features

    def select(
        self,
        *,
        box: Box | None = None,
        types: Texts | None = None,
        ids: Texts | None = None,
        lods: Texts | None = None,
        where: str | None = None,
    ) -> Selection:
        """Returns the features that a query selects. They can be iterated over once. To leave the
        iteration early and close the streams at once, use it in a `with` block.

        The arguments are those of `cityseq.filter`, and `where`: a filter in CQL2 text, such as
        "year > 1990 AND status = 'in use'". It names columns of `attributes`. Each feature is
        judged again, but only the index knows the attributes.

        Raises:
            OutOfDate: A stream is not the one that was indexed.
            ReadFault: A stream or the index cannot be read.
            InvalidStream: A stream's transform cannot be compared with the box exactly.
            RequestError: An argument has a value that it may not have.
        """
        self.check()
        return Selection(self._features(self.work(ids, types, lods, box, where)))

    def _features(self, work: Work) -> Generator[IndexedFeature, None, None]:
        for stream, rows in self._selected(work):
            first = next(rows, None)
            # no row has a place then, and the header is invalid for a query with a box
            has_no_box = work.box is not None and not stream.is_flat
            if first is None and not has_no_box:
                continue
            with placed(stream, self.base, self.blocks) as place:
                header = header_of(stream, place)
                if has_no_box:
                    yield from kept(work, stream, header, b"", [])
                if first is not None:
                    for part, numbers in lines_of(stream, place, chain([first], rows)):
                        yield from kept(work, stream, header, part, numbers)

    def filter(
        self,
        output: Target,
        *,
        ids: Texts | None = None,
        types: Texts | None = None,
        lods: Texts | None = None,
        box: Box | None = None,
        where: str | None = None,
        limit: int | None = None,
        jobs: int | None = None,
    ) -> Result:
        """Writes what `cityseq.filter` writes of the streams, but reads only the selected lines.

        All streams have one output, so they must have the same header.

        Args:
            output: A path, `-` for standard output, or a binary file. Nothing is written unless
                all was read and is valid.
            ids, types, lods, box, limit, jobs: As for `cityseq.filter`. After the last feature that
                the limit takes no more lines are read.
            where: As for `select`.

        Returns:
            The counts that `cityseq.filter` returns. Lines and invalid lines are those of the
            whole streams, from the index.

        Raises:
            CityseqError: As `select`, or a `WriteFault`. A `RequestError` too if the output is the
                index or a stream.
        """
        from .cut import cut  # `select` does not need it

        streams = self.streams if self.base is None else []
        refuse_same([self.path, *(stream.path for stream in streams)], [output])
        work = self.work(ids, types, lods, box, where)
        return cut(self, work, output, jobs, limit=Limit.of(limit))

    # ---- what is in it

    def repeated_ids(self) -> Iterator[RepeatedId]:
        """Yields each id that more than one feature has, in the order of the ids."""
        paths = {stream.number: stream.path for stream in self.streams}
        with self._base.reading():
            found = self._base.execute(REPEATED)
            for (text, exact), group in groupby(found, itemgetter(0, 1)):
                try:
                    places = tuple((paths[number], int(line)) for _, _, number, line in group)
                    name = id_of(text, exact)
                except (AttributeError, KeyError, TypeError, ValueError):
                    raise OutOfDate.because(INDEX_CHANGED, self.path) from None
                if len(places) > 1:
                    yield RepeatedId(name, places)

    def reports(self, stream: IndexedStream) -> Iterator[tuple[int, int, int, str, str | None]]:
        """Yields the invalid lines of a stream, which were left out: line, byte, code, text of the
        reason, and id of the feature if it is known."""
        columns = [name for name in REPORTS if name != "stream"]
        tests = {name: REPORTS[name] for name in columns}
        select = f"SELECT {', '.join(columns)} FROM reports WHERE stream = ? ORDER BY fid"
        with self._base.reading():
            for row in self._base.execute(select, (stream.number,)):
                line, byte, code, text, name = checked("reports", tests, row, self.path)
                yield line, byte, code, text, name

    @property
    def is_changed(self) -> bool:
        """Whether another program has changed the index, as far as that is quickly known."""
        try:
            self._check_index()
        except OutOfDate:
            return True
        return False

    def show(self) -> str:
        """Returns lines of text: what the index covers, and the ids that appear more than once."""
        from .index_run import lines  # few runs need it

        return "\n".join(lines(self))


def judged(work: Work, path: str, header: bytes, part: bytes, count: int) -> list[RawFeature]:
    """Returns those of so many features in some lines of a stream that the engine keeps."""
    answer, _, raws = library().features(header, part, work.request(header, part), count)
    if answer.status == CallStatus.REFUSED and answer.line > 1:
        raise OutOfDate.because(OTHER_LINES, path)
    if answer.status != CallStatus.COMPLETE:
        raise fault_of(answer, header, part, 0, path)
    return list(raws)


def kept(
    work: Work, stream: IndexedStream, header: bytes, part: bytes, numbers: list[int]
) -> Iterator[IndexedFeature]:
    """Yields the features of some lines that the engine keeps."""
    for raw in judged(work, stream.path, header, part, len(numbers)):
        found = feature_of(raw, header, part, 0)
        told = {**vars(found), "line": numbers[raw.line - 2]}
        yield IndexedFeature(**told, file=stream.path)
