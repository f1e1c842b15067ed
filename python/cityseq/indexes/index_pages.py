"""Pages of features of an index, for many threads: candidates come from the index, and the engine
judges each again.

The key of a page is the number of a feature in its stream, from 1. No two features share a number,
so pages stay right if features are equal in everything else. A page has the kept features of the
next candidates. It is only empty if no feature follows."""
from __future__ import annotations

import os
from collections.abc import Callable, Generator, Iterator
from contextlib import contextmanager, suppress
from dataclasses import dataclass, replace
from functools import cached_property
from itertools import chain
from queue import Empty, LifoQueue
from typing import TYPE_CHECKING, NamedTuple

from ..attributes import told
from ..attributes.columns import properties_of
from ..coordinates import Extent
from ..engine import OutOfDate, RawFeature, ReadFault
from ..engine.judge import Work
from ..engine.records import unescaped
from ..engine.world import World
from .builder import Entry, names_of_lods, names_of_types
from .database import INDEX_CHANGED
from .footprints import Polygon, polygons_of
from .geopackage import Attribute
from .line_reader import IndexedStream, Row, header_of, lines_of, placed
from .lookup import Index, judged

if TYPE_CHECKING:
    from ..foreign import Object

TOGETHER = 1 << 18  # bytes of lines that are judged together


class Replaced(ReadFault):
    """Another index has taken the place of one."""


def _state_of(path: str) -> tuple[int, ...] | None:
    """Returns what a file is now; None if it is not there."""
    try:
        told = os.stat(path)
        return told.st_dev, told.st_ino, told.st_size, told.st_mtime_ns
    except OSError:
        return None


class IndexPool:
    """An index that many threads use: each call has one to itself.

    Attributes:
        base: The URL that its streams are below. None if they are files.
    """

    def __init__(self, path: str, base: str | None) -> None:
        self._path, self.base = path, base
        self._state = _state_of(path)
        self._free: LifoQueue[Index] = LifoQueue()
        self._is_closed = False

    @property
    def is_changed(self) -> bool:
        """Whether the file of the index is another one now."""
        return bool(_state_of(self._path) != self._state)

    @contextmanager
    def index(self) -> Iterator[Index]:
        """Gives the index, in a `with` block.

        Raises:
            Replaced: Another index has taken its place.
            ReadFault: It cannot be read.
        """
        try:
            index = self._free.get_nowait()
        except Empty:
            index = Index(self._path, base=self.base)
            if self.is_changed:
                index.close()
                raise Replaced("the index was built again: ask again", None, self._path) from None
        try:
            yield index
        finally:
            self._free.put(index)
            if self._is_closed:
                self.close()

    def blocks(self, stream: IndexedStream, begin: int, end: int) -> list[tuple[int, int]]:
        """Does what `Index.blocks` does."""
        with self.index() as index:
            return index.blocks(stream, begin, end)

    def close(self) -> None:
        """Closes those that no call has. One that a call has is closed when the call ends."""
        self._is_closed = True
        with suppress(Empty):
            while True:
                self._free.get_nowait().close()


@dataclass(frozen=True)
class OpenStream:
    """A stream of an index that many threads use.

    Attributes:
        pool: The index.
        stream: What the index has of it.
    """

    pool: IndexPool
    stream: IndexedStream

    @cached_property
    def world(self) -> World:
        """The map from its vertices to world coordinates."""
        return self.stream.world()

    def check(self, header: bytes) -> None:
        """Checks once that the index has the transform and the system of the header, whose hash was
        compared. Raises `OutOfDate` if it has others."""
        stream = self.stream
        if "is_checked" not in vars(self):
            told = Entry(stream.number, header, stream.first_fid).of_header()
            if told != (stream.scale, stream.translate, stream.reference_system):
                raise OutOfDate.because(INDEX_CHANGED, stream.path)
            vars(self)["is_checked"] = True

    @property
    def extent(self) -> Extent | None:
        """The least x and y and the greatest x and y of all features, if there are any."""
        told = self.stream
        west, south, east, north = told.xmin, told.ymin, told.xmax, told.ymax
        if west is None or south is None or east is None or north is None:
            return None
        return west, south, east, north


class Found(NamedTuple):
    """A kept feature.

    Attributes:
        line: The number of its line in the stream, from 1.
        size: The bytes of its line.
        id: Its id, with escapes undone.
        objects, geometries: How many it has.
        types, lods: The names of its types, and the classes of its LoDs.
        extent: The least x and y and the greatest x and y, if it has a vertex.
        footprint: Its ground as polygons. Empty if the index has none, or only the extent.
        heights: The least and the greatest z, if it has a vertex.
        attributes: Its attributes as Python reads JSON, by the names of the columns.
    """

    line: int
    size: int
    id: str
    objects: int
    geometries: int
    types: list[str]
    lods: list[str]
    extent: Extent | None
    heights: tuple[float, float] | None
    footprint: list[Polygon]
    attributes: Object


@dataclass(frozen=True)
class Block:
    """Some features of a page, as the library returns them. `fids` has the number of each line's
    feature in the index."""

    source: OpenStream
    part: bytes
    raws: list[RawFeature]
    numbers: list[int]
    fids: dict[int, int]

    def lines(self) -> bytes:
        """Returns their lines, byte for byte."""
        part = self.part
        if len(self.raws) == len(self.numbers) and part.endswith(b"\n"):
            return part  # all that was read is kept
        return b"".join(part[raw.begin : raw.begin + raw.length] + b"\n" for raw in self.raws)

    def within(self, reaches: Callable[[Extent], bool]) -> Block:
        """Returns the features whose extent passes a test. No box reaches those without one."""
        extents = map(self._extent, self.raws)
        kept = [raw for raw, extent in zip(self.raws, extents) if extent and reaches(extent)]
        return replace(self, raws=kept)

    def features(self) -> list[Found]:
        """Returns the facts of each feature."""
        fids = [self.fids[self.numbers[raw.line - 2]] for raw in self.raws]
        with self.source.pool.index() as index:
            footprints, known = index.footprints(fids), index.attributes
        return [self._found(raw, footprints.get(fid), known) for raw, fid in zip(self.raws, fids)]

    def _found(
        self, raw: RawFeature, footprint: bytes | None, known: dict[str, Attribute]
    ) -> Found:
        begin, end = raw.begin + raw.id_begin + 1, raw.begin + raw.id_begin + raw.id_length - 1
        types, lods = names_of_types(raw.types), names_of_lods(raw.lods)
        z, axis, extent = raw.ranges[2], self.source.world.z, self._extent(raw)
        place = raw.begin + raw.attributes_begin
        attributes = told(bytes(self.part[place : place + raw.attributes_length]))
        return Found(
            self.numbers[raw.line - 2],
            raw.length,
            unescaped(self.part[begin:end]),
            raw.objects,
            raw.geometries,
            types.split(",") if types else [],
            lods.split(",") if lods else [],
            extent,
            axis.interval(z.least, z.greatest) if z.some and axis is not None else None,
            _ground(footprint, extent, self.source.stream.path),
            properties_of(attributes, known),
        )

    def _extent(self, raw: RawFeature) -> Extent | None:
        x, y, _ = raw.ranges
        world = self.source.world
        if not x.some or world.x is None or world.y is None:
            return None
        west, east = world.x.interval(x.least, x.greatest)
        south, north = world.y.interval(y.least, y.greatest)
        return west, south, east, north


def _ground(footprint: bytes | None, extent: Extent | None, path: str) -> list[Polygon]:
    """Returns the polygons of a footprint. Empty if there is none, or it is the extent.

    Raises:
        OutOfDate: It is no footprint.
    """
    if footprint is None or extent is None:
        return []
    try:
        polygons = polygons_of(footprint)
    except ValueError:
        raise OutOfDate.because(INDEX_CHANGED, path) from None
    points = [point for polygon in polygons for ring in polygon for point in ring]
    west, south, east, north = extent
    corners = [(west, south), (east, south), (east, north), (west, north), (west, south)]
    return [] if points in (corners, []) else polygons


def _joined(parts: Iterator[tuple[bytes, list[int]]]) -> Iterator[tuple[bytes, list[int]]]:
    """Yields lines, more of them together: each call of the library judges the header again."""
    texts: list[bytes] = []
    numbers: list[int] = []
    size = 0
    for text, more in parts:
        texts.append(text)
        numbers += more
        size += len(text)
        if size >= TOGETHER:
            yield b"".join(texts), numbers
            texts, numbers, size = [], [], 0
    if texts:
        yield b"".join(texts), numbers


class Page:
    """The features of a page, block by block. One thread after another may make the calls.

    Attributes:
        header: The first line of the stream, after the first block.
        next: The number of the feature after which the next page begins, after the first block.
            None if nothing follows.
    """

    def __init__(
        self,
        source: OpenStream,
        work: Work,
        after: int,
        limit: int,
        reaches: Callable[[Extent], bool] | None = None,
    ) -> None:
        """Takes the query, and the number of the feature after which the page begins. `reaches`
        tests the extent of a feature that the query selects."""
        self._source, self._work, self._limit = source, work, limit
        self._after, self._reaches = after, reaches
        self.header = b""
        self.next: int | None = None
        self._fids: dict[int, int] = {}
        self._blocks = self._read()

    def block(self) -> Block | None:
        """Returns the next block, or None at the end.

        Raises:
            CityseqError: As `cityseq.Index.select`.
        """
        return next(self._blocks, None)

    def blocks(self) -> Iterator[Block]:
        """Reads the first block, so that the attributes are known, and returns all blocks."""
        first, rest = self.block(), iter(self.block, None)
        return iter(()) if first is None else chain((first,), rest)

    def close(self) -> None:
        """Closes what is open. Does nothing while a thread makes a block."""
        with suppress(ValueError):
            self._blocks.close()

    def _read(self) -> Generator[Block, None, None]:
        stream = self._source.stream
        pool = self._source.pool
        with placed(stream, pool.base, pool.blocks) as place:
            self.header = header_of(stream, place)
            self._source.check(self.header)
            if self._work.box is not None and not stream.is_flat:
                judged(self._work, stream.path, self.header, b"", 0)  # it takes no box
            is_empty, more = True, True
            while is_empty and more:
                rows, more = self._candidates()
                self.next = self._after if more else None
                for part, numbers in _joined(lines_of(stream, place, rows)):
                    block = self._judged(part, numbers)
                    if block.raws:
                        is_empty = False
                        yield block

    def _candidates(self) -> tuple[list[Row], bool]:
        """Returns the next candidates, and whether more follow."""
        source = self._source
        with source.pool.index() as index:
            found = index.candidates(self._work, source.stream, self._after, self._limit + 1)
        rows = found[: self._limit]
        if rows:
            self._after = rows[-1][0]
        first = source.stream.first_fid - 1
        self._fids = {row.line: first + number for number, row in rows}
        return [row for _, row in rows], len(found) > self._limit

    def _judged(self, part: bytes, numbers: list[int]) -> Block:
        """Returns the kept features of some lines."""
        path = self._source.stream.path
        raws = judged(self._work, path, self.header, part, len(numbers))
        block = Block(self._source, part, raws, numbers, self._fids)
        return block if self._reaches is None else block.within(self._reaches)
