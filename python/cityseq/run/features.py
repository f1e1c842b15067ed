"""The kept features of a stream, one by one, or as columns of a table. numpy makes the columns of
many features."""
from __future__ import annotations

import builtins
import json
import struct
import sys
from array import array
from collections.abc import Iterator, Sequence
from dataclasses import dataclass, field
from functools import cached_property, lru_cache, partial
from itertools import chain
from math import nan
from typing import TYPE_CHECKING, TypeVar

from ..engine import (
    LOD_CLASSES,
    CallStatus,
    CityseqError,
    InvalidStream,
    MemoryFault,
    RawAnswer,
    RawFeature,
    ReadFault,
    Text,
    library,
)
from ..engine import records as records_of
from ..engine.judge import Work, held
from ..engine.records import Range
from ..engine.world import Axis, deep, units_of
from ..sources import CHANGED, Source, name_of
from ..sources.chunks import Chunks

if TYPE_CHECKING:
    from decimal import Decimal

    from ..attributes import Asked
    from ..engine.world import Extent
    from ..foreign import Array, Json, Object, Package

    Column = array[int]
    TableColumn = list[str] | list[tuple[str, ...]] | list[Json] | array[int] | array[float]


T = TypeVar("T", int, float)
ROOM = 1 << 19  # bytes of lines that are read at once
TOGETHER = 4_096  # features whose columns are made together
MANY = 262_144  # features after which numpy is loaded, which takes as long as it saves for so many
EDGES = ("xmin", "xmax", "ymin", "ymax", "zmin", "zmax")
COUNTS = {"length": 2, "objects": 7, "geometries": 8}  # members of a record
SETS = {"types": 9, "lods": 10}
RANGES = (11, 14, 17)  # whether a feature has vertices; the least and the greatest one follow
EXACT = 1 << 53  # whole numbers below this are floats


@dataclass(frozen=True)
class Feature:
    """A kept feature.

    Attributes:
        line: The number of its line in the stream, from 1.
        bytes: Its line, byte for byte, without the LF.
        id: Its id, with escapes undone. It may have a lone surrogate.
        objects: How many city objects it has.
        geometries: How many geometries these have.
        types: The names of the types of its city objects, each once, in the order of the table.
        lods: The classes of its LoDs, each once: "0" to "4", and "other". The class of the LoD
            2.2 is "2". `filter(lods="2.2")` selects by the exact text, and
            `info(exact_lods=True)` counts the exact texts.
        ranges: The least and greatest vertex on x, y and z, as the numbers in the line. Each is
            None if the feature has no vertex.
        header: The first line of the stream.
        attributes_place: Where the attributes of the main city object begin in `bytes`, and how
            long they are: 0 and 0 if it has none.
    """

    line: int
    bytes: builtins.bytes = field(repr=False)
    id: str
    objects: int
    geometries: int
    types: tuple[str, ...]
    lods: tuple[str, ...]
    ranges: tuple[Range, Range, Range]
    header: builtins.bytes = field(repr=False)
    attributes_place: tuple[int, int] = field(default=(0, 0), repr=False)

    @cached_property
    def attributes(self) -> Object:
        """The attributes of the main city object, as Python reads JSON. There are none if they are
        no object. Of a repeated name the first counts."""
        from ..attributes import told  # few runs need it

        begin, length = self.attributes_place
        return told(self.bytes[begin : begin + length])

    def json(self) -> Json:
        """Returns the feature as Python's JSON reader gives it."""
        return deep(partial(json.loads, self.bytes))

    @property
    def extent(self) -> tuple[Extent, Extent, Extent]:
        """The least and greatest world coordinate on x, y and z, as decimals. A coordinate of more
        than 200 digits is rounded outward. None if the feature has no vertex."""
        from ..engine.world import outer_extent_of, transform_of  # few runs need it

        return outer_extent_of(self.ranges, *transform_of(self.header))


def set_bits(bits: int, names: tuple[str, ...]) -> tuple[str, ...]:
    """Returns the names whose bits are set."""
    return tuple(name for number, name in enumerate(names) if bits >> number & 1)


def feature_of(raw: RawFeature, header: bytes, part: Text, lines: int) -> Feature:
    """Returns the feature of a record. `lines` lines came before the lines of the part."""
    line = bytes(part[raw.begin : raw.begin + raw.length])
    x, y, z = ((axis.least, axis.greatest) if axis.some else None for axis in raw.ranges)
    return Feature(
        raw.line + lines,
        line,
        json.loads(line[raw.id_begin : raw.id_begin + raw.id_length]),
        raw.objects,
        raw.geometries,
        set_bits(raw.types, library().count_names()),
        set_bits(raw.lods, LOD_CLASSES),
        (x, y, z),
        header,
        (raw.attributes_begin, raw.attributes_length),
    )


def fault_of(answer: RawAnswer, header: bytes, part: Text, lines: int, file: str) -> CityseqError:
    """Returns the fault for an answer that is not complete."""
    if answer.status == CallStatus.NO_MEMORY:
        return MemoryFault("out of memory", None, file)
    if answer.status == CallStatus.REFUSED:
        from ..engine.reports import report_of_end  # valid streams do without

        report = report_of_end(answer, header, held(part), file).moved(lines)
        return InvalidStream(str(report), None, file)
    return CityseqError(f"the library answered {answer.status}, code {answer.code}", None, file)


def parts_of(source: Source, work: Work, size: int | None = None) -> Iterator[tuple[bytes, Text]]:
    """Yields the header with each part. If no line follows it, yields it with an empty part. Raises
    the fault of a read after these."""
    chunks = Chunks(source, work, size)
    for chunk in chunks:
        for _, part in chunk.parts(chunk.length or 1):
            yield chunk.header, part
        if chunk.fault is not None:
            raise chunk.fault
    confirm(chunks)


def confirm(chunks: Chunks) -> None:
    """Raises `ReadFault` if a file has changed since its chunks were begun."""
    if chunks.is_changed:
        raise ReadFault(f"read fault: {CHANGED}", None, chunks.file)


def features(source: Source, work: Work) -> Iterator[Feature]:
    """Yields the kept features of a stream. Raises the fault that ends it, if one does."""
    file, lines = name_of(source), 0
    for header, view in parts_of(source, work):
        part = held(view)
        room = part.count(b"\n") + 1
        answer, _, raws = library().features(header, part, work.request(header, part), room)
        for raw in raws:
            yield feature_of(raw, header, part, lines)
        if answer.status != CallStatus.COMPLETE:
            raise fault_of(answer, header, part, lines, file)
        lines += answer.lines - 1


@lru_cache(maxsize=4_096)
def _names(column: str, bits: int) -> tuple[str, ...]:
    return set_bits(bits, library().count_names() if column == "types" else LOD_CLASSES)


def _all_names(column: str, sets: Column) -> list[tuple[str, ...]]:
    if _are_same(sets):
        return [_names(column, sets[0])] * len(sets)
    names = {bits: _names(column, bits) for bits in set(sets)}
    return list(map(names.__getitem__, sets))


def _are_same(column: Column) -> bool:
    return column == column[:1] * len(column)


def _packed(letter: str, values: Sequence[T]) -> array[T]:
    """Returns an array, which takes a third of the time that `array(letter, values)` takes."""
    return array(letter, struct.pack(f"{len(values)}{letter}", *values))


class _World:
    """World coordinates on an axis, as the nearest floats."""

    def __init__(self, scale: Decimal, shift: Decimal) -> None:
        self._given = scale, shift
        units = units_of(scale), units_of(shift)
        self._axis = None if None in units else Axis(*units)  # type: ignore[arg-type]

    def edges(self, np: Package | None, least: Column, greatest: Column) -> list[array[float]]:
        """Returns the least and the greatest coordinate of each feature, from its vertices. `np` is
        numpy or None."""
        by_sign = (greatest, least) if self._given[0].is_signed() else (least, greatest)
        return [self._floats(np, vertices) for vertices in by_sign]

    def _floats(self, np: Package | None, vertices: Column) -> array[float]:
        """By numpy, a quotient of floats is the nearest one to that of the numbers, if both are
        floats exactly."""
        axis = self._axis
        if _are_same(vertices):
            return _packed("d", self._nearest(vertices[:1].tolist())) * len(vertices)
        if np and axis:
            given = np.frombuffer(vertices, "i8")
            size = max(-int(given.min()), int(given.max()))
            if max(size * abs(axis.scale) + abs(axis.shift), axis.unit) < EXACT:
                return array("d", ((given * axis.scale + axis.shift) / axis.unit).tobytes())
        return _packed("d", self._nearest(vertices.tolist()))

    def _nearest(self, vertices: list[int]) -> list[float]:
        if self._axis is not None:
            return self._axis.nearest(vertices)
        from ..engine.world import nearest_floats  # few runs need it

        return nearest_floats(vertices, *self._given)


class _Table:
    """The columns of a table, to which rows are added."""

    def __init__(self, attributes: Asked = ()) -> None:
        self._attributes = attributes
        self._rows: list[Object] = []
        self._ids: list[str] = []
        self._counts: dict[str, array[int]] = {name: array("Q") for name in ("line", *COUNTS)}
        self._sets: dict[str, list[tuple[str, ...]]] = {name: [] for name in SETS}
        self._edges: dict[str, array[float]] = {name: array("d") for name in EDGES}
        self._world: list[_World] = []
        self._waiting: list[bytes] = []  # records
        self._waits = 0

    def add(self, header: bytes, part: Text, raw: bytes, lines: int) -> None:
        """Adds the features of a part, from their records. `lines` lines came before the part."""
        from ..engine.world import transform_of  # few runs need it

        self._world = self._world or [_World(*axis) for axis in zip(*transform_of(header))]
        ids = records_of.all_unescaped(records_of.spelled_ids(part, raw))
        self._ids += ids
        numbers = memoryview(raw).cast("q")[:: records_of.MEMBERS]
        places: Sequence[int] = range(numbers[0] + lines, numbers[-1] + lines + 1)
        if len(places) != len(ids):  # not all lines are kept
            places = [line + lines for line in numbers.tolist()]
        self._counts["line"] += _packed("Q", places)
        if self._attributes:
            from ..attributes import rows_of, texts_of  # few runs need it

            self._rows += rows_of(texts_of(part, raw), self._attributes)
        self._waiting.append(raw)
        self._waits += len(ids)
        if self._waits >= TOGETHER:
            self.end()

    def end(self) -> None:
        """Adds the columns of the records that wait."""
        if not self._waits:
            return
        has_many = len(self._ids) >= MANY or "numpy" in sys.modules
        np = _numpy() if has_many else None
        numbers = memoryview(b"".join(self._waiting)).cast("q")
        width = records_of.MEMBERS
        columns: Array | list[memoryview] = [numbers[member::width] for member in range(width)]
        if np:  # it copies them faster
            columns = np.frombuffer(numbers, "i8").reshape(-1, width).T.copy()
        for name, member in COUNTS.items():
            self._counts[name].frombytes(columns[member].tobytes())
        for name, member in SETS.items():
            self._sets[name] += _all_names(name, array("q", columns[member].tobytes()))
        some = columns[RANGES[0]].tolist()
        bare = [place for place, has in enumerate(some) if not has] if 0 in some else []
        for number, axis in enumerate(self._world):
            member = RANGES[number]
            ends = (array("q", columns[member + end].tobytes()) for end in (1, 2))
            for name, floats in zip(EDGES[2 * number :], axis.edges(np, *ends)):
                for place in bare:
                    floats[place] = nan
                self._edges[name] += floats
        self._waiting, self._waits = [], 0

    def columns(self) -> dict[str, TableColumn]:
        """Returns the columns. A name of an attribute that is taken gets a number."""
        found: dict[str, TableColumn] = {"id": self._ids, **self._counts, **self._sets}
        found.update(self._edges)
        asked = self._attributes
        if asked:
            from ..attributes.columns import ColumnNames  # few runs need it

            met = chain.from_iterable(self._rows)
            columns = ColumnNames(found)
            for name in dict.fromkeys(met) if isinstance(asked, str) else asked:
                found[columns.new(name)] = [row.get(name) for row in self._rows]
        return found


@lru_cache(maxsize=1)
def _numpy() -> Package | None:
    """Returns numpy. None if it is not installed."""
    try:
        import numpy
    except ImportError:
        return None
    return numpy


def table(source: Source, work: Work, attributes: Asked = ()) -> dict[str, TableColumn]:
    """Returns the columns of a table with a row for each kept feature."""
    made, file, lines = _Table(attributes), name_of(source), 0
    for header, part in parts_of(source, work, ROOM):
        answer, _, raw = records_of.call(work, header, part, 0)
        if raw:
            made.add(header, part, raw, lines)
        if answer.status != CallStatus.COMPLETE:
            raise fault_of(answer, header, part, lines, file)
        lines += answer.lines - 1
    made.end()
    return made.columns()
