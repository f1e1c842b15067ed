"""Very many rows of an index: columns from records, sorted rows, inserts, and the spatial index,
which is written at once. numpy does some of it for many rows, if it is installed.

The spatial index is a table `rtree` of SQLite. One insert after another takes several times as
long, and leaves nodes half full. So this module writes its three tables. SQLite documents them
("The SQLite R*Tree Module", section "Shadow Tables"), and `rtreecheck` of SQLite finds every
mistake in them. A node has its depth if it is the root, the number of its cells, and the cells. A
cell has a 64-bit number, then the least and the greatest x and y as 32-bit floats, all big-endian.
"""
from __future__ import annotations

import heapq
import sqlite3
import struct
import tempfile
from array import array
from collections.abc import Callable, Iterable, Iterator, Sequence
from contextlib import suppress
from functools import lru_cache
from itertools import chain, compress, islice, pairwise
from typing import IO, TYPE_CHECKING, NamedTuple

from ..engine import write_fault
from ..engine.records import Column, Range, Same, same_if_equal
from ..engine.world import World
from .geopackage import polygons

if TYPE_CHECKING:
    from types import ModuleType

    from ..engine.records import Records


MANY = 512  # rows, from which numpy takes less time
VALUES = 700  # of one statement: older versions of SQLite take at most 999
BLOCK = 1 << 16  # rows that are sorted at once
PIECE = 1 << 9  # rows of a block that are read at once
TOGETHER = 1 << 12  # rows that are merged at once
ROOT = 1
CELL = struct.Struct(">q4f")
# A 32-bit float differs by less than this from the number that is rounded to it.
INWARD, OUTWARD = 1 - 2.0**-23, 1 + 2.0**-23
KEY = 8  # bytes
ROW = KEY + CELL.size  # bytes of a key and its cell
_ROW = struct.Struct(f"{ROW}s")
# Each half of a byte as a byte, with a zero between each two bits.
_SPREAD = bytes(sum((half >> bit & 1) << 2 * bit for bit in range(4)) for half in range(16))
UPPER, LOWER = bytes(_SPREAD[byte >> 4] for byte in range(256)), _SPREAD * 16
Ranges = tuple[Range, Range, Range]
NOWHERE: Ranges = (None, None, None)


@lru_cache(maxsize=None)
def _vectors() -> ModuleType | None:
    try:
        from . import vectors
    except (ImportError, MemoryError):
        return None
    return vectors


def vectors_for(count: int, many: int = MANY) -> ModuleType | None:
    """Returns the module `vectors` for so many rows. None if they are fewer than `many`, or if
    numpy is not installed."""
    return _vectors() if count >= many else None


@lru_cache(maxsize=1_024)
def _statement(table: str, columns: Sequence[bool], rows: int) -> str:
    """Returns a statement for so many rows. A column is true if it has one value in all rows. These
    values come first."""
    first, width = sum(columns), columns.count(False)
    same, others = iter(range(1, first + 1)), iter(range(first + 1, first + rows * width + 1))
    numbers = [next(same) if column else 0 for column in columns]
    made = (",".join(f"?{number or next(others)}" for number in numbers) for _ in range(rows))
    return f"INSERT INTO {table} VALUES {','.join(f'({row})' for row in made)}"


def insert(base: sqlite3.Connection, table: str, *columns: Column) -> None:
    """Inserts rows into a table, from their columns. It ends with the shortest column, and one at
    least has many values."""
    pattern = tuple(isinstance(column, Same) for column in columns)
    same = tuple(column.value for column in columns if isinstance(column, Same))
    others = [column for column in columns if not isinstance(column, Same)]
    width, together = len(others), max((VALUES - len(same)) // len(others), 1)
    values = chain.from_iterable(zip(*others))
    whole = _statement(table, pattern, together)
    part = tuple(islice(values, together * width))
    while len(part) == together * width:
        base.execute(whole, same + part)
        part = tuple(islice(values, together * width))
    if part:
        base.execute(_statement(table, pattern, len(part) // width), same + part)


def in_order(rows: bytes) -> bytes:
    """Returns rows sorted by their bytes. Those with one key come in order."""
    vectors = vectors_for(len(rows) // ROW)
    if vectors is not None:
        ordered: bytes = vectors.in_order(rows)
        return ordered
    return b"".join(sorted(_each(rows)))


def _each(rows: bytes) -> Iterator[bytes]:
    """Yields rows one by one."""
    return chain.from_iterable(_ROW.iter_unpack(rows))


class Sorter:
    """Takes keys with their cells in any order, and returns them sorted. No two rows are equal.
    Those with one key come in order. Leaving a `with` block closes it.

    Attributes:
        count: How many rows it has.
    """

    def __init__(self) -> None:
        self.count = 0
        self._file: IO[bytes] | None = None
        self._waiting: list[bytes] = []  # rows that are in no block yet
        self._waits = 0
        self._ends = [0]  # of the blocks in the file

    def __enter__(self) -> Sorter:
        return self

    def __exit__(self, *_: object) -> None:
        self.close()

    def close(self) -> None:
        """Removes the temporary file."""
        if self._file is not None:
            with suppress(OSError):  # what could not be written is written again
                self._file.close()

    def add(self, rows: bytes) -> None:
        """Takes rows.

        Raises:
            WriteFault: The temporary folder is full.
        """
        self.count += len(rows) // ROW
        self._waiting.append(rows)
        self._waits += len(rows) // ROW
        if self._waits >= BLOCK:
            try:
                self._write()
            except OSError as fault:
                raise write_fault(fault, tempfile.gettempdir()) from fault

    def _write(self) -> None:
        """Writes the waiting rows as a block."""
        if self._file is None:
            self._file = tempfile.TemporaryFile()
        rows = self._sorted_waiting()
        self._file.write(rows)
        self._file.flush()
        self._ends.append(self._ends[-1] + len(rows))

    def _sorted_waiting(self) -> bytes:
        rows = b"".join(self._waiting)
        self._waiting, self._waits = [], 0
        return in_order(rows)

    def _block(self, file: IO[bytes], begin: int, end: int) -> Iterator[bytes]:
        """Yields the rows of the file from one place to another. They are read piece by piece."""
        while begin < end:
            file.seek(begin)
            rows = file.read(min(PIECE * ROW, end - begin))
            begin += len(rows)
            yield from _each(rows)

    def rows(self) -> Iterator[bytes]:
        """Yields all rows in order, many together. No row is added after this.

        Raises:
            WriteFault: The temporary folder is full, or cannot be read.
        """
        if self._file is None:
            yield self._sorted_waiting()
            return
        try:
            self._write()
            blocks = (self._block(self._file, *ends) for ends in pairwise(self._ends))
            merged = heapq.merge(*blocks)
            while rows := b"".join(islice(merged, TOGETHER)):
                yield rows
        except OSError as fault:
            raise write_fault(fault, tempfile.gettempdir()) from fault


def _down(numbers: Iterable[float]) -> list[float]:
    """Returns numbers that are no greater as 32-bit floats."""
    return [number * (INWARD if number > 0 else OUTWARD) for number in numbers]


def _up(numbers: Iterable[float]) -> list[float]:
    """Returns numbers that are no less as 32-bit floats."""
    return [number * (OUTWARD if number > 0 else INWARD) for number in numbers]


def cells_of(
    numbers: Iterable[int],
    xmin: Iterable[float],
    xmax: Iterable[float],
    ymin: Iterable[float],
    ymax: Iterable[float],
) -> Iterator[bytes]:
    """Yields the cell of each feature, with its extent rounded outward."""
    return map(CELL.pack, numbers, _down(xmin), _up(xmax), _down(ymin), _up(ymax))


def _spread(numbers: Sequence[float]) -> int:
    """Returns numbers as 32-bit floats in keys, one after another. Of each the upper 24 bits have a
    zero between each two.

    First all bits of negative numbers are inverted, and the sign bit of others. Then floats have
    the order of their bits.
    """
    count = len(numbers)
    words = struct.unpack(f">{count}I", struct.pack(f">{count}f", *numbers))
    ordered = struct.pack(
        f">{count}I", *(word ^ (0xFFFFFFFF if word >> 31 else 0x80000000) for word in words)
    )
    keys = bytearray(KEY * count)
    for place in range(3):
        column = ordered[place::4]
        keys[2 + 2 * place :: KEY] = column.translate(UPPER)
        keys[3 + 2 * place :: KEY] = column.translate(LOWER)
    return int.from_bytes(keys, "big")


def keys_of(x: Sequence[float], y: Sequence[float]) -> tuple[int, ...]:
    """Returns where points are on a Morton curve. Near points are mostly near on it."""
    keys = (_spread(x) | _spread(y) << 1).to_bytes(KEY * len(x), "big")
    found: tuple[int, ...] = struct.unpack(f">{len(x)}Q", keys)
    return found


@lru_cache(maxsize=192)
def _reader(pattern: str, count: int) -> struct.Struct:
    """Returns what reads a pattern so many times."""
    return struct.Struct(">" + pattern * count)


def _around(cells: bytes) -> tuple[float, float, float, float]:
    """Returns the extent of all cells together."""
    edges = _reader("8x4f", len(cells) // CELL.size).unpack(cells)
    return min(edges[::4]), max(edges[1::4]), min(edges[2::4]), max(edges[3::4])


class Tree:
    """Writes the nodes of an index, level by level from the leaves on."""

    def __init__(self, base: sqlite3.Connection, name: str) -> None:
        self._base, self._name = base, name
        (self._size,) = base.execute(f"SELECT length(data) FROM {name}_node").fetchone()
        self._most = (self._size - 4) // CELL.size
        self._last = ROOT  # the node that was numbered last

    def _node(self, depth: int, cells: bytes) -> bytes:
        data = struct.pack(">HH", depth, len(cells) // CELL.size) + cells
        return data + bytes(self._size - len(data))

    def _groups(self, pieces: Iterator[bytes], count: int, width: int) -> Iterator[bytes]:
        """Yields the rows of each node, from pieces that hold many rows of so many bytes. All nodes
        have the same number of rows, or one more."""
        nodes = -(-count // self._most)
        held, begin = b"", 0
        for node in range(nodes):
            size = (node + 1) * count // nodes - node * count // nodes
            end = begin + size * width
            while end > len(held):
                held, begin, end = held[begin:] + next(pieces), 0, end - begin
            yield held[begin:end]
            begin = end

    def _level(self, groups: Iterable[bytes], above: bytearray) -> Iterator[tuple[int, bytes]]:
        """Yields each node of a level as its number and its cells, and adds its cell to `above`."""
        for group in groups:
            self._last += 1
            above += CELL.pack(self._last, *_around(group))
            yield self._last, group

    def _write(
        self, level: Iterable[tuple[int, bytes]], noted: Callable[[int, bytes], None]
    ) -> None:
        """Writes the nodes of a level, and passes the number and the cells of each to `noted`."""
        for number, group in level:
            data = self._node(0, group)
            self._base.execute(f"INSERT INTO {self._name}_node VALUES (?,?)", (number, data))
            noted(number, group)

    def _note_parents(self, number: int, group: bytes) -> None:
        """Writes the node of each node in a group of cells."""
        insert(self._base, f"{self._name}_parent", numbers_of(group), Same(number))

    def write(self, rows: Iterator[bytes], count: int, last: int) -> None:
        """Writes the index.

        Args:
            rows: The key of each cell, and then the cell, in the order of the keys. Each piece has
                many.
            count: How many cells there are.
            last: A number that none of theirs is greater than.
        """
        leaves = array("I", bytes(4 * (last + 1)))  # the node of each cell, by its number

        def note_leaves(number: int, group: bytes) -> None:
            for cell in numbers_of(group):
                leaves[cell] = number

        groups: Iterator[bytes] = map(_without_keys, self._groups(rows, count, ROW))
        depth, noted = 0, note_leaves
        while count > self._most:
            above = bytearray()
            self._write(self._level(groups, above), noted)
            count = len(above) // CELL.size
            groups = self._groups(iter([bytes(above)]), count, CELL.size)
            depth, noted = depth + 1, self._note_parents
        root = b"".join(groups)
        data = self._node(depth, root)
        self._base.execute(f"UPDATE {self._name}_node SET data = ? WHERE nodeno = {ROOT}", (data,))
        noted(ROOT, root)
        placed = compress(range(last + 1), leaves)
        insert(self._base, f"{self._name}_rowid", placed, filter(None, leaves))


def numbers_of(cells: bytes) -> Sequence[int]:
    """Returns the numbers of cells."""
    found: Sequence[int] = _reader("q16x", len(cells) // CELL.size).unpack(cells)
    return found


def _without_keys(rows: bytes) -> bytes:
    """Returns the cells of rows."""
    return b"".join(_reader(f"{KEY}x{CELL.size}s", len(rows) // ROW).unpack(rows))


class Columns(NamedTuple):
    """The columns of the features of a part.

    Attributes:
        line, begin, length, objects, geometries: Those of the table `features`.
        types, lods: Sets, as numbers whose bits are the names.
        has_place: Whether each feature has a vertex. None if all have one.
        geometry, zmin, zmax: Those of the features with a vertex. None if no box can be asked for.
        cells: The same features in the spatial index: for each the key, and then the cell.
        ranges: The least and the greatest vertex on each axis.
    """

    line: Column
    begin: Column
    length: Column
    objects: Column
    geometries: Column
    types: Column
    lods: Column
    has_place: Sequence[bool] | None
    geometry: Iterable[bytes] | None = None
    zmin: Iterable[float] | None = None
    zmax: Iterable[float] | None = None
    cells: bytes = b""
    ranges: Ranges = NOWHERE


def columns_of(
    records: Records, lines: int, numbers: Sequence[int], world: World, start: bytes
) -> Columns:
    """Returns the columns of a part.

    Args:
        records: The records of its features, which are at least one.
        lines: How many lines come before the part.
        numbers: The number of each feature in the index.
        world: The map from vertices to world coordinates.
        start: The beginning of each polygon.
    """
    line, begin, length, _, _, _, _, objects, geometries, types, lods, *vertices = records.columns()
    some = vertices[0]
    edges = [list(compress(vertices[place], some)) for place in (1, 2, 4, 5, 7, 8)]
    columns = Columns(
        line=[number + lines for number in line],
        begin=[place + records.begin for place in begin],
        length=length,
        objects=same_if_equal(objects),
        geometries=same_if_equal(geometries),
        types=same_if_equal(types),
        lods=same_if_equal(lods),
        has_place=None if all(some) else list(map(bool, some)),
    )
    if not edges[0]:
        return columns
    columns = columns._replace(ranges=_ranges(edges))
    if world.z is not None:
        zmin, zmax = world.z.intervals(*edges[4:])
        columns = columns._replace(zmin=zmin, zmax=zmax)
    if world.x is None or world.y is None:
        return columns
    box = (*world.x.intervals(*edges[:2]), *world.y.intervals(*edges[2:4]))
    cells = cells_of(compress(numbers, some), *box)
    return columns._replace(
        geometry=polygons(start, *box),
        cells=b"".join(map(b"".join, zip(_keys(box[0], box[2]), cells))),
    )


def _ranges(edges: list[list[int]]) -> Ranges:
    x, y, z = ((min(least), max(greatest)) for least, greatest in zip(edges[::2], edges[1::2]))
    return x, y, z


def _keys(x: Sequence[float], y: Sequence[float]) -> Iterable[bytes]:
    """Returns where points are on the curve of the spatial index, each as eight bytes."""
    return map(struct.Struct(">Q").pack, keys_of(x, y))
