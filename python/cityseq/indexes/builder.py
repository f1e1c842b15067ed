"""Writes an index: one thread takes the records of all parts, in order."""
from __future__ import annotations

import hashlib
import json
import os
import sqlite3
from collections.abc import Callable, Iterable, Iterator, Sequence
from contextlib import contextmanager, suppress
from dataclasses import dataclass, field
from decimal import Decimal
from functools import lru_cache, partial
from itertools import repeat
from typing import TYPE_CHECKING, NamedTuple

from ..attributes import Asked, Columns, columns_of, texts_of
from ..attributes.columns import AttributeColumns
from ..engine import LOD_CLASSES, Text, WriteFault, library, write_fault
from ..engine.judge import Answer, Work, judge
from ..engine.records import (
    Column,
    Records,
    Same,
    cut_fast,
    same_if_equal,
    spelled_ids,
    stored,
    stored_as_columns,
)
from ..engine.reports import Report
from ..engine.world import World, read_json, wider
from ..run import Result
from ..sources import State, is_url, target_of
from ..sources.chunks import Chunk
from ..sources.outputs import Part, checked_output
from . import bulk, footprints, geopackage
from .bulk import NOWHERE, Ranges, Sorter, Tree, insert, vectors_for
from .database import replaceable
from .geopackage import MOST_FEATURES, TREE, UNDEFINED, geometry_start, readable, system_of
from .line_reader import Blocks

if TYPE_CHECKING:
    from ..foreign import Cell, Cells
    from .index_run import Digests

PAGE = 1 << 14  # bytes of a page of the database: small ones leave more of them unused
CACHE = 8 << 20  # bytes of the database that are in memory
FULL = 1 << 20  # bytes: a disk with less than this is full
FOLDERS = ("/var/tmp", "/usr/tmp", "/tmp")  # where SQLite has temporary files if no variable is set


@lru_cache(maxsize=4_096)
def names_of_types(bits: int) -> str:
    """Returns the names of a set of types, with commas between them."""
    return ",".join(name for n, name in enumerate(library().count_names()) if bits >> n & 1)


@lru_cache(maxsize=64)
def names_of_lods(bits: int) -> str:
    """Returns the classes of a set of LoDs, with commas between them."""
    return ",".join(name for n, name in enumerate(LOD_CLASSES) if bits >> n & 1)


class File(NamedTuple):
    """The file of a stream.

    Attributes:
        path: Its path.
        packing: How it is packed, by the word that the index uses.
        state: Its size and time.
        content: Its hash.
        blocks: Its blocks, if it is packed by BGZF.
    """

    path: str
    packing: str | None
    state: State
    content: str
    blocks: Blocks | None = None


@dataclass
class Entry:
    """A stream of an index, as far as it has been read.

    Attributes:
        number: Its number in the index, from 1.
        header: Its first line, with the LF.
        ranges: The least and greatest vertex on each axis.
    """

    number: int
    header: bytes
    first_fid: int
    world: World = field(init=False)
    system: int = field(init=False)
    reference: str | None = field(init=False)
    transform: dict[str, list[Decimal]] = field(init=False)
    ranges: Ranges = NOWHERE

    def __post_init__(self) -> None:
        told = read_json(self.header.decode("utf-8"))
        self.transform = told["transform"]
        self.world = World(self.transform["scale"], self.transform["translate"])
        self.reference, self.system = system_of(told.get("metadata"))

    def widen(self, ranges: Ranges) -> None:
        """Takes the ranges of some more features."""
        x, y, z = map(wider, self.ranges, ranges)
        self.ranges = x, y, z

    def of_header(self) -> tuple[str, str, str | None]:
        """Returns the columns that the header alone gives: scale, translate, reference system."""
        scale, translate = (
            json.dumps([str(number) for number in self.transform[name]])
            for name in ("scale", "translate")
        )
        return scale, translate, None if self.reference is None else readable(self.reference)

    def extent(self) -> tuple[float | None, ...]:
        """Returns the least and greatest x, y and z of the stream, or None for each."""
        axes = (self.world.x, self.world.y, self.world.z)
        return tuple(
            edge
            for axis, vertices in zip(axes, self.ranges)
            for edge in (
                (None, None) if axis is None or vertices is None else axis.interval(*vertices)
            )
        )


class Wanted(NamedTuple):
    """What an index takes from the lines of features, in addition to their records.

    Attributes:
        footprints: Whether footprints are.
        attributes: The names of attributes, or `all`. None for none.
    """

    footprints: bool = False
    attributes: Asked | None = None


class Details(NamedTuple):
    """What was taken from the lines of a part.

    Attributes:
        ids: The ids of the features, as the lines spell them.
        footprints: Their footprints, if these are wanted.
        attributes: The values of their attributes, if these are wanted.
    """

    ids: list[bytes]
    footprints: list[bytes | None] | None = None
    attributes: Columns | None = None


def _details(header: bytes, wanted: Wanted, part: Text, raw: bytes) -> Details:
    """Returns the details of the features of a part, by their records."""
    names, text = wanted.attributes, cut_fast(part, raw)
    return Details(
        spelled_ids(text, raw),
        footprints.in_part(header, part, raw) if wanted.footprints else None,
        None if names is None else columns_of(texts_of(text, raw), names),
    )


def judge_details(chunk: Chunk, work: Work, size: int | None, wanted: Wanted) -> Answer:
    """Judges a chunk. Its records have the details of the features in place of their ids."""
    return judge(chunk, work, size, partial(_details, chunk.header, wanted))


def temporary_folder() -> str:
    """Returns the folder in which SQLite makes temporary files."""
    named = (os.environ.get(name) for name in ("SQLITE_TMPDIR", "TMPDIR"))
    for folder in (*filter(None, named), *FOLDERS):
        if os.path.isdir(folder) and os.access(folder, os.W_OK | os.X_OK):
            return folder
    return os.curdir


def is_full(folder: str) -> bool:
    """Whether the disk of a folder is full."""
    try:
        state = os.statvfs(folder)
    except OSError:
        return False
    return state.f_bavail * state.f_frsize < FULL


def database_fault(fault: sqlite3.Error, name: str) -> WriteFault:
    """Returns the fault for an error of SQLite while it writes a database. It names the folder of
    temporary files if that is full and the folder of the database is not."""
    folder = temporary_folder()
    beside = os.path.dirname(os.path.realpath(name))
    if "full" in str(fault) and is_full(folder) and not is_full(beside):
        return WriteFault("write fault: no space left for temporary files", None, folder)
    return write_fault(fault, name)


@contextmanager
def telling_of(name: str) -> Iterator[None]:
    """Turns an error of SQLite into a write fault."""
    try:
        yield
    except sqlite3.Error as fault:
        raise database_fault(fault, name) from fault


def _filled(values: Iterable[Cell] | None, some: Iterable[bool] | None) -> Column:
    """Returns a column with the next value for each feature that has one, and None for others. If
    `some` is None, all have one."""
    if values is None:
        return Same(None)
    if some is None:
        return values
    given = iter(values)
    return [next(given) if each else None for each in some]


def _first(column: Column) -> Cell:
    """Returns the first value of a column that has one."""
    return column.value if isinstance(column, Same) else next(iter(column))


def _same_if_equal(column: Column) -> Column:
    return column if isinstance(column, Same) else same_if_equal(list(column))


def _named(sets: Column, names: Callable[[int], str]) -> Column:
    """Returns a column of the names of sets."""
    return Same(names(sets.value)) if isinstance(sets, Same) else list(map(names, sets))


class Builder:
    """Writes an index to `.NAME.*.part`, and renames it when it is whole."""

    def __init__(self, path: str, wanted: Wanted = Wanted()) -> None:
        """Takes the name of the index, and what it has of the lines. It opens no file.

        Raises:
            RequestError: The name is empty.
            WriteFault: An index cannot have this name.
        """
        self.name, self.wanted, self._fid = checked_output(path), wanted, 0
        names = wanted.attributes
        self._attributes = None if names is None else AttributeColumns(names)
        self._are_last = self._attributes is not None and self._attributes.are_last
        self._systems: set[int] = set()  # of coordinates
        self._opened: sqlite3.Connection | None = None
        self._usual: Cells | None = None  # the uniform columns of the first feature
        self._count = 0  # of the uniform columns that rows have
        self._cells = Sorter()
        self.digests: Digests  # `written` sets what makes the hashes of the streams
        target = target_of(path)
        if target is None:
            what = "Is a directory" if os.path.isdir(path) else "an index is a regular file"
            raise WriteFault(f"write fault: {what}", None, path)
        self._part = Part(target)

    @property
    def _base(self) -> sqlite3.Connection:
        assert self._opened is not None
        return self._opened

    def open(self) -> None:
        """Begins the file. An interrupt may come at once, so who calls it must call `discard`.

        Raises:
            RequestError: A file has the name of the index, and is none.
            WriteFault: It cannot be opened or written, or another program has an older index open.
        """
        with replaceable(self.name):
            pass  # to know it before all streams are read
        try:
            os.close(self._part.make())
        except OSError as fault:
            raise write_fault(fault, self.name) from fault
        self._opened = sqlite3.connect(self._part.path, isolation_level=None)
        with telling_of(self.name):
            for setting in (
                f"page_size = {PAGE}",
                "journal_mode = OFF",
                "synchronous = OFF",
                "locking_mode = EXCLUSIVE",
                f"cache_size = -{CACHE >> 10}",
            ):
                self._base.execute(f"PRAGMA {setting}")
            self._base.execute("BEGIN")
            geopackage.create(self._base)
            if self.wanted.footprints:
                self._base.execute(footprints.TABLE)
            if self._attributes is not None:
                self._attributes.begin(self._base)

    def begin(self, number: int, header: bytes) -> Entry:
        """Begins the next stream, whose header is valid."""
        return Entry(number, header, self._fid + 1)

    def add(self, entry: Entry, records: Records, lines: int) -> None:
        """Writes the records of the next part of a stream. `lines` lines came before the part.

        Raises:
            WriteFault: They cannot be written.
        """
        details = records.ids if isinstance(records.ids, Details) else Details(records.ids)
        numbers = range(self._fid + 1, self._fid + 1 + len(details.ids))
        if numbers.stop > MOST_FEATURES:
            raise WriteFault(f"write fault: more than {MOST_FEATURES:,} features", None, self.name)
        self._fid += len(numbers)
        made = (vectors_for(len(numbers)) or bulk).columns_of(
            records, lines, numbers, entry.world, geometry_start(entry.system)
        )
        entry.widen(made.ranges)
        names, exact = stored_as_columns(details.ids)
        geometry, zmin, zmax = (
            _filled(column, made.has_place) for column in (made.geometry, made.zmin, made.zmax)
        )
        uniform = (
            _same_if_equal(zmin),
            _same_if_equal(zmax),
            _named(made.types, names_of_types),
            _named(made.lods, names_of_lods),
            made.objects,
            made.geometries,
            Same(entry.number),
            exact,
        )
        if details.footprints is not None:
            geometry = geometry if isinstance(geometry, Same) else list(geometry)
            self._add_footprints(numbers, details.footprints, geometry)
        others = (numbers, geometry, made.line, made.begin, made.length, names)
        with telling_of(self.name):
            kept = self._stored(uniform)
            values = self._values(details.attributes, numbers)
            last = (*kept, *values) if self._are_last else (*values, *kept)
            insert(self._base, "features", *others, *last)
        self._cells.add(made.cells)

    def _add_footprints(
        self, numbers: range, grounds: Sequence[bytes | None], geometry: Column
    ) -> None:
        """Writes the footprints of features, which are their extents if they have no ground."""
        boxes = repeat(geometry.value) if isinstance(geometry, Same) else geometry
        made = [ground or footprints.of_box(box) for ground, box in zip(grounds, boxes)]
        with telling_of(self.name):
            insert(self._base, geopackage.FOOTPRINTS, numbers, made)

    def _values(self, met: Columns | None, numbers: range) -> Sequence[Column]:
        """Returns the columns of attributes."""
        if self._attributes is None or met is None:
            return []
        return self._attributes.rows(self._base, met, numbers)

    def _stored(self, columns: Sequence[Column]) -> Sequence[Column]:
        """Returns those of the uniform columns that rows have from now on. The others have had one
        value in all rows."""
        if self._usual is None:
            zmin, zmax, *others, _ = map(_first, columns)
            heights = (geopackage.as_default(self._base, height) for height in (zmin, zmax))
            self._usual = (*heights, *others, None)  # few ids need `id_exact`
        pairs = zip(columns, self._usual)
        differing = [place for place, (column, usual) in enumerate(pairs) if column != Same(usual)]
        if self._are_last:
            differing = [len(columns) - 1]
        self._add_columns(differing[-1] + 1 if differing else 0)
        return columns[: self._count]

    def _add_columns(self, count: int) -> None:
        """Adds uniform columns to the table, until it has so many."""
        usual = self._usual or geopackage.NO_FEATURE
        geopackage.add_columns(self._base, self._count, count, usual)
        self._count = max(self._count, count)

    def report(self, number: int, report: Report) -> None:
        """Writes that a line of a stream is invalid and left out.

        Raises:
            WriteFault: It cannot be written.
        """
        name = None if report.id is None else stored(report.id)[0]
        row = (number, report.line, report.byte, report.code, report.text, name, report.excerpt)
        with telling_of(self.name):
            self._base.execute("INSERT INTO reports VALUES (NULL,?,?,?,?,?,?,?)", row)

    def end(self, entry: Entry, file: File, result: Result) -> None:
        """Writes the row of a stream, after all of it was read.

        Raises:
            WriteFault: It cannot be written.
        """
        self._systems.add(entry.system)
        row = (
            entry.number,
            *_path_columns(file.path, self.name),
            file.packing,
            *file.state,
            file.content,
            len(entry.header),
            hashlib.sha256(entry.header).hexdigest(),
            *entry.of_header(),
            result.lines,
            result.features,
            result.refused,
            entry.first_fid,
            *entry.extent(),
        )
        with telling_of(self.name):
            self._base.execute(f"INSERT INTO streams VALUES ({','.join('?' * len(row))})", row)
            if file.blocks is not None:
                file.blocks.write(self._base, entry.number)

    def finish(self, work: Work, program: str) -> None:
        """Writes the rest, and gives the file its name.

        Raises:
            WriteFault: It cannot be written.
        """
        base = self._base
        with telling_of(self.name):
            system = self._one_system()
            base.execute(geopackage.IDS)
            self._add_columns(len(geopackage.UNIFORM))
            count = self._cells.count
            Tree(base, TREE).write(self._cells.rows(), count, self._fid)
            if self._attributes is not None:
                self._attributes.end(base)
            geopackage.describe(base, system)
            rules = (work.tree, work.extensions, work.keep_going, work.line_limit, work.depth)
            base.execute(
                "INSERT INTO cityseq_index VALUES (?,?,?,?,?,?,?,0,?)",
                (geopackage.VERSION, program, *rules, count),
            )
            base.execute("COMMIT")
            base.close()
        with replaceable(self.name):
            try:
                self._part.replace()
            except OSError as fault:
                raise write_fault(fault, self.name) from fault

    def _one_system(self) -> int:
        """Returns the system of all streams, or -1 if they differ. All polygons have it then."""
        if len(self._systems) == 1:
            return next(iter(self._systems))
        if len(self._systems) > 1:
            start = geometry_start(UNDEFINED)[:8]
            moved: Callable[[bytes], bytes] = lambda geom: start + geom[len(start) :]
            self._base.create_function("moved", 1, moved)
            for layer in ("features", *([geopackage.FOOTPRINTS] if self.wanted.footprints else [])):
                self._base.execute(f"UPDATE {layer} SET geom = moved(geom) WHERE geom NOT NULL")
        return UNDEFINED

    @property
    def unmet(self) -> Sequence[str]:
        """The attributes that are wanted, and that no feature has."""
        return () if self._attributes is None else self._attributes.unmet()

    def discard(self) -> None:
        """Removes what was written, if the index is not whole."""
        if self._opened is not None:
            with suppress(sqlite3.Error):
                self._opened.close()
        self._cells.close()
        self._part.discard()


def _path_columns(path: str, index: str) -> tuple[str, bytes | None]:
    """Returns the path of a stream for an index. A path below the folder of the index, or below the
    folder that this one is in, is relative to it, so that both can be moved together. Links of
    folders are followed, since a folder above a linked one is that of its target. A URL stays."""
    if is_url(path):
        return path, None
    folder, (above, name) = os.path.dirname(os.path.realpath(index)), os.path.split(path)
    whole = os.path.join(os.path.realpath(above or os.curdir), name)
    around = os.path.dirname(folder)
    near = folder if around == os.path.dirname(around) else around  # not the root
    is_near = os.path.commonpath([whole, near]) == near
    told = os.path.relpath(whole, folder) if is_near else whole
    text, exact = stored(told)
    return text, None if exact is None else os.fsencode(told)
