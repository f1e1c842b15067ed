"""Gathers the facts of a delivery: threads judge parts and read records, and one thread adds them
up."""
from __future__ import annotations

import json
import sqlite3
from collections.abc import Callable, Iterable, Iterator, Sequence
from contextlib import contextmanager, suppress
from dataclasses import dataclass, field, replace
from decimal import Decimal, DecimalException
from functools import partial
from hashlib import blake2b
from itertools import chain, groupby, islice
from operator import itemgetter
from typing import TYPE_CHECKING

from ..engine import LOD_CLASSES, Text, library, write_fault
from ..engine.judge import Answer, Work, judge, refused_memory
from ..engine.records import IdsOf, Range, Records, spelled_ids, unescaped
from ..engine.reports import TOO_LONG, Invalid, Report
from ..engine.world import box_of, extent_of, read_json
from ..indexes.builder import temporary_folder
from ..indexes.bulk import insert
from ..indexes.geopackage import system_of
from ..indexes.vectors import AXES, RECORD
from ..run import Result
from ..run.streams import Stream
from ..sources import stream_of
from ..sources.chunks import TAIL, Chunk
from . import Lists, needed
from .areas import Place
from .facts import Area, Contents, File, Named, Point, Reasons, Repeated, RepeatedId

if TYPE_CHECKING:
    import numpy as np

    from ..foreign import Array
    from . import How
else:
    np = needed("numpy")

TOGETHER = 8_192  # records that are taken at once: a part may have only a few
MOST_REPORTS = 10_000  # reports that are kept for the table in the page
NEAR_THE_END = 16 << 20  # bytes at the end of an invalid line that are searched for vertices
LONGEST = 256  # bytes of an id that are kept
MOST_IDS = 100  # ids that are listed
MOST_PLACES = 10  # places of each id
LINES = 40  # bits of a line in a place, which begins with the number of the file
Ranges = tuple[Range, Range, Range]


# ---- where invalid features are


@dataclass
class Marked(Answer):
    """The answer for some lines, with the middle of the vertices of each invalid feature. A feature
    that cannot be read has none."""

    middles: list[Point] = field(default_factory=list)


def middle_of(line: bytes) -> Point | None:
    """Returns the middle of the vertices of a feature, as the numbers in its line. It is the median
    of x and of y, because one wrong vertex hardly moves these. None if they cannot be read."""
    begin = line.rfind(b'"vertices"', -NEAR_THE_END)
    begin = line.find(b"[", begin) if begin >= 0 else -1
    if begin < 0:
        return None
    try:
        vertices, _ = json.JSONDecoder().raw_decode(line[begin:].decode("utf-8", "replace"))
        x, y = zip(*((float(vertex[0]), float(vertex[1])) for vertex in vertices))
    except (ValueError, TypeError, IndexError, KeyError, OverflowError, RecursionError):
        return None
    return sorted(x)[len(x) // 2], sorted(y)[len(y) // 2]


def middles_of(invalid: Iterable[Invalid]) -> Iterator[Point]:
    """Yields the middle of each invalid feature that has one."""
    for lines in invalid:
        for (line, _, code), content in lines.contents():
            text = content[-TAIL:] if code == TOO_LONG else content
            middle = middle_of(text) if line > 1 else None
            if middle is not None:
                yield middle


def marked(
    chunk: Chunk, work: Work, size: int | None, ids_of: IdsOf, is_marked: Callable[[], bool]
) -> Answer:
    """Returns the answer for a chunk, with the middles of its invalid features. The middles are
    left out if the map has enough of them."""
    answer = judge(chunk, work, size, ids_of)
    if not answer.invalid or is_marked():
        return answer
    try:
        found = (lines for lines in answer.invalid if isinstance(lines, Invalid))
        middles = list(middles_of(found))
    except MemoryError:
        return refused_memory()
    return Marked(**vars(answer), middles=middles)


# ---- what is in features


def _zeros() -> Array:
    return np.zeros(64, "i8")


@dataclass
class Entry:
    """A file as far as it has been read. Its header is valid."""

    number: int
    place: Place
    scale: list[Decimal]
    translate: list[Decimal]
    reference_system: str | None
    types: Array = field(default_factory=_zeros)
    lods: Array = field(default_factory=_zeros)
    lengths: Array = field(default_factory=_zeros)
    features: int = 0
    longest: int = 0
    ranges: Ranges = (None, None, None)
    waiting: list[tuple[Records, int]] = field(default_factory=list)  # with ids as `ids_of` has
    waits: int = 0

    def world(self, axis: int, vertices: Array) -> Array:
        """Returns the world coordinates of vertices on an axis, as floats."""
        with np.errstate(all="ignore"):
            return vertices * float(self.scale[axis]) + float(self.translate[axis])

    def add(self, records: Array, named: Callable[[int, Point], Named]) -> None:
        """Takes the records of features. `named` names one of them by its number."""
        self.features += len(records)
        self.longest = max(self.longest, int(records["length"].max(initial=0)))
        self.types += _bits(records["types"])
        self.lods += _bits(records["lods"])
        self.lengths += np.bincount(np.frexp(records["length"].astype("f8"))[1], minlength=64)
        numbers = np.flatnonzero(records["x"])
        some = records if len(numbers) == len(records) else records[numbers]
        if not len(some):
            return
        x, y, z = (_wider(before, some, axis) for before, axis in zip(self.ranges, AXES))
        self.ranges = x, y, z
        ends = [
            [self.world(n, some[f"{AXES[n]}{edge}"]) for edge in ("min", "max")] for n in (0, 1)
        ]
        across, along = ((np.minimum(*axis), np.maximum(*axis)) for axis in ends)
        self.place.add(
            across[0],
            across[1],
            along[0],
            along[1],
            lambda n, middle: named(int(numbers[n]), middle),
        )

    def contents(self) -> Contents:
        """Returns the contents of the features."""
        types, lods = library().count_names(), LOD_CLASSES
        return Contents(
            self.features,
            {name: int(count) for name, count in zip(types, self.types) if count},
            {name: int(count) for name, count in zip(lods, self.lods) if count},
            {n - 1: int(count) for n, count in enumerate(self.lengths) if count},
        )


def _bits(sets: Array) -> Array:
    """Returns how many of these sets of bits have each bit set. There is at least one set."""
    is_one = (sets == sets[0]).all()
    some, counts = (sets[:1], len(sets)) if is_one else np.unique(sets, return_counts=True)
    bits = np.unpackbits(some.astype("<u8").view("u1").reshape(-1, 8), axis=1, bitorder="little")
    sums: Array = (bits.T.astype("i8") * counts).sum(axis=1)
    return sums


def _wider(before: Range, records: Array, axis: str) -> Range:
    """Returns the least range that has a range and those of records in it."""
    least, greatest = int(records[f"{axis}min"].min()), int(records[f"{axis}max"].max())
    return (
        (least, greatest) if before is None else (min(least, before[0]), max(greatest, before[1]))
    )


# ---- ids that several features have


def ids_of(part: Text, raw: bytes) -> list[bytes]:
    """Returns the ids of the features of a part, from its records. Of a long one it is the
    beginning and a hash."""
    ids = spelled_ids(part, raw)
    if b"\\" in b"".join(ids):
        ids = [unescaped(id).encode("utf-8", "surrogatepass") for id in ids]
    if max(map(len, ids), default=0) < LONGEST:
        return ids
    return [id if len(id) < LONGEST else id[:LONGEST] + blake2b(id).digest() for id in ids]


def text_of(id: bytes) -> str:
    """Returns the text of an id, or its beginning if it is long."""
    if len(id) < LONGEST:
        return id.decode("utf-8", "surrogatepass")
    return id[:LONGEST].decode("utf-8", "ignore") + "\u2026"


@contextmanager
def _writing() -> Iterator[None]:
    """Turns an error of SQLite into a write fault."""
    try:
        yield
    except sqlite3.Error as fault:
        raise write_fault(fault, temporary_folder()) from fault


class Ids:
    """The ids of a delivery, in a temporary database. Leaving a `with` block removes it."""

    def __init__(self) -> None:
        self._base = sqlite3.connect("", isolation_level=None)
        with _writing():
            self._base.execute("PRAGMA journal_mode = OFF")
            self._base.execute("CREATE TABLE ids (id BLOB NOT NULL, place INTEGER NOT NULL)")
            self._base.execute("BEGIN")

    def __enter__(self) -> Ids:
        return self

    def __exit__(self, *_: object) -> None:
        self._base.close()

    def add(self, file: int, lines: Array, ids: list[bytes]) -> None:
        """Takes the ids of features of a file, and an array of their lines.

        Raises:
            WriteFault: The temporary folder is full.
        """
        with _writing():
            insert(self._base, "ids", ids, (lines + (file << LINES)).tolist())

    def repeated(self, names: Sequence[str]) -> Repeated:
        """Returns the ids that appear twice or more. `names` has the names of the files by number.

        Raises:
            WriteFault: The temporary folder is full.
        """
        with _writing():
            self._base.execute(
                "CREATE TEMP TABLE twice AS SELECT id, count(*) AS features, min(place) AS first"
                " FROM ids GROUP BY id HAVING count(*) > 1"
            )
            select = "SELECT count(*), total(features) FROM twice"
            ids, features = self._base.execute(select).fetchone()
            first = f"FROM twice ORDER BY first LIMIT {MOST_IDS}"
            places = self._base.execute(
                f"SELECT id, place FROM ids WHERE id IN (SELECT id {first}) ORDER BY id, place"
            )
            placed = {
                id: [_place(names, place) for _, place in islice(group, MOST_PLACES)]
                for id, group in groupby(places, itemgetter(0))
            }
            listed = self._base.execute(f"SELECT id, features {first}")
            told = [RepeatedId(text_of(id), count, placed[id]) for id, count in listed]
        return Repeated(ids, int(features), told)


def _place(names: Sequence[str], place: int) -> tuple[str, int]:
    """Returns the file and the line of a feature."""
    file, line = divmod(place, 1 << LINES)
    return names[file], line


# ---- the delivery


class Survey:
    """Takes the results of all files, in order. Leaving a `with` block closes it."""

    def __init__(self, names: Sequence[str], lists: Lists | None) -> None:
        self.files = [File(name) for name in names]
        self.reasons = Reasons()
        self.reports: list[Report] = []
        self._lists = lists
        self._places: dict[str | None, Place] = {}
        self._ids = Ids()

    def __enter__(self) -> Survey:
        return self

    def __exit__(self, *_: object) -> None:
        self._ids.__exit__()

    def begin(self, number: int, header: bytes) -> Entry:
        """Begins a file, by its number from 0. The header is valid."""
        told = read_json(header.decode("utf-8"))
        system, _ = system_of(told.get("metadata"))
        place = self._places.setdefault(system, Place(system))
        place.files += 1
        transform = told["transform"]
        entry = Entry(number, place, transform["scale"], transform["translate"], system)
        entry.longest = len(header.rstrip(b"\n"))
        return entry

    def add(self, entry: Entry, records: Records, lines: int) -> None:
        """Takes the records of the next part of a file. `lines` lines came before the part.

        Raises:
            WriteFault: The temporary folder is full.
        """
        if len(records.ids):
            entry.waiting.append((records, lines))
            entry.waits += len(records.ids)
        if entry.waits >= TOGETHER:
            self._take(entry)

    def _take(self, entry: Entry) -> None:
        """Takes the waiting records of a file."""
        waiting, entry.waiting, entry.waits = entry.waiting, [], 0
        if not waiting:
            return
        found = np.frombuffer(b"".join([records.raw for records, _ in waiting]), RECORD)
        counts = [len(records.ids) for records, _ in waiting]
        lines = found["line"] + np.repeat(np.array([lines for _, lines in waiting], "i8"), counts)
        ids = list(chain.from_iterable(records.ids for records, _ in waiting))
        self._ids.add(entry.number, lines, ids)
        name = self.files[entry.number].name

        def named(number: int, middle: Point) -> Named:
            return Named(name, int(lines[number]), text_of(ids[number]), middle)

        entry.add(found, named)

    def mark(self, entry: Entry, middles: list[Point]) -> None:
        """Takes the middles of invalid features, as vertices of the file."""
        worlds = ((entry.world(0, np.array(x)), entry.world(1, np.array(y))) for x, y in middles)
        entry.place.mark([(float(x), float(y)) for x, y in worlds])

    def report(self, report: Report) -> None:
        """Takes a report.

        Raises:
            WriteFault: The lists next to the page cannot be written.
        """
        self.reasons.add(report)
        if len(self.reports) < MOST_REPORTS:
            self.reports.append(report)
        if self._lists is not None:
            self._lists.add(report)

    def end(self, number: int, result: Result, entry: Entry | None) -> None:
        """Takes the result of a file."""
        file = self.files[number]
        file.status, file.fault = result.status, result.fault
        file.lines, file.hints, file.end = result.lines, result.hints, result.end
        file.invalid = result.refused + (result.end is not None)
        file.peaks = result.peak_bytes, result.peak_tokens, result.peak_depth
        if entry is None:
            return
        self._take(entry)
        file.scale, file.translate = entry.scale, entry.translate
        file.reference_system, file.ranges = entry.reference_system, entry.ranges
        file.contents, file.longest = entry.contents(), entry.longest
        file.box = box_of(entry.ranges, entry.scale, entry.translate)
        with suppress(DecimalException):  # it may have more than 200 digits
            file.extent = extent_of(entry.ranges, entry.scale, entry.translate)
        if entry.ranges[0] is not None:
            entry.place.boxes.append(file.box)

    def repeated(self) -> Repeated:
        """Returns the ids that appear twice or more."""
        return self._ids.repeated([file.name for file in self.files])

    def areas(self) -> list[Area]:
        """Returns the area of each coordinate system, that with the most features first."""
        found = [place.area() for place in self._places.values()]
        return sorted(found, key=lambda area: -area.features)


class Surveyed:
    """A file whose records go to a survey."""

    def __init__(self, number: int, path: str, work: Work, survey: Survey, how: How) -> None:
        """Takes the number of the file, from 0, and the options of the run."""
        self._number, self._survey = number, survey
        self._entry: Entry | None = None
        progress = None if how.progress is None else partial(how.progress, path)
        records = replace(work, kind="records")
        self.stream = Stream(
            stream_of(path, how.whole),
            records,
            how.size,
            None,
            survey.report,
            progress,
            take=[self._take],
            judge_by=partial(
                marked,
                work=records,
                size=how.size,
                ids_of=ids_of,
                is_marked=self._is_marked,
            ),
        )

    def _is_marked(self) -> bool:
        return self._entry is not None and self._entry.place.is_marked

    def _take(self, answer: Answer, lines: int) -> None:
        """Passes on the records of the next chunk. `lines` lines came between it and the header.

        Raises:
            WriteFault: It cannot be written.
        """
        if not answer.parts or answer.end is not None:  # the header is not there, or invalid
            return
        for records in answer.records:
            self._survey.add(self._begun(), records, lines + records.lines)
        if isinstance(answer, Marked):
            self._survey.mark(self._begun(), answer.middles)

    def _begun(self) -> Entry:
        """Returns the entry of the file in the survey. The header is valid."""
        if self._entry is None:
            self._entry = self._survey.begin(self._number, self.stream.chunks.header)
        return self._entry

    def end(self, result: Result) -> Result:
        """Returns the result of the file, after the survey has it."""
        whole = result.fault is None and result.end is None
        self._survey.end(self._number, result, self._begun() if whole else self._entry)
        return result
