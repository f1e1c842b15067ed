"""The facts about a delivery, without any layout, and as one JSON object, which
docs/report.schema.json describes."""
from __future__ import annotations

from collections import Counter
from dataclasses import dataclass, field
from decimal import Decimal
from typing import TYPE_CHECKING, TypeVar

from ..cli.json_output import box_object, exact, report_object
from ..engine import Status
from ..engine.records import Range
from ..engine.reports import Explanation, Report, explain

if TYPE_CHECKING:
    from ..engine.world import Extent
    from ..foreign import Object


EXAMPLES = 3  # reports of each reason that are kept as examples
Key = TypeVar("Key")
Rectangle = tuple[float, float, float, float]  # xmin, ymin, xmax, ymax, in world coordinates
Point = tuple[float, float]
VERSION = 1  # it changes if a member is removed, renamed or changes its meaning


@dataclass
class Contents:
    """The contents of valid features.

    Attributes:
        features: How many there are.
        types: How many features have a city object of each type.
        lods: How many features have a geometry of each class of LoD.
        lengths: How many lines have each length. The key n is for lengths from 2^n to less than
            2^(n+1) bytes.
    """

    features: int = 0
    types: dict[str, int] = field(default_factory=dict)
    lods: dict[str, int] = field(default_factory=dict)
    lengths: dict[int, int] = field(default_factory=dict)

    def add(self, other: Contents) -> None:
        """Adds the contents of other features."""
        self.features += other.features
        _add(self.types, other.types)
        _add(self.lods, other.lods)
        _add(self.lengths, other.lengths)


def _add(counts: dict[Key, int], others: dict[Key, int]) -> None:
    """Adds counts to others, and sorts all by their names."""
    both = sorted((Counter(counts) + Counter(others)).items())
    counts.clear()
    counts.update(both)


@dataclass
class File:
    """A file of a delivery, and its result.

    Attributes:
        invalid: How many lines are invalid.
        end: The report that ended the run, if one did. It is that of an invalid header.
        scale: The scale of the header. Like `translate`, it is empty if the header is invalid.
        reference_system: The reference system that the header's metadata name.
        ranges: The least and greatest vertex on each axis.
        box: The box around all vertices, as `--bbox` takes it. None if a query cannot have it.
        extent: The least and greatest world coordinate on each axis, exactly.
        longest: The bytes of the longest of its header and valid features.
        peaks: The most bytes, tokens, and open arrays and objects that were in memory.
    """

    name: str
    status: Status = Status.VALID
    size: int | None = None
    sha256: str | None = None
    lines: int = 0
    invalid: int = 0
    end: Report | None = None
    fault: str | None = None
    hints: list[str] = field(default_factory=list)
    scale: list[Decimal] = field(default_factory=list)
    translate: list[Decimal] = field(default_factory=list)
    reference_system: str | None = None
    ranges: tuple[Range, Range, Range] = (None, None, None)
    box: str | None = None
    extent: tuple[Extent, Extent, Extent] = (None, None, None)
    longest: int = 0
    peaks: tuple[int, int, int] = (0, 0, 0)
    contents: Contents = field(default_factory=Contents)

    @property
    def verdict(self) -> str:
        """`valid`, `invalid` or `fault`."""
        return self.status.verdict


@dataclass
class Reason:
    """The lines that are invalid for one reason."""

    code: int
    lines: int = 0
    files: int = 0
    examples: list[Report] = field(default_factory=list)

    @property
    def explanation(self) -> Explanation:
        """What the code means, and how to fix it."""
        return explain(self.code)


class Reasons:
    """Counts reports by their reasons, and keeps the first ones for each."""

    def __init__(self) -> None:
        self._found: dict[int, Reason] = {}
        self._last: dict[int, str] = {}

    def add(self, report: Report) -> None:
        """Counts a report. All reports of one file come together."""
        reason = self._found.setdefault(report.code, Reason(report.code))
        reason.lines += 1
        if self._last.get(report.code) != report.file:
            self._last[report.code] = report.file
            reason.files += 1
        if len(reason.examples) < EXAMPLES:
            reason.examples.append(report)

    def listed(self) -> list[Reason]:
        """Returns the reasons, the most frequent first."""
        return sorted(self._found.values(), key=lambda reason: (-reason.lines, reason.code))


@dataclass(frozen=True)
class RepeatedId:
    """An id that several features have. `places` has the file and line of the first ones. `count`
    is how many features have it."""

    id: str
    count: int
    places: list[tuple[str, int]]


@dataclass
class Repeated:
    """The ids that appear twice or more.

    Attributes:
        ids: How many there are.
        features: How many features have one of them.
        first: The first ones.
    """

    ids: int = 0
    features: int = 0
    first: list[RepeatedId] = field(default_factory=list)


@dataclass(frozen=True)
class Named:
    """A feature by its file, line and id, with the middle of its extent."""

    file: str
    line: int
    id: str
    middle: Point


@dataclass
class Area:
    """The features in one coordinate system.

    Attributes:
        reference_system: Its name, as headers have it.
        files: How many files name it.
        features: How many features have a place in it.
        box: The box around all their vertices, as `--bbox` takes it. None if a query cannot have
            it.
        size: The width and height of a cell, in world coordinates.
        cells: How many features have their centre in each cell, by column and row.
        extents: The extent of each feature, if they are few.
        spots: The places of invalid features, if their vertices can be read.
        apart: How many features lie far from nearly all others. They are in no cell and extent.
        places: Where these lie: their extents, or cells.
        strays: The names of the first of them.
    """

    reference_system: str | None
    files: int = 0
    features: int = 0
    box: str | None = None
    size: float = 1.0
    cells: dict[tuple[int, int], int] = field(default_factory=dict)
    extents: list[Rectangle] = field(default_factory=list)
    spots: list[Point] = field(default_factory=list)
    apart: int = 0
    places: list[Rectangle] = field(default_factory=list)
    strays: list[Named] = field(default_factory=list)


@dataclass
class Run:
    """How the facts were gathered.

    Attributes:
        program: The version of cityseq.
        words: The command line, or the call.
        time: When it began, in UTC.
        seconds: How long it took.
        jobs: How many threads judged.
    """

    program: str
    words: str
    time: str
    seconds: float
    jobs: int
    line_limit: int
    depth: int
    tree: bool
    extensions: bool


@dataclass
class Delivery:
    """All facts of a delivery.

    Attributes:
        reports: The first invalid lines, for the table in the page. `invalid` counts all.
        report_files: The names of the files next to the page that have all reports. There are none
            without a page.
    """

    title: str
    run: Run
    files: list[File] = field(default_factory=list)
    areas: list[Area] = field(default_factory=list)
    reasons: list[Reason] = field(default_factory=list)
    repeated: Repeated = field(default_factory=Repeated)
    reports: list[Report] = field(default_factory=list)
    report_files: tuple[str, ...] = ()

    @property
    def status(self) -> Status:
        """The greatest status of all files, as the status of `check`."""
        return max((file.status for file in self.files), default=Status.VALID)

    def json_object(self) -> Object:
        """Returns all facts as one object of JSON, which docs/report.schema.json describes. It has
        only the examples of reports."""

        return delivery_object(self)

    @property
    def verdicts(self) -> Counter[str]:
        """How many files have each verdict."""
        return Counter(file.verdict for file in self.files)

    @property
    def invalid(self) -> int:
        """How many lines are invalid."""
        return sum(file.invalid for file in self.files)

    @property
    def lines(self) -> int:
        """How many lines there are."""
        return sum(file.lines for file in self.files)

    @property
    def contents(self) -> Contents:
        """The contents of the features of all files."""
        whole = Contents()
        for file in self.files:
            whole.add(file.contents)
        return whole

    @property
    def longest(self) -> int:
        """The bytes of the longest valid line."""
        return max((file.longest for file in self.files), default=0)

    @property
    def peaks(self) -> tuple[int, ...]:
        """The greatest peaks of all files."""
        return tuple(max((file.peaks[n] for file in self.files), default=0) for n in range(3))


def delivery_object(delivery: Delivery) -> Object:
    """Returns all facts of a delivery, with only the examples of its reports."""
    run = delivery.run
    return {
        "kind": "delivery",
        "version": VERSION,
        "title": delivery.title,
        "cityseq": run.program,
        "command": run.words,
        "options": {
            name: getattr(run, name) for name in ("line_limit", "depth", "tree", "extensions")
        },
        "time": run.time,
        "seconds": round(run.seconds, 3),
        "jobs": run.jobs,
        "status": delivery.status,
        "lines": delivery.lines,
        "invalid": delivery.invalid,
        **_contents(delivery.contents),
        "files": list(map(_file, delivery.files)),
        "areas": list(map(_area, delivery.areas)),
        "reasons": [_reason(reason, delivery.invalid) for reason in delivery.reasons],
        "repeated_ids": _repeated(delivery.repeated),
        "report_files": list(delivery.report_files),
    }


def _contents(contents: Contents) -> Object:
    return {
        "features": contents.features,
        "types": contents.types,
        "lods": contents.lods,
        "line_lengths": [
            {"from": 1 << power, "to": (2 << power) - 1, "features": count}
            for power, count in sorted(contents.lengths.items())
        ],
    }


def _file(file: File) -> Object:
    axes = {
        axis: None if extent is None else list(map(exact, extent))
        for axis, extent in zip("xyz", file.extent)
    }
    return {
        "file": file.name,
        "status": file.status,
        "verdict": file.verdict,
        "size": file.size,
        "sha256": file.sha256,
        "lines": file.lines,
        "invalid": file.invalid,
        "ended_at": None if file.end is None else file.end.line,
        "fault": file.fault,
        "hints": file.hints,
        "reference_system": file.reference_system,
        "scale": list(map(exact, file.scale)) or None,
        "translate": list(map(exact, file.translate)) or None,
        "bbox": box_object(file.box),
        **axes,
        "longest_line": file.longest,
        "peak_bytes": file.peaks[0],
        "peak_tokens": file.peaks[1],
        "peak_depth": file.peaks[2],
        **_contents(file.contents),
    }


def _area(area: Area) -> Object:
    return {
        "reference_system": area.reference_system,
        "files": area.files,
        "features": area.features,
        "bbox": box_object(area.box),
        "apart": area.apart,
        "strays": [
            {"file": each.file, "line": each.line, "id": each.id, "middle": list(each.middle)}
            for each in area.strays
        ],
    }


def _reason(reason: Reason, invalid: int) -> Object:
    told = reason.explanation
    return {
        "code": reason.code,
        "text": told.text,
        "meaning": told.meaning,
        "fix": told.fix,
        "lines": reason.lines,
        "share": round(reason.lines / invalid, 6),
        "files": reason.files,
        "examples": list(map(report_object, reason.examples)),
    }


def _repeated(repeated: Repeated) -> Object:
    return {
        "ids": repeated.ids,
        "features": repeated.features,
        "first": [
            {
                "id": each.id,
                "features": each.count,
                "places": [{"file": file, "line": line} for file, line in each.places],
            }
            for each in repeated.first
        ],
    }
