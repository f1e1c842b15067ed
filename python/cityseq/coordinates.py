"""Coordinates of streams on earth: boxes on a map, reference systems, and longitude and latitude.

A box is (west, south, east, north). In degrees its west may be greater than its east: then it lies
over the antimeridian, as RFC 7946 has it. pyproj computes projections. The edges of a box move as
rings of points, and what bulges between two points is never lost."""
from __future__ import annotations

import re
import warnings
from collections.abc import Callable, Iterable, Sequence
from functools import cached_property, lru_cache, reduce
from importlib import import_module
from math import ceil, floor, inf
from threading import Lock
from typing import TYPE_CHECKING, NamedTuple, TypeVar

from .engine import RequestError
from .indexes.geopackage import SYSTEM

if TYPE_CHECKING:
    from decimal import Decimal

    from pyproj import Transformer

T = TypeVar("T")
Extent = tuple[float, float, float, float]
TURN = 360.0
FARTHEST = 1e18  # a query has no greater coordinate
STRAIGHT = 1e-4  # of the sides of a box: as much as its edges may bulge
WIDEST = 120.0  # degrees between two neighbouring points, unless a pole is near them
Values = list[float]
CRS84 = "http://www.opengis.net/def/crs/OGC/1.3/CRS84"
EPSG = "http://www.opengis.net/def/crs/EPSG/0/{}"
WGS84 = EPSG.format(4326)
URI = re.compile(r"https?://www\.opengis\.net/def/crs/([A-Za-z]+)/([0-9.]+)/([A-Za-z0-9]+)/?\Z")
NO_PYPROJ = (
    "the server cannot change coordinates, for want of pyproj: ask for those of the stream by"
    " {} and the URI of storageCrs"
)


def meet(one: Sequence[float], other: Sequence[float]) -> Extent | None:
    """Returns what two boxes have in common. None if that is no point."""
    west, south = max(one[0], other[0]), max(one[1], other[1])
    east, north = min(one[2], other[2]), min(one[3], other[3])
    return (west, south, east, north) if west <= east and south <= north else None


def around(boxes: Iterable[Sequence[float]]) -> Extent:
    """Returns the box around boxes."""
    west, south, east, north = zip(*boxes)
    return min(west), min(south), max(east), max(north)


def wider(box: Extent, aside: float, up: float) -> Extent:
    """Returns a box with more room at its sides. With negative numbers nothing may be left of it:
    then its west is greater than its east, or its south than its north."""
    west, south, east, north = box
    return west - aside, south - up, east + aside, north + up


def pieces(box: Sequence[float]) -> list[Extent]:
    """Returns a box of degrees as one box or two, from -180 to 180 degrees."""
    west, south, east, north = box
    if -180 <= west <= east <= 180:
        return [(west, south, east, north)]
    width = east - west if west <= east else east - west + TURN
    if width >= TURN:
        return [(-180.0, south, 180.0, north)]
    begin = (west + 180) % TURN - 180
    end = begin + width
    if end <= 180:
        return [(begin, south, end, north)]
    last = east if abs(east) <= 180 else end - TURN
    return [(begin, south, 180.0, north), (-180.0, south, last, north)]


def meet_on_earth(one: Sequence[float], other: Sequence[float]) -> list[Extent]:
    """Returns what two boxes of degrees have in common: none, one or more boxes."""
    found = (meet(first, second) for first in pieces(one) for second in pieces(other))
    return [each for each in found if each is not None]


DIGITS = 15  # of a decimal that a float has exactly
PARTS = 10**9  # of a degree: about 0.1 mm


def short(value: float | None) -> float | None:
    """Returns a number with at most 15 digits. An index has numbers that are rounded outward: this
    returns the decimal that was rounded, if it has no more digits."""
    return None if value is None else float(f"{value:.{DIGITS}g}")


def near(point: tuple[float, float], is_degrees: bool) -> list[float]:
    """Returns a point without needless digits."""
    return [round(edge, 9) if is_degrees else float(f"{edge:.{DIGITS}g}") for edge in point]


def edges(extent: Extent, is_degrees: bool) -> list[float]:
    """Returns the edges of an extent. Degrees are rounded outward."""
    if not is_degrees:
        return [float(f"{edge:.{DIGITS}g}") for edge in extent]
    west, south, east, north = (edge * PARTS for edge in extent)
    return [floor(west) / PARTS, floor(south) / PARTS, ceil(east) / PARTS, ceil(north) / PARTS]


class Ring(NamedTuple):
    """Points along the edges of a box, from its lower left corner to the right. The first comes
    again at the end. Each edge has as many steps."""

    x: Sequence[float]
    y: Sequence[float]

    @classmethod
    def of(cls, box: Sequence[float], steps: int) -> Ring:
        """Returns the ring of a box, with so many steps along each edge."""
        west, south, east, north = box
        shares = [step / steps for step in range(steps)]
        right = [west + (east - west) * share for share in shares]
        left = [east - (east - west) * share for share in shares]
        up = [south + (north - south) * share for share in shares]
        down = [north - (north - south) * share for share in shares]
        return cls(
            right + [east] * steps + left + [west] * steps + [west],
            [south] * steps + up + [north] * steps + down + [south],
        )

    def placed(self) -> list[bool]:
        """Returns for each point whether it has a place in the system that it was moved to."""
        return [abs(x) < FARTHEST and abs(y) < FARTHEST for x, y in zip(*self)]

    def is_straight(self) -> bool:
        """Returns whether the edges hardly bulge."""
        return all(_sag(axis) <= STRAIGHT * (max(axis) - min(axis)) for axis in self)

    def outer(self) -> Extent:
        """Returns the box around the moved box."""
        (west, east), (south, north) = map(_edges, self)
        return west, south, east, north

    def inner(self) -> Extent | None:
        """Returns a box that no edge of the moved box crosses. It lies within the moved box, or
        wholly outside of it. None if none is found."""
        steps = (len(self.x) - 1) // 4
        x, y = self
        aside, up = _sag(x), _sag(y)
        west, east = max(x[3 * steps :]) + aside, min(x[steps : 2 * steps + 1]) - aside
        south, north = max(y[: steps + 1]) + up, min(y[2 * steps : 3 * steps + 1]) - up
        return (west, south, east, north) if west < east and south < north else None

    def on_earth(self, poles: Sequence[float]) -> Extent:
        """Returns the box of degrees around the moved box. `poles` are the latitudes of the poles
        that lie in it."""
        longitudes = _unwound(self.x)
        (west, east), (south, north) = _edges(longitudes), _edges(self.y)
        steps = (abs(after - before) for before, after in zip(longitudes, longitudes[1:]))
        goes_round = abs(longitudes[-1] - longitudes[0]) > TURN / 2
        if goes_round and not poles:  # one that has no place in the other system
            poles = (90.0,) if south + north > 0 else (-90.0,)
        if poles or goes_round or east - west >= TURN or max(steps) > WIDEST:
            west, east = -180.0, 180.0
        south, north = max(min([south, *poles]), -90.0), min(max([north, *poles]), 90.0)
        turns = TURN * floor((west + 180) / TURN) if west < -180 or west > 180 else 0.0
        west, east = west - turns, east - turns
        return west, south, east - TURN if east > 180 else east, north

    def steps_into(self, there: Ring, boxes: Sequence[Sequence[float]]) -> list[Extent]:
        """Returns a box around each step that may reach into one of the boxes. These are in the
        system of `there`, which is the ring after it was moved."""
        points = list(zip(*self))
        inside = [
            has_place and any(meet_on_earth(point * 2, box) for box in boxes)
            for point, has_place in zip(zip(*there), there.placed())
        ]
        return [
            around((points[at] * 2, points[at + 1] * 2))
            for at in range(len(points) - 1)
            if inside[at] or inside[at + 1]
        ]


def _sag(values: Sequence[float]) -> float:
    """Returns the largest distance of a point from the middle of its neighbours on the same edge.
    Between two points an edge bulges by a quarter of that, and a jump counts whole."""
    steps = (len(values) - 1) // 4
    return max(
        abs(before + after - 2 * value) / 2
        for number, (before, value, after) in enumerate(zip(values, values[1:], values[2:]), 1)
        if number % steps
    )


def _edges(values: Sequence[float]) -> tuple[float, float]:
    """Returns the least and the greatest value of a line through points."""
    sag = _sag(values)
    return min(values) - sag, max(values) + sag


def _unwound(longitudes: Sequence[float]) -> Values:
    """Returns longitudes without jumps by whole turns."""
    found = list(longitudes[:1])
    for each in longitudes[1:]:
        found.append(each - TURN * round((each - found[-1]) / TURN))
    return found


DEGREES = "OGC:CRS84"
FEW, STEPS, MANY = 4, 20, 100  # along each edge of a box that is moved
FINE = 1e-9  # of a coordinate's size: more than moving it to and fro changes
EVERYWHERE: Extent | None = (-inf, -inf, inf, inf)
NOWHERE = Ring([inf], [inf])
POLES = (-90.0, 90.0)
_ONE_AT_A_TIME = Lock()  # objects of pyproj are for one thread at a time


class Reach(NamedTuple):
    """Which features a box of degrees selects.

    Attributes:
        box: The box around all of them in the system of the stream. None if there are none.
        reaches: Returns whether the extent of a feature, in the system of the stream, reaches into
            the box of degrees. None if the extents of all do.
    """

    box: Extent | None
    reaches: Callable[[Extent], bool] | None = None


class Facts(NamedTuple):
    """What pyproj knows of a system.

    Attributes:
        horizontal: The EPSG code of its horizontal part. None if it has no vertical part.
        is_north_first: Whether its axes are those of a map the other way round: the first goes
            north, and the second east.
        is_in_degrees: Whether its coordinates are longitudes and latitudes.
    """

    horizontal: int | None = None
    is_north_first: bool = False
    is_in_degrees: bool = False


@lru_cache(maxsize=1)
def has_pyproj() -> bool:
    """Returns whether pyproj is there."""
    try:
        import_module("pyproj")
    except ImportError:
        return False
    return True


@lru_cache(maxsize=256)
def facts_of(code: int) -> Facts:
    """Returns the facts of a system by its EPSG code."""
    from pyproj import CRS
    from pyproj.exceptions import ProjError

    try:
        system = CRS.from_epsg(code)
    except ProjError:
        return Facts()
    axes = system.axis_info[:2]
    return Facts(
        system.sub_crs_list[0].to_epsg() if system.is_compound else None,
        [axis.direction for axis in axes] == ["north", "east"],
        system.is_geographic and all(axis.unit_name == "degree" for axis in axes),
    )


@lru_cache(maxsize=256)
def _operations(code: int) -> list[Transformer]:
    """Returns the operations of PROJ from an EPSG code to degrees. The first one takes, near each
    point, the best one of the others. There is none if the system has no place on earth."""
    from pyproj import CRS, Transformer
    from pyproj.exceptions import ProjError
    from pyproj.transformer import TransformerGroup

    name = f"EPSG:{code}"
    try:
        if CRS.from_epsg(code).is_geocentric:  # there a place is three numbers
            return []
        best = Transformer.from_crs(name, DEGREES, always_xy=True)
        with _ONE_AT_A_TIME, warnings.catch_warnings():
            warnings.simplefilter("ignore")  # it warns of better operations that need a download
            return [best, *TransformerGroup(name, DEGREES, always_xy=True).transformers]
    except ProjError:
        return []


def _moved(operation: Transformer, ring: Ring, direction: str = "FORWARD") -> Ring:
    """Returns moved points. Those that have no place are infinite."""
    with _ONE_AT_A_TIME:
        return Ring(*operation.transform(*ring, direction=direction))


def _drift(operation: Transformer, ring: Ring) -> tuple[float, float]:
    """Returns how far points may be from where they were after they are moved there and back."""
    again = _moved(operation, _moved(operation, ring), "INVERSE")
    aside, up = (
        2 * max(abs(one - other) for one, other in zip(before, after))
        + FINE * max(abs(value) for value in before)
        for before, after in zip(ring, again)
    )
    return aside, up


class Projection:
    """The projection of a stream's coordinates. The box around all of its features is known."""

    def __init__(self, code: int, extent: Extent | None) -> None:
        """Takes the EPSG code of the stream's coordinates, and the extent of all features."""
        found = _operations(code)
        self._extent, self._best, self._others = extent, next(iter(found), None), found[1:]
        # a stream of degrees may have places beyond 180 degrees
        self._turns = (-TURN, 0.0, TURN) if facts_of(code).is_in_degrees else (0.0,)
        self._poles = [
            (latitude, self._move(Ring([0.0], [latitude]), "INVERSE")) for latitude in POLES
        ]
        self._own = None if extent is None else self.degrees(extent)

    def _move(self, ring: Ring, direction: str = "FORWARD") -> Ring:
        """Returns points in degrees, or the other way round."""
        return NOWHERE if self._best is None else _moved(self._best, ring, direction)

    def points(self, points: Sequence[tuple[float, float]]) -> list[tuple[float, float]] | None:
        """Returns points in degrees. None if one has no place on earth."""
        east, north = zip(*points)
        ring = self._move(Ring(list(east), list(north)))
        return list(zip(ring.x, ring.y)) if ring.x and all(ring.placed()) else None

    def degrees(self, extent: Sequence[float]) -> Extent | None:
        """Returns the box of degrees around an extent. None if it has no place on earth."""
        for steps in (FEW, STEPS, MANY):  # an extent that is curved there needs more of them
            ring = self._move(Ring.of(extent, steps))
            if not all(ring.placed()):
                return None
            if ring.is_straight():
                break
        west, south, east, north = extent
        poles = [
            latitude
            for latitude, ((x,), (y,)) in self._poles
            if west < x < east and south < y < north
        ]
        return ring.on_earth(poles)

    def reach(self, asked: Sequence[float]) -> Reach:
        """Returns which features a box of degrees selects."""
        if self._extent is None:
            return Reach(None)

        def overlaps(extent: Extent) -> bool:
            there = self.degrees(extent)
            return there is not None and bool(meet_on_earth(there, asked))

        if self._own is None:  # a stray feature has no place on earth
            return Reach(self._extent, overlaps)
        cuts = meet_on_earth(asked, self._own)
        if not cuts:
            return Reach(None)
        if cuts == pieces(self._own):
            return Reach(self._extent)
        return self._reach_of(self._extent, cuts, overlaps)

    def _reach_of(
        self, whole: Extent, cuts: list[Extent], overlaps: Callable[[Extent], bool]
    ) -> Reach:
        """Returns which features boxes of degrees select, which are parts of the box around all.
        `overlaps` tests the extent of a feature, and takes time."""
        sides = [self._sides(cut) for cut in cuts]
        known = [each for each in sides if each is not None]
        inner = [box for _, box in known if box is not None]

        def reaches(extent: Extent) -> bool:
            return any(meet(extent, box) for box in inner) or overlaps(extent)

        if None in sides:
            return Reach(whole, reaches)
        outer = [
            (west + turn, south, east + turn, north)
            for turn in self._turns
            for (west, south, east, north), _ in known
            if west + turn <= whole[2] and east + turn >= whole[0]
        ]
        # The edges of the whole are at the rim of what lies there, as those of the boxes are.
        rim = Ring.of(whole, STEPS)
        found = [*outer, *rim.steps_into(self._move(rim), cuts)]
        return Reach(meet(whole, around(found)) if found else None, reaches)

    def _sides(self, cut: Extent) -> tuple[Extent, Extent | None] | None:
        """Returns a box around a box of degrees, in the system of the stream, and one within it,
        if one is found. None if it lies only partly where an operation works."""
        outer: list[Extent] = []
        inner: list[Extent | None] = []
        assert self._best is not None
        for operation in self._others or [self._best]:
            ring = _moved(operation, Ring.of(cut, STEPS), "INVERSE")
            has_place = ring.placed()
            if all(has_place):
                aside, up = _drift(operation, ring)
                outer.append(wider(ring.outer(), aside, up))
                within = ring.inner()
                inner.append(None if within is None else wider(within, -aside, -up))
            elif any(has_place):
                return None
        return (around(outer), self._checked(inner, cut)) if outer else None

    def _checked(self, inner: Sequence[Extent | None], cut: Extent) -> Extent | None:
        """Returns what boxes have in common, if that lies in a box of degrees."""
        found = reduce(lambda one, other: one and other and meet(one, other), inner, EVERYWHERE)
        if found is None:
            return None
        middle = Ring([found[0] / 2 + found[2] / 2], [found[1] / 2 + found[3] / 2])
        (x,), (y,) = self._move(middle)
        return found if meet((x, y, x, y), cut) else None


class System:
    """The systems of a stream: its own, the horizontal part of that, and longitude and latitude.

    Attributes:
        name: The system that the stream names. None if it names none.
        storage: Its URI. None if the name has no EPSG code.
        can_change: Whether coordinates can be changed to longitude and latitude.
    """

    def __init__(self, name: str | None, extent: Extent | None = None) -> None:
        """Takes the system that the stream names, and the extent of all features."""
        found = SYSTEM.match(name or "")
        code = int(found.group(1)) if found else None
        self.name = name
        self.storage = None if code is None else EPSG.format(code)
        self.can_change = code is not None and has_pyproj()
        self._facts = Facts() if code is None or not self.can_change else facts_of(code)
        self._code = code if self._facts.horizontal is None else self._facts.horizontal
        self._extent = extent

    @cached_property
    def _projection(self) -> Projection:
        """The way to degrees. It takes time to find, so it is found when it is needed."""
        assert self._code is not None
        return Projection(self._code, self._extent)

    @property
    def _own(self) -> list[str]:
        """The systems that have the coordinates of the stream."""
        codes = [] if self._facts.horizontal is None else [EPSG.format(self._facts.horizontal)]
        return codes if self.storage is None else [*codes, self.storage]

    def listed(self) -> list[str]:
        """Returns the URIs of the systems that a client may ask for."""
        degrees = [CRS84, WGS84] if self.can_change else []
        return list(dict.fromkeys([*degrees, *self._own]))

    def asked(self, uri: str | None, parameter: str) -> str | None:
        """Returns the system that a parameter asks for. None if that of the stream has no URI.

        Raises:
            RequestError: The stream does not have it.
        """
        if self.storage is None:
            if uri is None:
                return None
            raise RequestError(f"{parameter}: the stream names no system of coordinates")
        wanted = CRS84 if uri is None else _usual(uri)
        if wanted in (CRS84, WGS84) and not self.can_change and wanted != self.storage:
            raise RequestError(NO_PYPROJ.format(parameter))
        if wanted not in self.listed():
            raise RequestError(f"{parameter} is one of {', '.join(self.listed())}: {uri}")
        return wanted

    def is_own(self, system: str | None) -> bool:
        """Returns whether a system has the coordinates of the stream."""
        return system is None or system in self._own

    @property
    def is_north_first(self) -> bool:
        """Whether the system of the stream names north before east. Streams have east first.
        Without pyproj that is not known, and False."""
        return self._facts.is_north_first

    def turned(self, box: Sequence[T], system: str | None) -> tuple[T, T, T, T]:
        """Returns a box with east first in the order of the axes of a system, or the other way
        round."""
        is_turned = self.is_north_first if self.is_own(system) else system == WGS84
        west, south, east, north = box
        return (south, west, north, east) if is_turned else (west, south, east, north)

    def reach(self, box: Sequence[float], system: str | None) -> Reach:
        """Returns which features a box selects. Its axes have east first.

        Raises:
            RequestError: It is empty.
        """
        if not self.is_own(system):
            return self._projection.reach(box)
        west, south, east, north = box
        if west <= east:
            return Reach((west, south, east, north))
        if not self._facts.is_in_degrees:
            raise RequestError("the box is empty: west of it is east of its east")
        parts = pieces(box)
        return Reach(around(parts), lambda extent: any(meet(extent, part) for part in parts))

    def points_in(
        self, system: str | None, points: Sequence[tuple[float, float]]
    ) -> list[list[float]] | None:
        """Returns points of the stream in a system, in the order of its axes. None if one has no
        place there."""
        is_own = self.is_own(system)
        moved = points if is_own else self._projection.points(points)
        if moved is None:
            return None
        return [list(self.turned((*near(point, not is_own), 0, 0), system)[:2]) for point in moved]

    def extent_in(self, system: str | None, extent: Extent) -> Extent | None:
        """Returns an extent of the stream in a system, with east first. Its west is greater than
        its east if it lies over the antimeridian. None if it has no place there."""
        return extent if self.is_own(system) else self._projection.degrees(extent)


def _usual(uri: str) -> str:
    """Returns a URI of a system as it is listed."""
    found = URI.match(uri.strip("<>"))
    if found is None:
        return uri
    authority, _, code = found.groups()
    if authority.upper() == "OGC" and code.upper() == "CRS84":
        return CRS84
    return EPSG.format(int(code)) if authority.upper() == "EPSG" and code.isdigit() else uri


def may_be_degrees(box: Sequence[float | Decimal]) -> bool:
    """Returns whether a box may be longitudes and latitudes."""
    return all(-limit <= edge <= limit for edge, limit in zip(box, (180, 90, 180, 90)))
