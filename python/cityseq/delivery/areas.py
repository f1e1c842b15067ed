"""The places of features on a map, in bounded memory. Few features are kept by their extents. Many
are counted by the cells of a grid, whose cells grow with it."""
from __future__ import annotations

import math
from collections.abc import Callable
from typing import TYPE_CHECKING

from . import needed
from .facts import Area, Named, Point, Rectangle

if TYPE_CHECKING:
    import numpy as np

    from ..foreign import Array
else:
    np = needed("numpy")

FEW = 1_500  # the most features that are drawn by their extents
MOST_CELLS = 16_384  # in memory
GRID = 72  # the most columns and rows of a map
MOST_SUMS = 1 << 21  # cells in a rectangle whose counts are added up without sorting them
TOGETHER = 65_536  # centres that are sorted into cells at once
MOST_SPOTS = 2_000  # the most invalid features that are marked
FINE = 40  # a cell is at least 2^-40 of the greatest coordinate
LEAST = -1_000  # and at least 2 to this
FARTHEST = 1e150  # a feature farther from the origin is on no map
NEARLY_ALL = 50  # at most one of so many features is drawn apart
FAR = 4  # times the distance of nearly all others from their middle
MOST_STRAYS = 10  # features to each side that are named
BULK = (0.01, 0.99)  # the share of the features that gives cells their size
SAMPLE = 4_096  # about so many of the features that are sorted at once


def _median(values: Array, counts: Array) -> float:
    """Returns the median of values that occur so often."""
    order = np.argsort(values)
    reached = np.cumsum(counts[order])
    return float(values[order][np.searchsorted(reached, reached[-1] / 2)])


def far_from_others(x: Array, y: Array, counts: Array, least: float) -> Array:
    """Returns which places are far from nearly all others, as an array of flags.

    Args:
        x, y: The places.
        counts: How many features each has.
        least: A length that is not far, such as that of a feature.
    """
    whole = int(counts.sum())
    if whole < 3:
        return np.zeros(len(x), bool)
    distances = np.maximum(np.abs(x - _median(x, counts)), np.abs(y - _median(y, counts)))
    order = np.argsort(distances)
    nearly_all = whole - max(1, whole // NEARLY_ALL)
    usual = distances[order][np.searchsorted(np.cumsum(counts[order]), nearly_all)]
    reach = FAR * max(float(usual), least)
    is_far: Array = distances > reach if reach > 0 else np.zeros(len(x), bool)
    return is_far


def _level(least: float) -> int:
    """Returns the exponent of a power of two that is at least this number."""
    return max(LEAST, math.frexp(least)[1]) if least > 0 else LEAST


def _added_up(
    columns: Array, rows: Array, counts: Array | None = None
) -> tuple[Array, Array, Array]:
    """Returns each cell once, with the sum of its counts, or how often it is there."""
    if not len(columns):
        return columns, rows, np.empty(0, "i8")
    left, low, height = int(columns.min()), int(rows.min()), int(np.ptp(rows)) + 1
    if (int(columns.max()) - left + 1) * height <= MOST_SUMS:
        sums = np.bincount((columns - left) * height + (rows - low), counts)
        cells = np.flatnonzero(sums)
        return cells // height + left, cells % height + low, sums[cells].astype("i8")
    known: Array = np.ones(len(columns), "i8") if counts is None else counts
    order = np.lexsort((rows, columns))
    columns, rows, known = columns[order], rows[order], known[order]
    first = np.ones(len(columns), bool)
    first[1:] = (columns[1:] != columns[:-1]) | (rows[1:] != rows[:-1])
    begins = np.flatnonzero(first)
    return columns[begins], rows[begins], np.add.reduceat(known, begins)


class Grid:
    """Counts of centres by cells. The size of a cell is a power of two."""

    def __init__(self) -> None:
        self._level = LEAST
        self._columns, self._rows = np.empty(0, "i8"), np.empty(0, "i8")
        self._counts = np.empty(0, "i8")
        self._waiting: list[tuple[Array, Array]] = []
        self._size = 0

    def add(self, x: Array, y: Array) -> None:
        """Counts centres, which are arrays of finite numbers."""
        self._waiting.append((x, y))
        self._size += len(x)
        if self._size >= TOGETHER:
            self._sort()

    def _sort(self) -> None:
        """Sorts the waiting centres into cells."""
        if not self._waiting:
            return
        x, y = (np.concatenate(axis) for axis in zip(*self._waiting))
        self._waiting, self._size = [], 0
        each = max(1, len(x) // SAMPLE)
        bulks = (np.quantile(axis[::each], BULK) for axis in (x, y))
        spread = max(float(high - low) for low, high in bulks) / 1_024
        greatest = max(float(np.abs(x).max()), float(np.abs(y).max())) / 2.0**FINE
        self._coarsen(max(self._level, _level(max(spread, greatest))))
        size = 2.0**self._level
        columns, rows = np.floor(x / size).astype("i8"), np.floor(y / size).astype("i8")
        self._merge(*_added_up(columns, rows))
        while len(self._counts) > MOST_CELLS:
            self._coarsen(self._level + 1)

    def _merge(self, columns: Array, rows: Array, counts: Array) -> None:
        """Adds counts of cells to the existing ones."""
        columns = np.concatenate((self._columns, columns))
        rows = np.concatenate((self._rows, rows))
        counts = np.concatenate((self._counts, counts))
        self._columns, self._rows, self._counts = _added_up(columns, rows, counts)

    def _coarsen(self, level: int) -> None:
        """Makes cells as large as 2 to this level."""
        if level == self._level:
            return
        by = min(level - self._level, 63)
        columns, rows, counts = self._columns >> by, self._rows >> by, self._counts
        self._columns, self._rows, self._counts = columns[:0], rows[:0], counts[:0]
        self._level = level
        self._merge(columns, rows, counts)

    def cells(self) -> tuple[float, dict[tuple[int, int], int], dict[tuple[int, int], int]]:
        """Returns the size of a cell and the count of each, first of those that fit a map, and then
        of those that are far from them."""
        self._sort()
        columns, rows, is_far = self._columns, self._rows, self._is_far()
        while not is_far.all() and max(np.ptp(each[~is_far]) for each in (columns, rows)) >= GRID:
            self._coarsen(self._level + 1)
            columns, rows, is_far = self._columns, self._rows, self._is_far()
        found = zip(columns.tolist(), rows.tolist(), self._counts.tolist(), is_far.tolist())
        near: dict[tuple[int, int], int] = {}
        far: dict[tuple[int, int], int] = {}
        for column, row, count, is_one in found:
            (far if is_one else near)[column, row] = count
        return 2.0**self._level, near, far

    def _is_far(self) -> Array:
        return far_from_others(self._columns, self._rows, self._counts, 1.0)


class Rim:
    """The features that lie farthest to each side."""

    def __init__(self) -> None:
        self._sides: list[list[tuple[float, Named]]] = [[], [], [], []]

    def add(self, x: Array, y: Array, named: Callable[[int], Named]) -> None:
        """Takes the middles of features. `named` names one of them by its number."""
        for side, values in zip(self._sides, (x, -x, y, -y)):
            least = side[-1][0] if len(side) == MOST_STRAYS else -math.inf
            numbers = np.flatnonzero(values > least)
            if len(numbers) > MOST_STRAYS:
                farthest = np.argpartition(values[numbers], -MOST_STRAYS)[-MOST_STRAYS:]
                numbers = numbers[farthest]
            side += [(float(values[number]), named(number)) for number in numbers.tolist()]
            side.sort(key=lambda each: -each[0])
            del side[MOST_STRAYS:]

    def within(self, places: list[Rectangle]) -> list[Named]:
        """Returns those whose middle lies in one of some places."""
        found = dict.fromkeys(each for side in self._sides for _, each in side)
        return [each for each in found if any(_lies_in(each.middle, place) for place in places)]


def _lies_in(point: Point, place: Rectangle) -> bool:
    return place[0] <= point[0] <= place[2] and place[1] <= point[1] <= place[3]


class Place:
    """Gathers the places of all features in one coordinate system."""

    def __init__(self, reference_system: str | None) -> None:
        self.reference_system = reference_system
        self.files, self.features = 0, 0
        self.boxes: list[str | None] = []
        self._grid, self._rim = Grid(), Rim()
        self._extents: list[Rectangle] = []
        self._spots: list[Point] = []

    def add(
        self,
        xmin: Array,
        xmax: Array,
        ymin: Array,
        ymax: Array,
        named: Callable[[int, Point], Named] | None = None,
    ) -> None:
        """Takes the extents of features, in world coordinates, as arrays. `named` names one of them
        by its number, with its middle; without it none has a name."""
        with np.errstate(all="ignore"):
            x, y = xmin / 2 + xmax / 2, ymin / 2 + ymax / 2
            near = (np.abs(x) < FARTHEST) & (np.abs(y) < FARTHEST)  # no infinite number is
        numbers = np.flatnonzero(near)
        if not near.all():
            xmin, xmax, ymin, ymax, x, y = (each[near] for each in (xmin, xmax, ymin, ymax, x, y))
        if not len(x):
            return
        self.features += len(x)
        self._grid.add(x, y)
        if named is not None:
            name = named
            self._rim.add(x, y, lambda n: name(int(numbers[n]), (float(x[n]), float(y[n]))))
        if self.features <= FEW:
            self._extents += zip(*(each.tolist() for each in (xmin, ymin, xmax, ymax)))
        else:
            self._extents = []

    @property
    def is_marked(self) -> bool:
        """Whether enough invalid features are marked."""
        return len(self._spots) >= MOST_SPOTS

    def mark(self, spots: list[Point]) -> None:
        """Takes the places of invalid features, in world coordinates."""
        spots = [spot for spot in spots if all(abs(edge) < FARTHEST for edge in spot)]
        self._spots += spots[: MOST_SPOTS - len(self._spots)]

    def area(self) -> Area:
        """Returns what was gathered."""
        size, cells, far = self._grid.cells()
        extents, places, apart = self._extents, rectangles(size, far), sum(far.values())
        if extents:
            extents, places = _split(extents)
            apart = len(places)
        return Area(
            self.reference_system,
            self.files,
            self.features,
            joined(self.boxes),
            size,
            cells,
            extents,
            self._spots,
            apart,
            places,
            self._rim.within(places),
        )


def rectangles(size: float, cells: dict[tuple[int, int], int]) -> list[Rectangle]:
    """Returns cells as rectangles."""
    return [
        (column * size, row * size, (column + 1) * size, (row + 1) * size) for column, row in cells
    ]


def _split(extents: list[Rectangle]) -> tuple[list[Rectangle], list[Rectangle]]:
    """Returns the extents that lie near each other, and those that are far from them."""
    xmin, ymin, xmax, ymax = np.array(extents).T
    with np.errstate(all="ignore"):
        usual = float(np.median(np.maximum(xmax - xmin, ymax - ymin)))
    x, y = xmin / 2 + xmax / 2, ymin / 2 + ymax / 2
    is_far = far_from_others(x, y, np.ones(len(extents), "i8"), usual)
    return (
        [each for each, is_one in zip(extents, is_far) if not is_one],
        [each for each, is_one in zip(extents, is_far) if is_one],
    )


def joined(boxes: list[str | None]) -> str | None:
    """Returns the box around boxes, each as `--bbox` takes it. None if there is no box, or if a
    query cannot have one of them."""
    from decimal import Decimal

    from ..engine.world import plain

    if not boxes or None in boxes:
        return None
    edges = list(zip(*(map(Decimal, box.split(",")) for box in boxes if box is not None)))
    return ",".join(map(plain, (min(edges[0]), min(edges[1]), max(edges[2]), max(edges[3]))))
