"""What the module `bulk` does, by numpy, for many features at once. All results are the same, bit
by bit."""
from __future__ import annotations

from collections.abc import Sequence
from typing import TYPE_CHECKING, TypeVar

import numpy as np

from ..engine.records import Column, Same
from ..engine.world import Axis, World
from .bulk import INWARD, LOWER, OUTWARD, UPPER, Columns, Ranges

if TYPE_CHECKING:
    from ..engine.records import Records
    from ..foreign import Array
    from .footprints import Surface

    Surfaces = list[Surface]

AXES = ("x", "y", "z")
MEMBERS = (  # of a record
    "line begin length id_begin id_length attributes_begin attributes_length objects geometries"
    " types lods x xmin xmax y ymin ymax z zmin zmax"
)
RECORD = np.dtype([(name, "i8") for name in MEMBERS.split()])
EXACT = 1 << 53  # whole numbers below this are floats
SMALL = 1 << 24  # between vertices: sums of their products are exact
_POLYGON = [("order", "u1"), ("kind", "<u4"), ("rings", "<u4"), ("count", "<u4")]
SPLIT = 2.0**27 + 1  # splits a float in two halves of 26 bits
ROW = np.dtype([("key", ">u8"), ("number", ">i8"), ("edges", ">f4", 4)])
# each byte as two, with a zero between each two bits
_SPREAD = np.array([upper << 8 | lower for upper, lower in zip(UPPER, LOWER)], "u8")
Interval = tuple["Array", "Array"]
Floats = TypeVar("Floats", "Array", float)


def in_order(rows: bytes) -> bytes:
    """Returns rows sorted by their keys. Others keep their order."""
    words = np.frombuffer(rows, "u8").reshape(-1, ROW.itemsize // 8)
    keys: Array = np.frombuffer(rows, ROW)["key"]
    ordered: bytes = words.take(keys.astype("u8").argsort(kind="stable"), axis=0).tobytes()
    return ordered


def columns_of(
    records: Records, lines: int, numbers: Sequence[int], world: World, start: bytes
) -> Columns:
    """Returns the columns of a part, as `bulk.columns_of` does."""
    found = np.frombuffer(records.raw, RECORD)
    has_place = found["x"] != 0
    some = found if has_place.all() else found[has_place]
    columns = Columns(
        line=(found["line"] + lines).tolist(),
        begin=(found["begin"] + records.begin).tolist(),
        length=found["length"].tolist(),
        objects=_column(found["objects"]),
        geometries=_column(found["geometries"]),
        types=_column(found["types"]),
        lods=_column(found["lods"]),
        has_place=None if some is found else has_place.tolist(),
    )
    if not len(some):
        return columns
    columns = columns._replace(ranges=_ranges(some))
    z = None if world.z is None else _intervals(world.z, some["zmin"], some["zmax"])
    if z is not None:
        columns = columns._replace(zmin=z[0].tolist(), zmax=z[1].tolist())
    if world.x is None or world.y is None:
        return columns
    x, y = (
        _intervals(axis, some[f"{name}min"], some[f"{name}max"])
        for axis, name in ((world.x, "x"), (world.y, "y"))
    )
    fids = np.asarray(numbers) if some is found else np.asarray(numbers)[has_place]
    return columns._replace(geometry=_polygons(start, x, y), cells=_cells(fids, x, y))


def _column(values: Array) -> Column:
    """Returns a column of these values, which are at least one."""
    return Same(values[0].item()) if (values == values[0]).all() else values.tolist()


def _ranges(records: Array) -> Ranges:
    x, y, z = (
        (int(records[f"{axis}min"].min()), int(records[f"{axis}max"].max())) for axis in AXES
    )
    return x, y, z


# ---- world coordinates


def _intervals(axis: Axis, least: Array, greatest: Array) -> Interval:
    """Returns the least and the greatest world coordinates of pairs of vertices, rounded outward,
    as `Axis.intervals` does."""
    farthest = max(-int(least.min()), int(greatest.max()))
    size = farthest * abs(axis.scale) + abs(axis.shift)
    if size >= EXACT or axis.unit >= EXACT:
        low, high = axis.intervals(least.tolist(), greatest.tolist())
        return np.array(low), np.array(high)
    if axis.scale < 0:
        least, greatest = greatest, least
    below, above = (
        _rounded((end * axis.scale + axis.shift).astype("f8"), float(axis.unit), way)
        for end, way in ((least, -np.inf), (greatest, np.inf))
    )
    return below, above


def _rounded(counts: Array, unit: float, way: float) -> Array:
    """Returns the floats nearest to `counts / unit`, toward minus or plus infinity.

    A quotient of floats is the nearest one. If it is too great or too small for this way, its
    neighbour is the right one. To know that, its product with `unit` is computed exactly, as the
    sum of two floats (T. J. Dekker, "A floating-point technique for extending the available
    precision", 1971).
    """
    about = counts / unit
    product = about * unit
    (high, low), (unit_high, unit_low) = _halves(about), _halves(unit)
    rest = high * unit_high - product
    rest = rest + high * unit_low
    rest = rest + low * unit_high
    rest = rest + low * unit_low
    beyond = (product - counts) + rest  # has the sign of `about * unit - counts`
    is_wrong = beyond > 0 if way < 0 else beyond < 0
    return np.where(is_wrong, np.nextafter(about, way), about)


def _halves(number: Floats) -> tuple[Floats, Floats]:
    large = number * SPLIT
    high = large - (large - number)
    return high, number - high


# ---- the layer and its spatial index


def _polygons(start: bytes, x: Interval, y: Interval) -> list[bytes]:
    """Returns extents as polygons, as `geopackage.polygons` does."""
    size = len(start)
    made: Array = np.empty(len(x[0]), np.dtype([("start", f"V{size}"), ("ring", "<f8", 10)]))
    made["start"] = np.void(start)
    (xmin, xmax), (ymin, ymax) = x, y
    for place, edge in enumerate((xmin, ymin, xmax, ymin, xmax, ymax, xmin, ymax, xmin, ymin)):
        made["ring"][:, place] = edge
    polygons: list[bytes] = made.view(f"V{made.itemsize}").tolist()
    return polygons


def _length(surface: Surface) -> int:
    """Returns how many vertices a surface has, if it is a text of one ring. 0 for any other."""
    return surface.count(b",") + 1 if isinstance(surface, bytes) and b"[" not in surface else 0


def polygons(
    surfaces: Surfaces, vertices: bytes, axes: Sequence[Axis], scale: Sequence[float], steep: float
) -> tuple[int, bytes, Surfaces]:
    """Returns surfaces as polygons in WKB, as the module `footprints` makes them: how many have a
    place on a map, these, and the surfaces that are left. Those have holes or a rare length. All
    are left if a number is too large for floats.

    Args:
        surfaces: The surfaces, as texts or as rings of the numbers of vertices.
        vertices: The text of all vertices.
        axes: The maps of x and y to world coordinates.
        scale: How long the units of x, y and z are.
        steep: The least share of the area of a surface that is not vertical.
    """
    lengths = list(map(_length, surfaces))
    length = max(set(lengths), key=lengths.count)
    if length < 3:
        return 0, b"", surfaces
    points = np.fromstring(vertices.translate(None, b"[] \t\r\n"), "i8", sep=",").reshape(-1, 3)
    if not all(map(_are_exact, axes, points.T[:2])) or np.ptp(points, axis=0).max() > SMALL:
        return 0, b"", surfaces
    texts = (each for each, count in zip(surfaces, lengths) if count == length)
    rings = b",".join(each for each in texts if isinstance(each, bytes))
    others = [each for each, count in zip(surfaces, lengths) if count != length]
    corners = points[np.fromstring(rings, "i8", sep=",").reshape(-1, length)]
    up = _turns(corners, np.array(scale), steep)
    places = np.stack(
        [
            (corners[..., way] * axis.scale + axis.shift) / axis.unit
            for way, axis in enumerate(axes)
        ],
        axis=2,
    )[up != 0]
    left = np.where((up[up != 0] > 0)[:, None, None], places, places[:, ::-1])
    made: Array = np.empty(len(left), _POLYGON + [("points", "<f8", (length + 1, 2))])
    made["order"], made["kind"], made["rings"], made["count"] = 1, 3, 1, length + 1
    made["points"][:, :-1], made["points"][:, -1] = left, left[:, 0]
    return len(made), made.tobytes(), others


def _are_exact(axis: Axis, values: Array) -> bool:
    """Whether the quotients of some vertices are the nearest floats."""
    farthest = max(abs(int(values.min())), abs(int(values.max())))
    return bool(max(farthest * abs(axis.scale) + abs(axis.shift), axis.unit) < EXACT)


def _turns(corners: Array, scale: Array, steep: float) -> Array:
    """Returns for each ring a number above 0 if it turns left on a map, and below 0 if it turns
    right. 0 if it has no area there, or is vertical."""
    here = (corners - corners[:, :1]).astype("f8")
    after = np.roll(here, -1, axis=1)
    fore, back = [1, 2, 0], [2, 0, 1]
    normals = ((here - after)[..., fore] * (here + after)[..., back]).sum(axis=1)
    wide, high, deep = scale
    normals = normals * np.array([high * deep, wide * deep, wide * high])
    up = normals[:, 2]
    aside = np.hypot(normals[:, 0], normals[:, 1])
    return np.where(np.abs(up) > steep * aside, up, 0)


def _cells(numbers: Array, x: Interval, y: Interval) -> bytes:
    """Returns the key and the cell of each feature, as the functions of `bulk` make them."""
    rows: Array = np.empty(len(numbers), ROW)
    rows["key"] = _spread(x[0]) | _spread(y[0]) << np.uint64(1)
    rows["number"] = numbers
    for place, edge in enumerate((*x, *y)):
        is_inward = edge > 0 if place % 2 == 0 else edge <= 0
        rows["edges"][:, place] = edge * np.where(is_inward, INWARD, OUTWARD)
    cells: bytes = rows.tobytes()
    return cells


def _spread(numbers: Array) -> Array:
    words = numbers.astype("f4").view("u4")
    ordered = np.where(words >> np.uint32(31), ~words, words | np.uint32(0x80000000))
    first, second, third = (
        _SPREAD[ordered >> np.uint32(bits) & np.uint32(255)] for bits in (24, 16, 8)
    )
    spread: Array = first << np.uint64(32) | second << np.uint64(16) | third
    return spread
