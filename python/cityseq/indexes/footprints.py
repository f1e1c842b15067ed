"""Footprints of features: the ground of all their city objects, as a MULTIPOLYGON.

If a city object has surfaces of LoD 0, these are the ground. Otherwise it is each GroundSurface of
the lowest LoD that has one. Surfaces without area and vertical ones are left out.

A line has far more numbers than its ground. So arrays of numbers are cut out of the line before
Python reads it, and only those of the ground are read."""
from __future__ import annotations

import json
import re
import struct
from collections.abc import Iterable, Iterator, Sequence
from decimal import Decimal
from functools import lru_cache
from itertools import chain, islice, repeat
from math import hypot
from typing import TYPE_CHECKING, Union

from ..engine import Text
from ..engine.records import MEMBERS
from ..engine.world import World, read_json
from .bulk import vectors_for
from .geopackage import FOOTPRINTS, geometry_start, system_of

if TYPE_CHECKING:
    from ..foreign import Json

TABLE = f"CREATE TABLE {FOOTPRINTS} (fid INTEGER PRIMARY KEY NOT NULL, geom MULTIPOLYGON)"
ARRAY = re.compile(rb"(\[[-\d,\s\[\]nul]*\])")  # of whole numbers, null and such arrays
FIRST, MARK = 10**15, b"-10000000000"  # what stands for the first array, and how all such begin
SHORT = 30  # digits of a number that is read
FEW = 64  # vertices that are read one by one
MANY = 24  # surfaces, from which numpy takes less time
LEVELS = {  # of lists above the surfaces
    "MultiSurface": 0,
    "CompositeSurface": 0,
    "Solid": 1,
    "MultiSolid": 2,
    "CompositeSolid": 2,
}
STEEP = 0.01  # of the area of a surface: one with less of it on a map is vertical
Vertex = tuple[int, int, int]
Point = tuple[float, float]
Place = tuple[Vertex, Point]
Polygon = list[list[Point]]  # closed rings: the exterior one, and then holes
Ring = Sequence[int]
Surface = Union[bytes, list[Ring]]  # a text, or its rings


def _read(text: bytes) -> Json:
    """Returns the value of a valid JSON text. A number of very many digits, which Python does not
    read, is 0."""
    try:
        return json.loads(text, parse_float=Decimal)
    except ValueError:
        return json.loads(
            text,
            parse_float=str,
            parse_int=lambda digits: int(digits) if len(digits) < SHORT else 0,
        )


class _Line:
    """The line of a valid feature, as far as its ground needs it."""

    def __init__(self, line: bytes) -> None:
        texts = ARRAY.split(line)
        self._arrays = texts[1::2]
        if MARK in line or any(each.count(b"[") != each.count(b"]") for each in self._arrays):
            self._arrays, self._told = [], _read(line)
            return
        texts[1::2] = [b"-%d" % (FIRST + number) for number in range(len(self._arrays))]
        self._told = _read(b"".join(texts))

    def _array(self, value: Json, depth: int) -> list[Json]:
        """Returns lists of `depth` levels. They may have been cut out, or some of their items. One
        number represents all of these that follow one another."""
        found: list[Json] = []
        if not isinstance(value, list):
            (found,) = self._cut_out(value)
            return found
        if depth == 1 or not self._arrays:
            return value
        for item in value:
            if isinstance(item, int):
                found += self._cut_out(item)
            else:
                found.append(None if item is None else self._array(item, depth - 1))
        return found

    def _cut_out(self, number: int) -> list[Json]:
        """Returns the arrays that a number represents."""
        arrays: list[Json] = json.loads(b"[%s]" % self._arrays[-number - FIRST])
        return arrays

    def _boundaries(self, value: Json, levels: int) -> list[Json]:
        """Returns boundaries, whose surfaces may be texts: most are not needed."""
        texts = None if isinstance(value, list) else _nested(self._arrays[-value - FIRST], levels)
        return self._array(value, levels + 3) if texts is None else texts

    def _items(self, value: object) -> list[Json]:
        """Returns the items of an array that are not numbers."""
        return value if isinstance(value, list) else []

    @property
    def all_vertices(self) -> bytes | None:
        """The text of all vertices. None if their numbers are not spelled as digits alone."""
        told = self._told["vertices"]
        return None if isinstance(told, list) else self._arrays[-told - FIRST]

    def vertices(self, numbers: Sequence[int]) -> list[Vertex]:
        """Returns vertices by their numbers. If these are few, other vertices are not read."""
        told = self._told["vertices"]
        if isinstance(told, list) or len(numbers) > FEW:
            listed = self._array(told, 2)
            return [_whole(listed[int(number)]) for number in numbers]
        texts = self._arrays[-told - FIRST].split(b"]")
        return [_whole(texts[int(number)].rpartition(b"[")[2].split(b",")) for number in numbers]

    def ground(self) -> list[Surface]:
        """Returns the surfaces of the ground: for each its exterior ring and then its holes."""
        flat: list[Surface] = []
        by_lod: dict[str, list[Surface]] = {}
        for each in self._told["CityObjects"].values():
            for geometry in self._items(each.get("geometry")):
                levels = LEVELS.get(geometry["type"])
                if levels is None:
                    continue
                if geometry["lod"][:1] == "0":
                    flat += _surfaces(self._boundaries(geometry["boundaries"], levels), levels)
                elif not flat:
                    by_lod.setdefault(geometry["lod"], []).extend(
                        self._ground_surfaces(geometry, levels)
                    )
        lods = [lod for lod, surfaces in by_lod.items() if surfaces]
        return flat or (by_lod[min(lods)] if lods else [])

    def _ground_surfaces(self, geometry: Json, levels: int) -> list[Surface]:
        """Returns the surfaces of a geometry that are ground by their semantics."""
        semantics = geometry.get("semantics")
        if not isinstance(semantics, dict):
            return []
        kinds = (each["type"] for each in self._items(semantics["surfaces"]))
        grounds = {number for number, kind in enumerate(kinds) if kind == "GroundSurface"}
        if not grounds or semantics["values"] is None:
            return []
        boundaries = self._boundaries(geometry["boundaries"], levels)
        values = self._array(semantics["values"], levels + 1)
        listed = zip(_surfaces(boundaries, levels), _values(boundaries, values, levels))
        return [surface for surface, value in listed if value in grounds]


def _whole(numbers: Iterable[Json]) -> Vertex:
    x, y, z = map(int, numbers)
    return x, y, z


def _nested(text: bytes, levels: int) -> list[Json] | None:
    """Returns the text of boundaries as lists of the texts of surfaces. None if a list is empty
    that has no ring."""
    text, edge = text.translate(None, b" \t\r\n"), levels + 3
    if not (text.startswith(b"[" * edge) and text.endswith(b"]" * edge)):
        return None
    nested = _split(text[edge:-edge], edge - 1)
    texts: list[Json] = _surfaces(nested, levels)
    whole = b"".join(texts)
    return None if b"[[" in whole or b"]]" in whole else nested


def _split(text: bytes, brackets: int) -> list[Json]:
    """Returns a text as lists of lists. So many brackets are between the items of the first."""
    items: list[Json] = text.split(b"]" * brackets + b"," + b"[" * brackets)
    return items if brackets == 2 else [_split(item, brackets - 1) for item in items]


def _rings(surface: Surface) -> list[Ring]:
    """Returns the rings of a surface, which may be a text."""
    if isinstance(surface, list):
        return surface
    rings = surface.split(b"],[")
    return [list(map(int, ring.split(b","))) if ring else [] for ring in rings]


def _surfaces(boundaries: list[Json], levels: int) -> list[Surface]:
    """Returns the surfaces in so many levels of lists."""
    for _ in range(levels):
        boundaries = list(chain(*boundaries))
    return boundaries


def _values(boundaries: list[Json], values: list[Json], levels: int) -> list[Json]:
    """Returns the semantic value of each surface. None in place of a list is that of all in it."""
    for _ in range(levels):
        pairs = zip(boundaries, values)
        each = (repeat(None, len(inner)) if value is None else value for inner, value in pairs)
        boundaries, values = list(chain(*boundaries)), list(chain.from_iterable(each))
    return values


class _Place:
    """Where a stream lies: the map from its vertices to world coordinates."""

    def __init__(self, header: bytes) -> None:
        told = read_json(header.decode("utf-8"))
        self._world = World(told["transform"]["scale"], told["transform"]["translate"])
        self._start = geometry_start(system_of(told.get("metadata"))[1])
        self._scale = [
            0.0 if axis is None else axis.scale / axis.unit
            for axis in (self._world.x, self._world.y, self._world.z)
        ]

    def footprint(self, line: bytes) -> bytes | None:
        """Returns the footprint of the feature of a line. None if it has no ground."""
        if not self._world.is_flat:
            return None
        try:
            read = _Line(line)
            surfaces = read.ground()
        except RecursionError:  # arrays in very many arrays
            return None
        count, polygons = 0, b""
        vectors = vectors_for(len(surfaces), MANY)
        if vectors is not None and read.all_vertices is not None:
            axes, scale = (self._world.x, self._world.y), self._scale
            count, polygons, surfaces = vectors.polygons(
                surfaces, read.all_vertices, axes, scale, STEEP
            )
        others = list(filter(None, self._polygons(read, list(map(_rings, surfaces)))))
        count += len(others)
        return multipolygon(self._start, count, polygons + b"".join(others)) if count else None

    def _polygons(self, read: _Line, surfaces: list[list[Ring]]) -> Iterator[bytes | None]:
        """Yields each surface as a polygon, or None if it has no place on a map."""
        vertices = read.vertices([each for surface in surfaces for each in chain(*surface)])
        places = iter(zip(vertices, self._on_map(vertices)))
        for surface in surfaces:
            yield self._polygon([list(islice(places, len(ring))) for ring in surface])

    def _on_map(self, vertices: Sequence[Vertex]) -> Iterator[Point]:
        """Returns where vertices are on a map."""
        x, y = self._world.x, self._world.y
        assert x is not None and y is not None
        return zip(x.nearest(each[0] for each in vertices), y.nearest(each[1] for each in vertices))

    def _polygon(self, surface: list[list[Place]]) -> bytes | None:
        """Returns a surface as a polygon, or None if it has no place on a map."""
        if not surface:
            return None
        exterior, *holes = surface
        ring = self._ring(exterior, 1)
        if ring is None:
            return None
        rings = [ring, *filter(None, (self._ring(hole, -1) for hole in holes))]
        return struct.pack("<BII", 1, 3, len(rings)) + b"".join(rings)

    def _ring(self, places: list[Place], way: int) -> bytes | None:
        """Returns a ring that is closed and turns left if `way` is 1, and right if it is -1. None
        if it has no area on a map, or is vertical."""
        turn = self._turn([vertex for vertex, _ in places])
        if not turn:
            return None
        points = [point for _, point in (places if turn * way > 0 else reversed(places))]
        count = len(points) + 1
        return struct.pack(f"<I{2 * count}d", count, *chain(*points), *points[0])

    def _turn(self, vertices: list[Vertex]) -> float:
        """Returns a number above 0 if a ring turns left on a map, and below 0 if it turns right. 0
        if it has no area there, or is vertical."""
        normal = _normal(vertices)
        wide, high, deep = self._scale
        up = normal[2] * wide * high
        aside = hypot(normal[0] * high * deep, normal[1] * wide * deep)
        return float(up) if abs(up) > STEEP * aside else 0


def _normal(vertices: list[Vertex]) -> Vertex:
    """Returns the normal of a ring, whose length is twice the area (M. E. Newell)."""
    across = along = up = 0
    x, y, z = vertices[-1] if vertices else (0, 0, 0)
    for after_x, after_y, after_z in vertices:
        across += (y - after_y) * (z + after_z)
        along += (z - after_z) * (x + after_x)
        up += (x - after_x) * (y + after_y)
        x, y, z = after_x, after_y, after_z
    return across, along, up


def multipolygon(start: bytes, count: int, polygons: bytes) -> bytes:
    """Returns so many polygons in WKB as one geometry. `start` begins with the header of a
    geometry."""
    return start[:8] + struct.pack("<BII", 1, 6, count) + polygons


def of_box(box: bytes | None) -> bytes | None:
    """Returns the geometry of an extent as a footprint."""
    return None if box is None else multipolygon(box, 1, box[8:])


@lru_cache(maxsize=16)
def _place(header: bytes) -> _Place:
    """Returns the place of a stream. The header is valid."""
    return _Place(header)


def in_part(header: bytes, part: Text, raw: bytes) -> list[bytes | None]:
    """Returns the footprints of the features of a part, by their records. None for those without
    ground."""
    numbers = memoryview(raw).cast("q")
    begins, lengths = numbers[1::MEMBERS].tolist(), numbers[2::MEMBERS].tolist()
    lines = (bytes(part[begin : begin + length]) for begin, length in zip(begins, lengths))
    return [_place(header).footprint(line) for line in lines]


def polygons_of(geometry: bytes) -> list[Polygon]:
    """Returns the rings of the polygons of a footprint. An index from anywhere may have any bytes.

    Raises:
        ValueError: It is no footprint that this module writes.
    """
    try:
        (count,), at, polygons = struct.unpack_from("<I", geometry, 13), 17, []
        for _ in range(count):
            (rings,), at, polygon = struct.unpack_from("<I", geometry, at + 5), at + 9, []
            for _ in range(rings):
                (points,) = struct.unpack_from("<I", geometry, at)
                edges = struct.unpack_from(f"<{2 * points}d", geometry, at + 4)
                polygon.append(list(zip(edges[::2], edges[1::2])))
                at += 4 + 16 * points
            polygons.append(polygon)
    except (struct.error, TypeError, OverflowError, MemoryError) as fault:
        raise ValueError("no footprint") from fault
    return polygons
