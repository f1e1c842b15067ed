"""World coordinates: the transform of a stream, and boxes of its vertices. They are exact decimals,
or floats that are rounded outward, so that no vertex lies outside."""
from __future__ import annotations

import decimal
import json
import math
import sys
from collections.abc import Callable, Iterable, Sequence
from decimal import Decimal
from functools import partial
from math import gcd, nextafter
from threading import RLock
from typing import TYPE_CHECKING, TypeVar

from .records import Range

if TYPE_CHECKING:
    from ..foreign import Json

Interval = tuple[float, float]
BITS = 53  # of a float, as bits
PLACES = 18  # a fixed number is a multiple of 10^-18 and below 10^18 in size
Extent = tuple[Decimal, Decimal] | None
DIGITS = 200  # of a world coordinate, at most
ENOUGH = 800  # digits: more than a number in the middle between two floats has
NESTED = 1_100  # more arrays and objects than a line may have open at once
Value = TypeVar("Value")
_deepening = RLock()  # held while the limit of the whole process is raised


def floor_of(count: int, unit: int) -> float:
    """Returns the greatest float that is at most `count / unit`, which is below 2^1000 in size."""
    value = count / unit  # Python rounds the quotient of two whole numbers to the nearest float
    numerator, denominator = value.as_integer_ratio()
    return value if numerator * unit <= count * denominator else nextafter(value, -math.inf)


def ceiling_of(count: int, unit: int) -> float:
    """Returns the least float that is at least `count / unit`."""
    return 0.0 - floor_of(-count, unit)  # and not -0.0


def _shift(counts: Sequence[int], unit: int) -> int | None:
    """Returns by how many bits these counts of 1 / unit are shifted, so that each has as many bits
    before the point as a float has. None if they differ in that, or are not positive."""
    least, greatest = min(counts, default=0), max(counts, default=0)
    if least <= 0:
        return None
    about = BITS - least.bit_length() + unit.bit_length()
    for shift in (about, about - 1):
        ends = [(count << shift) // unit for count in (least, greatest)] if shift >= 0 else [0]
        if all(end.bit_length() == BITS for end in ends):
            return shift
    return None


def floors_of(counts: Sequence[int], unit: int) -> list[float]:
    """Returns `floor_of` of each count."""
    shift = _shift(counts, unit)
    if shift is not None:
        step = 2.0**-shift
        return [(count << shift) // unit * step for count in counts]
    return [
        value
        if (ratio := (value := count / unit).as_integer_ratio())[0] * unit <= count * ratio[1]
        else nextafter(value, -math.inf)
        for count in counts
    ]


def ceilings_of(counts: Sequence[int], unit: int) -> list[float]:
    """Returns `ceiling_of` of each count."""
    shift = _shift(counts, unit)
    if shift is not None:
        step = -(2.0**-shift)
        return [(-count << shift) // unit * step for count in counts]
    return [
        value
        if (ratio := (value := count / unit).as_integer_ratio())[0] * unit >= count * ratio[1]
        else nextafter(value, math.inf)
        for count in counts
    ]


def units_of(number: Decimal) -> int | None:
    """Returns how many times 10^-18 a fixed number is. None for any other number."""
    sign, digits, exponent = number.as_tuple()
    text = "".join(map(str, digits))
    stripped = text.rstrip("0") or "0"
    power = int(exponent) + len(text) - len(stripped) + PLACES
    if int(stripped) == 0:
        return 0
    if power < 0 or len(stripped.lstrip("0")) + power > 2 * PLACES:
        return None
    count: int = (-1 if sign else 1) * int(stripped) * 10**power
    return count


class Axis:
    """The map from the vertices of an axis to world coordinates.

    A vertex is at `(vertex * scale + shift) / unit`. All three are whole numbers.
    """

    def __init__(self, scale: int, shift: int) -> None:
        """Takes scale and translation as counts of 10^-18."""
        common = gcd(gcd(scale, shift), 10**PLACES)
        self.scale, self.shift = scale // common, shift // common
        self.unit = 10**PLACES // common

    def interval(self, least: int, greatest: int) -> Interval:
        """Returns the world coordinates of two vertices, rounded outward."""
        low, high = least * self.scale + self.shift, greatest * self.scale + self.shift
        if self.scale < 0:
            low, high = high, low
        return floor_of(low, self.unit), ceiling_of(high, self.unit)

    def intervals(
        self, least: Iterable[int], greatest: Iterable[int]
    ) -> tuple[list[float], list[float]]:
        """Returns the least and the greatest world coordinates of many pairs of vertices, rounded
        outward."""
        scale, shift = self.scale, self.shift
        low = [vertex * scale + shift for vertex in least]
        high = [vertex * scale + shift for vertex in greatest]
        if scale < 0:
            low, high = high, low
        return floors_of(low, self.unit), ceilings_of(high, self.unit)

    def nearest(self, vertices: Iterable[int]) -> list[float]:
        """Returns the world coordinates of vertices as the nearest floats."""
        scale, shift, unit = self.scale, self.shift, self.unit
        # Python rounds the quotient of two whole numbers to the nearest float
        if scale == 1:
            return [(vertex + shift) / unit for vertex in vertices]
        return [(vertex * scale + shift) / unit for vertex in vertices]


class World:
    """The map from vertices to world coordinates that a transform makes.

    An axis is None if its scale or translation is not a fixed number. No query can have a box then.
    """

    def __init__(self, scale: list[Decimal], translate: list[Decimal]) -> None:
        self.x, self.y, self.z = (
            None if None in units else Axis(*units)  # type: ignore[arg-type]
            for units in zip(map(units_of, scale), map(units_of, translate))
        )

    @property
    def is_flat(self) -> bool:
        """Whether vertices have a place on a map."""
        return self.x is not None and self.y is not None


def intervals_of(text: str) -> tuple[Interval, Interval] | None:
    """Returns a box `minx,miny,maxx,maxy` as two intervals, rounded outward, or None."""
    try:
        edges = [units_of(Decimal(edge)) for edge in text.split(",")]
    except (decimal.InvalidOperation, ValueError, OverflowError):
        return None
    if len(edges) != 4 or None in edges:
        return None
    unit = 10**PLACES
    low = [floor_of(edge, unit) for edge in edges[:2] if edge is not None]
    high = [ceiling_of(edge, unit) for edge in edges[2:] if edge is not None]
    return (low[0], high[0]), (low[1], high[1])


def wider(one: Range, other: Range) -> Range:
    """Returns the least range that has both ranges in it."""
    if one is None or other is None:
        return one or other
    return min(one[0], other[0]), max(one[1], other[1])


def exact_number(spelling: str) -> Decimal:
    """Returns the value of a number of JSON. No decimal has the exponent of some spellings: of 0,
    and of numbers that are too great or too small for every rule. These others become NaN."""
    try:
        return Decimal(spelling)
    except decimal.InvalidOperation:
        digits = spelling.lower().partition("e")[0]
        return Decimal("NaN") if digits.strip("-0.") else Decimal()


def deep(read: Callable[[], Value]) -> Value:
    """Returns what a reader of JSON returns. A valid line may be deeper than Python reads by
    itself."""
    try:
        return read()
    except RecursionError:
        with _deepening:
            limit = sys.getrecursionlimit()
            sys.setrecursionlimit(limit + NESTED)
            try:
                return read()
            finally:
                sys.setrecursionlimit(limit)


def read_json(text: str) -> Json:
    """Reads JSON with exact numbers."""
    return deep(partial(json.loads, text, parse_float=exact_number, parse_int=exact_number))


def transform_of(header: bytes) -> tuple[list[Decimal], list[Decimal]]:
    """Returns the scale and the translation of a valid header."""
    transform = read_json(header.decode("utf-8"))["transform"]
    return transform["scale"], transform["translate"]


def normal(number: Decimal) -> str:
    """Returns a number as the program writes it: a whole number that does not end in 0, then `e`
    and a power of ten."""
    sign, digits, power = number.as_tuple()
    text = "".join(map(str, digits)).lstrip("0")
    short = text.rstrip("0")
    if not short:
        return "0e0"
    return f"{'-' if sign else ''}{short}e{int(power) + len(text) - len(short)}"


def _edges(vertices: tuple[int, int], scale: Decimal, shift: Decimal) -> tuple[Decimal, Decimal]:
    """Returns the least and the greatest world coordinate, by exact sums. Raises `decimal.Inexact`
    if they are too long."""
    exact = decimal.Context(
        prec=DIGITS,
        traps=[decimal.Inexact, decimal.Overflow, decimal.InvalidOperation, decimal.Subnormal],
    )
    low, high = sorted(
        exact.add(exact.multiply(Decimal(vertex), scale), shift) for vertex in vertices
    )
    return low, high


def _extents(
    edges: Callable[[tuple[int, int], Decimal, Decimal], tuple[Decimal, Decimal]],
    ranges: tuple[Range, Range, Range],
    *transform: list[Decimal],
) -> tuple[Extent, Extent, Extent]:
    x, y, z = (
        None if vertices is None else edges(vertices, scale, shift)
        for vertices, scale, shift in zip(ranges, *transform)
    )
    return x, y, z


def extent_of(
    ranges: tuple[Range, Range, Range], scale: list[Decimal], translate: list[Decimal]
) -> tuple[Extent, Extent, Extent]:
    """Returns the least and the greatest world coordinate on x, y and z, exactly. None if there is
    no vertex. Raises `decimal.DecimalException` if one has more than 200 digits."""
    return _extents(_edges, ranges, scale, translate)


def _rounding(digits: int, rounding: str) -> decimal.Context:
    """Returns a context that raises nothing: a number that is too great becomes infinite."""
    least, greatest = decimal.MIN_EMIN, decimal.MAX_EMAX
    return decimal.Context(digits, rounding, least, greatest, traps=[])


def _outer(vertices: tuple[int, int], scale: Decimal, shift: Decimal) -> tuple[Decimal, Decimal]:
    down, up = _rounding(DIGITS, decimal.ROUND_FLOOR), _rounding(DIGITS, decimal.ROUND_CEILING)
    low, high = vertices if not scale.is_signed() else vertices[::-1]
    return down.fma(Decimal(low), scale, shift), up.fma(Decimal(high), scale, shift)


def outer_extent_of(
    ranges: tuple[Range, Range, Range], scale: list[Decimal], translate: list[Decimal]
) -> tuple[Extent, Extent, Extent]:
    """Does the same as `extent_of`. A coordinate of more than 200 digits is rounded outward."""
    return _extents(_outer, ranges, scale, translate)


def nearest_floats(vertices: Iterable[int], scale: Decimal, shift: Decimal) -> list[float]:
    """Returns the world coordinates of vertices as the nearest floats. A coordinate that is greater
    than all floats is infinite."""
    # this rounding leaves a digit that shows on which side of the middle of two floats a sum is
    context = _rounding(ENOUGH, decimal.ROUND_05UP)
    return [float(context.fma(Decimal(vertex), scale, shift)) for vertex in vertices]


def plain(number: Decimal) -> str:
    """Returns a number without an exponent, as a box takes it."""
    if number == 0:
        return "0"
    text = format(number, "f")
    return text.rstrip("0").rstrip(".") if "." in text else text


def box_of(
    ranges: tuple[Range, Range, Range], scale: list[Decimal], translate: list[Decimal]
) -> str | None:
    """Returns the box around all vertices, as `--bbox` takes it. None if there is no vertex, or if
    a query cannot have the box."""
    if ranges[0] is None or ranges[1] is None:
        return None
    try:
        x = _edges(ranges[0], scale[0], translate[0])
        y = _edges(ranges[1], scale[1], translate[1])
    except decimal.DecimalException:
        return None
    edges = [x[0], y[0], x[1], y[1]]
    numbers = map(units_of, edges + scale[:2] + translate[:2])
    return None if None in numbers else ",".join(map(plain, edges))
