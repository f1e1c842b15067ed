"""Draws the map of an area and the histogram of line lengths. matplotlib draws, and the drawing
becomes a part of a page. It has no styles of its own, so the page's rules colour it, in light and
in dark."""
from __future__ import annotations

import io
import math
import re
from collections.abc import Iterable, Iterator, Sequence
from dataclasses import dataclass, replace
from typing import TYPE_CHECKING
from xml.etree import ElementTree
from xml.sax.saxutils import escape

from ..coordinates import around
from . import needed
from .areas import rectangles
from .facts import Area, Point, Rectangle

SVG = "{http://www.w3.org/2000/svg}"
KEPT = ("g", "path", "text")  # the elements of a drawing
PLAIN = ("d", "x", "y", "transform")  # attributes that are kept
STYLES = ("stroke-width", "stroke-linecap", "stroke-linejoin", "text-anchor", "stroke-dasharray")
WIDTH, RIGHT = 460, 22  # pixels of a drawing, and of the space at its right
SMALL = 12  # pixels of letters
SETTINGS = {"svg.fonttype": "none", "axes.unicode_minus": False, "path.simplify": False}
# Colours that name what they colour: the rules of the page have each name as a class.
ROLES = {
    "ground": "#000101",
    "ink": "#010101",
    "rule": "#020202",
    "extent": "#030303",
    "spot": "#040404",
    "bar": "#050505",
    "stray": "#070707",
    **{f"shade-{n}": f"#0600{n:02x}" for n in range(1, 8)},
}
_NAMES = {colour: name for name, colour in ROLES.items()}
if TYPE_CHECKING:
    import numpy as np

    from ..foreign import Array, Package
else:
    np = needed("numpy")

LEFT, BOTTOM = 84, 28  # pixels left of and below a map, for its numbers
FLATTEST, STEEPEST = 0.4, 1.0  # height of a map, as a share of its width
MARGIN = 0.04  # of a map, around what lies in it
LEAST = 1.6  # pixels of the smallest extent that is drawn
ARM = 3.5  # pixels of each arm of a cross
SHADES = 7
STRAY = 7.0  # pixels of the mark of a feature that is drawn apart
COARSE = 12  # the most columns and rows of a map of which there is little room
MOST_BARS = 9  # the most bars with numbers above them


def figure(height: float, left: float, bottom: float, top: float = 8) -> tuple[Package, Package]:
    """Returns a figure and its axes, which have this height and this space around them, in
    pixels."""
    whole = height + bottom + top
    made = needed("matplotlib.figure").Figure(figsize=(WIDTH / 72, whole / 72), dpi=72)
    box = left / WIDTH, bottom / whole, (WIDTH - left - RIGHT) / WIDTH, height / whole
    axes = made.add_axes(box)
    axes.tick_params(length=0, labelsize=SMALL, colors=ROLES["ink"])
    for side in axes.spines.values():
        side.set_color(ROLES["rule"])
    return made, axes


def drawn(made: Package, name: str, title: str, told: str) -> str:
    """Returns a figure as an element of a page, with its title and what it shows in words. No other
    drawing of the page has the same name."""
    canvas = needed("matplotlib.backends.backend_svg").FigureCanvasSVG(made)
    text = io.StringIO()
    with needed("matplotlib").rc_context(SETTINGS):
        canvas.print_svg(text, metadata={"Date": None})
    root = ElementTree.fromstring(text.getvalue())
    body = "".join(part for child in root for part in _parts(child))
    return (
        f'<svg class="drawing" role="img" viewBox="{root.get("viewBox")}"'
        f' aria-labelledby="{name}-title" aria-describedby="{name}-told">'
        f'<title id="{name}-title">{escape(title)}</title>'
        f'<desc id="{name}-told">{escape(told)}</desc>{body}</svg>'
    )


def _parts(element: ElementTree.Element) -> Iterator[str]:
    """Yields an element and its children as text."""
    name = element.tag.replace(SVG, "")
    if name not in KEPT:
        return
    if name == "g":
        for child in element:
            yield from _parts(child)
        return
    attributes = dict(_attributes(element))
    if "class" in attributes:  # else it is background, which has no colour here
        told = "".join(f' {key}="{value}"' for key, value in attributes.items())
        yield f"<{name}{told}>{escape(element.text or '')}</{name}>"


def _attributes(element: ElementTree.Element) -> Iterator[tuple[str, str]]:
    """Yields the attributes that an element keeps. Its colours become a class."""
    style = _style_of(element.get("style", ""))
    classes: list[str] = [
        f"{way}-{_NAMES[style[way]]}" for way in ("fill", "stroke") if style.get(way) in _NAMES
    ]
    if classes:
        yield "class", " ".join(classes)
    if style.get("fill") == "none":
        yield "fill", "none"
    for key in PLAIN:
        value = element.get(key, "")
        if value and not value.startswith("rotate(-0 "):
            yield key, _short(value)
    for key in STYLES:
        if key in style and not (element.tag.endswith("text") and key != "text-anchor"):
            yield key, _short(style[key])
    if "font" in style:
        yield "font-size", style["font"].split("px")[0]


def _style_of(text: str) -> dict[str, str]:
    pairs = (pair.split(":", 1) for pair in text.split(";") if ":" in pair)
    return {name.strip(): value.strip() for name, value in pairs}


def _short(text: str) -> str:
    """Returns a text whose numbers have at most one digit after the point."""
    whole = re.sub(r"-?\d+\.\d+", lambda found: f"{round(float(found.group()), 1):g}", text)
    return re.sub(r" ?([MLz]) ?", r"\1", " ".join(whole.split()))


@dataclass(frozen=True)
class View:
    """The part of the world that a map shows. It has the lower left corner, a width, and a height
    as a share of the width."""

    x: float
    y: float
    width: float
    ratio: float

    @property
    def pixel(self) -> float:
        """A pixel, as a share of the width."""
        return 1 / (WIDTH - LEFT - RIGHT)

    def of(self, point: Point) -> Point:
        """Returns a point as shares of the width."""
        return (point[0] - self.x) / self.width, (point[1] - self.y) / self.width

    def has(self, point: Point) -> bool:
        """Whether a point lies on the map."""
        x, y = self.of(point)
        return 0 <= x <= 1 and 0 <= y <= self.ratio


@dataclass(frozen=True)
class Map:
    """A map of an area, and what is said about it.

    Attributes:
        svg: The drawing.
        told: What it shows, in words.
        shades: The number of each shade of a cell, with its least and greatest number of features.
        hidden: How many invalid features lie outside of the map.
        overview: Another drawing, if features are drawn apart: where they are, and where the map.
    """

    svg: str
    told: str
    shades: list[tuple[int, int, int]]
    hidden: int
    overview: str = ""


def rectangles_of(area: Area) -> list[Rectangle]:
    """Returns the extents of an area, or its cells if there are too many features."""
    return area.extents or rectangles(area.size, area.cells)


def coarse(area: Area) -> Area:
    """Returns an area with all features in few cells."""
    found = rectangles_of(area)
    counts = [1] * len(found) if area.extents else list(area.cells.values())
    xmin, ymin, xmax, ymax = around(found) if found else (0.0, 0.0, 0.0, 0.0)
    greatest = max(abs(edge) for edge in (xmin, ymin, xmax, ymax))
    side = max(xmax - xmin, ymax - ymin, greatest * 1e-9, 1e-300) / (COARSE - 1)
    cells: dict[tuple[int, int], int] = {}
    size = 2.0 ** math.ceil(math.log2(side))
    for (left, low, right, high), count in zip(found, counts):
        cell = int((left / 2 + right / 2) // size), int((low / 2 + high / 2) // size)
        cells[cell] = cells.get(cell, 0) + count
    return replace(area, size=size, cells=cells, extents=[])


def view_of(area: Area) -> View:
    """Returns the part of the world with all features of an area, and invalid ones near them."""
    found = rectangles_of(area) or [(x, y, x, y) for x, y in area.spots]
    xmin, ymin, xmax, ymax = around(found)
    reach = max(xmax - xmin, ymax - ymin) / 4
    near = [
        (x, y)
        for x, y in area.spots
        if xmin - reach <= x <= xmax + reach and ymin - reach <= y <= ymax + reach
    ]
    return _view([(xmin, ymin, xmax, ymax), *((x, y, x, y) for x, y in near)])


def _view(found: Sequence[Rectangle]) -> View:
    """Returns the part of the world with all these rectangles."""
    xmin, ymin, xmax, ymax = around(found)
    least = max(1e-9, max(abs(edge) for edge in (xmin, xmax, ymin, ymax)) * 1e-12)
    wide, high = max(xmax - xmin, least), max(ymax - ymin, least)
    width = max(wide, high / STEEPEST) * (1 + 2 * MARGIN)
    ratio = max(min(high * (1 + 2 * MARGIN) / width, STEEPEST), FLATTEST)
    return View((xmin + xmax - width) / 2, (ymin + ymax - width * ratio) / 2, width, ratio)


def _blank(view: View) -> tuple[Package, Package]:
    """Returns a figure of a part of the world, and its axes, with nothing drawn yet."""
    made, axes = figure(view.ratio / view.pixel, LEFT, BOTTOM)
    axes.set_xlim(0, 1)
    axes.set_ylim(0, view.ratio)
    _number(axes.xaxis, view.x, view.width, 1, 4)
    _number(axes.yaxis, view.y, view.width, view.ratio, 5)
    axes.grid(color=ROLES["rule"], linewidth=0.5)
    axes.set_axisbelow(True)
    return made, axes


def map_of(area: Area, name: str) -> Map:
    """Draws the features of an area: the extent of each, or their number by cells."""
    view = view_of(area)
    made, axes = _blank(view)
    shades = [] if area.extents else _draw_cells(axes, area, view)
    if area.extents:
        least = LEAST * view.pixel / 2
        _fill(axes, (_box_of(each, view, least) for each in area.extents), "extent")
    seen = [spot for spot in area.spots if view.has(spot)]
    _cross(axes, [view.of(spot) for spot in seen], ARM * view.pixel)
    told = _told(area, view, len(seen))
    overview = _overview(area, f"{name}-apart") if area.places else ""
    return Map(drawn(made, name, "Map", told), told, shades, len(area.spots) - len(seen), overview)


def _overview(area: Area, name: str) -> str:
    """Draws where the features of a map are, and those that are far from them."""
    near = around(rectangles_of(area))
    view = _view([near, *area.places])
    made, axes = _blank(view)
    _fill(axes, [_box_of(near, view, LEAST * view.pixel)], "extent")
    strays = [_box_of(each, view, STRAY / 2 * view.pixel) for each in area.places]
    _fill(axes, strays, "stray")
    for number, stray in enumerate(area.strays, 1):
        x, y = view.of(stray.middle)
        side = (-1, "right") if x > 0.9 else (1, "left")
        axes.text(
            x + side[0] * STRAY * view.pixel,
            y,
            str(number),
            ha=side[1],
            va="center",
            fontsize=SMALL,
            color=ROLES["ink"],
        )
    told = f"{area.apart:,} features far from the others, which lie in the box of the map"
    return drawn(made, name, "Overview", told)


def _told(area: Area, view: View, marked: int) -> str:
    what = "each by its extent" if area.extents else f"in cells of {area.size:.6g} units"
    right, top = view.x + view.width, view.y + view.width * view.ratio
    return (
        f"{area.features - area.apart:,} features, {what}, and {marked:,} crosses where invalid"
        f" features are; x from {view.x:.9g} to {right:.9g}, y from {view.y:.9g} to {top:.9g}"
    )


def _number(axis: Package, begin: float, width: float, share: float, count: int) -> None:
    """Numbers an axis in world coordinates, at about `count` places."""
    ticker = needed("matplotlib.ticker")
    found = ticker.MaxNLocator(count).tick_values(begin, begin + width * share)
    places = [(value, (value - begin) / width) for value in found]
    shown = [(value, place) for value, place in places if 0 <= place <= share]
    axis.set_ticks([place for _, place in shown], [f"{value:.12g}" for value, _ in shown])


def _box_of(extent: Rectangle, view: View, least: float) -> Rectangle:
    """Returns an extent as shares of the width. Each half of a side has at least `least`."""
    (left, low), (right, high) = view.of(extent[:2]), view.of(extent[2:])
    x, y = (left + right) / 2, (low + high) / 2
    wide, tall = max((right - left) / 2, least), max((high - low) / 2, least)
    return x - wide, y - tall, x + wide, y + tall


def _fill(axes: Package, boxes: Iterable[Rectangle], role: str) -> None:
    """Draws rectangles as one path."""
    path = needed("matplotlib.path").Path
    corners = np.array(
        [
            ((left, low), (right, low), (right, high), (left, high), (left, low))
            for left, low, right, high in boxes
        ]
    )
    if not len(corners):
        return
    codes = np.array([path.MOVETO, path.LINETO, path.LINETO, path.LINETO, path.CLOSEPOLY])
    _add(
        axes,
        corners.reshape(-1, 2),
        np.tile(codes, len(corners)),
        {"facecolor": ROLES[role], "edgecolor": "none"},
    )


def _cross(axes: Package, spots: list[Point], arm: float) -> None:
    """Marks points as one path."""
    if not spots:
        return
    path = needed("matplotlib.path").Path
    arms = [(-arm, -arm), (arm, arm), (-arm, arm), (arm, -arm)]
    ends = np.array([(x + dx, y + dy) for x, y in spots for dx, dy in arms])
    codes = np.tile([path.MOVETO, path.LINETO], 2 * len(spots))
    for role, width in (("ground", 4), ("spot", 1.8)):
        _add(axes, ends, codes, {"facecolor": "none", "edgecolor": ROLES[role], "linewidth": width})


def _add(axes: Package, vertices: Array, codes: Array, style: dict[str, object]) -> None:
    path = needed("matplotlib.path").Path(vertices, codes)
    axes.add_artist(needed("matplotlib.patches").PathPatch(path, **style)).set_zorder(3)


def _draw_cells(axes: Package, area: Area, view: View) -> list[tuple[int, int, int]]:
    """Draws cells, darker where there are more features, and returns what each shade means."""
    greatest = max(area.cells.values(), default=1)
    sorted_out: dict[int, list[tuple[int, Rectangle]]] = {}
    for rectangle, count in zip(rectangles_of(area), area.cells.values()):
        shade = 1 + int((SHADES - 1) * math.log(count) / math.log(max(greatest, 2)) + 1e-9)
        sorted_out.setdefault(shade, []).append((count, rectangle))
    for shade, found in sorted_out.items():
        _fill(axes, (_box_of(each, view, 0) for _, each in found), f"shade-{shade}")
    return [(shade, min(found)[0], max(found)[0]) for shade, found in sorted(sorted_out.items())]


def histogram(lengths: dict[int, int], name: str) -> str:
    """Draws how many lines have each length, by powers of two."""
    powers = range(min(lengths), max(lengths) + 1)
    counts = [lengths.get(power, 0) for power in powers]
    made, axes = figure(150, LEFT, BOTTOM, 18)
    axes.bar(range(len(counts)), counts, width=0.9, align="edge", color=ROLES["bar"])
    axes.set_xlim(-0.1, max(len(counts), 3))
    axes.set_ylim(0, max(counts) * 1.05)
    step = 1 + len(counts) // 8
    places = range(0, len(counts) + 1, step)
    axes.xaxis.set_ticks(
        [place - 0.05 for place in places], [size_of_power(powers[0] + place) for place in places]
    )
    locator = needed("matplotlib.ticker").MaxNLocator(4, integer=True)
    ticks = [value for value in locator.tick_values(0, max(counts)) if 0 < value <= max(counts)]
    axes.yaxis.set_ticks(ticks, [f"{value:,.0f}" for value in ticks])
    axes.grid(axis="y", color=ROLES["rule"], linewidth=0.5)
    axes.set_axisbelow(True)
    for side in ("top", "right", "left"):
        axes.spines[side].set_visible(False)
    if len(counts) <= MOST_BARS:
        for place, count in enumerate(counts):
            axes.text(
                place + 0.45,
                count,
                f"{count:,}",
                ha="center",
                va="bottom",
                fontsize=SMALL,
                color=ROLES["ink"],
            )
    told = "; ".join(
        f"{count:,} from {size_of_power(power)}" for power, count in sorted(lengths.items())
    )
    return drawn(made, name, "Lines by their length", told)


def size_of_power(power: int) -> str:
    """Returns two to a power as a number of bytes."""
    unit, rest = divmod(power, 10)
    return f"{1 << rest} {('B', 'KiB', 'MiB', 'GiB', 'TiB')[unit]}"
