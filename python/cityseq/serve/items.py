"""Cuts of a collection: pages of its features, and one of them. As GeoJSON a feature has its ground
or extent, and the counts and names of its contents. It can also be a CityJSON object of its own,
with every number as the stream spells it."""
from __future__ import annotations

import json
from collections.abc import Callable, Iterator
from contextlib import closing
from decimal import ROUND_CEILING, ROUND_FLOOR, Decimal
from functools import partial
from typing import TYPE_CHECKING, NamedTuple

from aiohttp import web

from ..attributes import members
from ..coordinates import FARTHEST, Extent, System, edges, may_be_degrees, pieces, short
from ..engine import RequestError
from ..engine.world import plain
from ..indexes.footprints import Polygon
from ..indexes.index_pages import Block, Found, Page
from .answers import (
    CITY_JSON,
    CITY_JSON_SEQ,
    GEOJSON,
    HTML,
    JSON,
    Format,
    Link,
    Problem,
    dumped,
    header_of,
)
from .context import Collection, Context, name_of
from .parameters import (
    MOST_ON_A_PAGE,
    ON_A_PAGE,
    SELECTION,
    USUAL_LIMIT,
    Query,
    filter_of,
    of_attributes,
    unescaped,
)
from .sending import send_page

if TYPE_CHECKING:
    from ..foreign import Json, Object

LISTS = ("ids", "type", "lod")
SELECTS = [each.name for each in SELECTION]
NOT_SELECTIVE = {"datetime", "bbox-crs", "filter-lang", "filter-crs"}
A_BOX = "0,0,0,0"  # any box: a query that selects nothing still needs a stream that has places
STEP = Decimal("1e-9")  # a transformed box is rounded outward to a multiple of this
WAYS = (ROUND_FLOOR, ROUND_FLOOR, ROUND_CEILING, ROUND_CEILING)


def _ring(box: Extent) -> list[list[list[float]]]:
    west, south, east, north = box
    return [[[west, south], [east, south], [east, north], [west, north], [west, south]]]


def _geometry(extent: Extent | None, system: System, asked: str | None) -> Object | None:
    """Returns the geometry of an extent in a system. It has two parts if it lies over the
    antimeridian (RFC 7946), and is None if it has no place there."""
    box = None if extent is None else system.extent_in(asked, extent)
    if box is None:
        return None
    is_own = system.is_own(asked)
    parts = [box] if is_own else pieces(box)
    rings = [_ring(system.turned(edges(part, not is_own), asked)) for part in parts]
    if len(rings) == 1:
        return {"type": "Polygon", "coordinates": rings[0]}
    return {"type": "MultiPolygon", "coordinates": rings}


def _rings(polygons: list[Polygon], system: System, asked: str | None) -> Json:
    """Returns the coordinates of polygons in a system. None if a point has no place there."""
    points = [point for polygon in polygons for ring in polygon for point in ring]
    moved = system.points_in(asked, points)
    if moved is None:
        return None
    places = iter(moved)
    return [[[next(places) for _ in ring] for ring in polygon] for polygon in polygons]


def _shape(found: Found, system: System, asked: str | None) -> Object | None:
    """Returns the geometry of a feature: its ground, or its extent. That also stands for a ground
    that lies over the antimeridian."""
    shape = _geometry(found.extent, system, asked)
    if shape is None or not found.footprint or shape["type"] != "Polygon":
        return shape
    coordinates = _rings(found.footprint, system, asked)
    return shape if coordinates is None else {"type": "MultiPolygon", "coordinates": coordinates}


def feature_of(found: Found, system: System, asked: str | None) -> Object:
    """Returns a feature. Its geometry has the coordinates of a system, None for its own."""
    low, high = found.heights or (None, None)
    return {
        "type": "Feature",
        "id": found.id,
        "geometry": _shape(found, system, asked),
        "properties": {
            "types": ",".join(found.types),
            "lods": ",".join(found.lods),
            "objects": found.objects,
            "geometries": found.geometries,
            "zmin": short(low),
            "zmax": short(high),
            "line": found.line,
            "bytes": found.size,
            **found.attributes,
        },
    }


OF_FEATURES = ("CityObjects", "vertices", "appearance")  # members that a feature has itself


def whole(header: bytes, line: bytes) -> bytes:
    """Returns a feature of a stream as a CityJSON object: the header with the feature's members."""
    merged = {name: value for name, value in members(header).items() if name not in OF_FEATURES}
    feature = members(line)
    merged.update({name: feature[name] for name in OF_FEATURES if name in feature})
    body = ",".join(f"{json.dumps(name)}:{value}" for name, value in merged.items())
    return f"{{{body}}}\n".encode()


class Selected(NamedTuple):
    """What a box selects.

    Attributes:
        text: The box around it in the coordinates of the stream. None if no box is asked for, or if
            no query has such a box.
        reaches: If that is a larger box, returns whether an extent reaches into the one asked for.
        is_none: Whether it selects nothing.
    """

    text: str | None = None
    reaches: Callable[[Extent], bool] | None = None
    is_none: bool = False


def _selected(query: Query, collection: Collection) -> Selected:
    """Returns what the box of a request selects.

    A box that cannot be longitudes and latitudes is taken as a box of the stream, unless
    `bbox-crs` is there. The axes of a box in `bbox-crs` have the order of that system.

    Raises:
        Problem: The box is empty.
        RequestError: It is empty, or its system is not known.
    """
    box, uri = query.box(), query.text("bbox-crs")
    system = collection.system
    is_own = uri is None and (box is None or not may_be_degrees(box))
    asked = system.storage if is_own else system.asked(uri, "bbox-crs")
    if box is None:
        return Selected()
    west, south, east, north = box if uri is None else system.turned(box, asked)
    if south > north:
        raise Problem(400, "the box is empty: south of it is north of its north")
    reach = system.reach((float(west), float(south), float(east), float(north)), asked)
    if system.is_own(asked) and reach.reaches is None:
        return Selected(",".join(map(plain, (west, south, east, north))))
    if reach.box is None:
        return Selected(A_BOX, is_none=True)
    if any(abs(edge) >= FARTHEST for edge in reach.box):  # no query has it: each is tested
        return Selected(None, reach.reaches or (lambda extent: True))
    edges = (Decimal(edge).quantize(STEP, way) for edge, way in zip(reach.box, WAYS))
    return Selected(",".join(map(plain, edges)), reach.reaches)


def _system(query: Query, collection: Collection, chosen: Format) -> str | None:
    """Returns the system of an answer.

    Raises:
        Problem: The answer cannot have it.
        RequestError: The collection does not have it.
    """
    uri, system = query.text("crs"), collection.system
    if chosen == GEOJSON:
        return system.asked(uri, "crs")
    if uri is not None and (system.storage is None or not system.is_own(system.asked(uri, "crs"))):
        raise Problem(400, f"crs: as {chosen.title} features have the coordinates of the stream")
    return system.storage


class Cut:
    """A request for features of a collection."""

    def __init__(self, context: Context) -> None:
        """Reads what all such requests have.

        Raises:
            CityseqError, Problem: The answer cannot have the format or the system.
        """
        self.context, self.collection = context, context.collection
        self.query, self.chosen = context.query, context.chosen
        self.system = _system(self.query, self.collection, self.chosen)

    def crs_as(self, form: Format) -> str | None:
        """Returns the parameter `crs` for a link to the answer in a format. Only GeoJSON has other
        coordinates than the stream."""
        is_possible = form == GEOJSON or self.collection.system.is_own(self.system)
        return self.query.text("crs") if is_possible else None

    def links_of(self, path: str | None, parameters: Callable[[Format], Object]) -> list[Link]:
        """Returns the links to this answer, if it has a path, to its other formats, and to the
        collection."""
        links, formats = self.context.links, self.context.resource.formats
        own = [] if path is None else links.formats(path, formats, self.chosen, parameters)
        return [*own, links.to(self.collection.path, "collection", "The collection", JSON)]

    def head(self, name: str, links: list[Link], following: Link | None = None) -> dict[str, str]:
        """Returns the headers of the answer. They have the name of a file for it, and the links
        that its body cannot have."""
        form = self.chosen
        head = {"Content-Type": form.media_type, "Content-Disposition": form.disposition(name)}
        if self.system is not None:
            head["Content-Crs"] = f"<{self.system}>"
        told = header_of([] if form == GEOJSON else links, following)
        return {**head, "Link": told} if told else head


class Items(Cut):
    """A request for a page of a collection."""

    def __init__(self, context: Context) -> None:
        """Reads the request.

        Raises:
            CityseqError, Problem: A parameter has a value that it may not have.
        """
        super().__init__(context)
        query, limits = self.query, context.server.limits
        self.has_limit = "limit" in query or self.chosen != CITY_JSON_SEQ
        self.most, usual = limits.features, USUAL_LIMIT if self.has_limit else limits.features
        if self.chosen == HTML:
            self.most, usual = min(self.most, MOST_ON_A_PAGE), ON_A_PAGE
        self.limit, self.after = query.limit(self.most, usual), query.number("after")
        query.check_time()
        self._selected = _selected(query, self.collection)
        attributes, known = self.collection.attributes, context.resource.known
        self._filter = filter_of(query, attributes, known)
        if "filter-crs" in query:
            self.collection.system.asked(query.text("filter-crs"), "filter-crs")
        if query.text("mark") not in (None, self.collection.mark):
            raise Problem(
                410,
                "the stream was indexed anew after the page before this one: begin again with the"
                " first page",
            )
        self.selects: Object = {
            name: query.texts(name) if name in LISTS else query.text(name)
            for name in [
                *SELECTS,
                *(each.name for each in of_attributes(attributes.values(), known)),
            ]
            if name in query
        }

    def page(self) -> Page:
        """Returns the page. A thread calls it.

        Raises:
            Problem: All features of a box are asked for, and they are too many.
            RequestError: A text of the query cannot be asked for.
        """
        selected, collection = self._selected, self.collection
        after = collection.stream.features if selected.is_none else self.after
        with collection.pool.index() as index:
            ids, types, lods = map(self.query.texts, LISTS)
            work = index.work(ids, types, lods, selected.text, self._filter)
            is_told = work.lods is None and not work.asks_extensions and selected.reaches is None
            if is_told and not self.has_limit:  # this takes less time than to make a page
                if index.has_more(work, collection.stream, after, self.limit):
                    raise self._too_many()
        return Page(collection, work, after, self.limit, selected.reaches)

    def listed(self) -> tuple[list[Found], int | None]:
        """Returns the features of the page, and the feature after which the next begins. A thread
        calls it."""
        with closing(self.page()) as page:
            return [found for block in page.blocks() for found in block.features()], page.next

    def _too_many(self) -> Problem:
        return Problem(
            400,
            f"more than {self.limit:,} features may match: ask for less, or set limit and follow"
            " the links to the next pages",
        )

    def _parameters(self, after: int, form: Format) -> Object:
        """Returns the parameters of the page that begins after a feature."""
        more = {"after": after, "mark": self.collection.mark} if after else {}
        return {
            **self.selects,
            "crs": self.crs_as(form),
            "limit": self.limit,
            **more,
            "f": form.name,
        }

    def following(self, after: int | None) -> Link | None:
        """Returns the link to the next page, if there is one: it begins after a feature."""
        if after is None:
            return None
        path, parameters = f"{self.collection.path}/items", self._parameters(after, self.chosen)
        return self.context.links.to(path, "next", "The next page", self.chosen, **parameters)

    def own_links(self) -> list[Link]:
        """Returns the links to this page, to its other formats, and to the collection."""
        return self.links_of(f"{self.collection.path}/items", partial(self._parameters, self.after))

    def head_of(self, page: Page) -> dict[str, str]:
        """Returns the headers of the answer, when the page has begun.

        Raises:
            Problem: All features are asked for, and they are too many.
        """
        if page.next is not None and not self.has_limit:
            raise self._too_many()
        return self.head(self.collection.id, self.own_links(), self.following(page.next))

    def sequence(self, page: Page) -> Iterator[bytes]:
        """Yields the page as CityJSONSeq: the header, and the lines unchanged."""
        blocks = page.blocks()
        yield page.header
        for block in blocks:
            yield block.lines()

    def feature_collection(self, page: Page) -> Iterator[bytes]:
        """Yields the page as GeoJSON."""
        system, count = self.collection.system, 0
        yield b'{"type":"FeatureCollection","features":['
        for block in page.blocks():
            texts = [dumped(feature_of(each, system, self.system)) for each in block.features()]
            yield (b"," if count else b"") + b",\n".join(texts)
            count += len(texts)
        following = self.following(page.next)
        links = [*self.own_links(), *([] if following is None else [following])]
        told: Object = {"numberReturned": count, "links": links}
        if not set(self.selects) - NOT_SELECTIVE:
            told["numberMatched"] = self.collection.stream.features
        yield b"]," + dumped(told)[1:] + b"\n"


async def items(context: Context) -> web.StreamResponse:
    """Answers `/collections/NAME/items`."""
    asked, calls = Items(context), context.server.calls
    if asked.chosen == HTML:
        features, after = await calls.call(asked.listed)
        return context.page(
            "items.html",
            asked.system,
            told={"links": asked.own_links()},
            features=features,
            collection=asked.collection,
            asked=asked,
            next=asked.following(after),
        )
    page = await calls.call(asked.page)
    texts = asked.feature_collection if asked.chosen == GEOJSON else asked.sequence
    return await send_page(context.request, calls, page, texts(page), asked.head_of)


def find(collection: Collection, name: str) -> tuple[bytes, Block]:
    """Returns the header of a stream, and the first feature that has an id. A thread calls it.

    Raises:
        Problem: No feature has it.
    """
    try:
        with collection.pool.index() as index:
            work = index.work(ids=[name])
    except RequestError:
        raise Problem(404, f"no feature has the id {name}") from None
    with closing(Page(collection, work, 0, 1)) as page:
        block = page.block()
        if block is None:
            raise Problem(404, f"no feature has the id {name}")
        page.block()  # the end of a page shows whether the stream has changed
        return page.header, block


async def item(context: Context) -> web.StreamResponse:
    """Answers `/collections/NAME/items/ID`."""
    asked = Cut(context)
    collection = asked.collection
    name = unescaped(context.request.raw_path.partition("?")[0].rpartition("/")[2])
    header, block = await context.server.calls.call(find, collection, name)
    (feature,) = await context.server.calls.call(block.features)
    path = collection.item_path(feature.id)
    links = asked.links_of(path, lambda form: {"crs": asked.crs_as(form)})
    if asked.chosen == HTML:
        told = {"links": links}
        return context.page(
            "item.html", asked.system, told=told, feature=feature, collection=collection
        )
    if asked.chosen == CITY_JSON_SEQ:
        body = header + block.lines()
    elif asked.chosen == CITY_JSON:
        body = whole(header, block.lines())
    else:
        told = {**feature_of(feature, collection.system, asked.system), "links": links}
        body = dumped(told) + b"\n"
    head = asked.head(name_of(feature.id.replace("/", "-")), links)
    return web.Response(body=body, headers=head)
