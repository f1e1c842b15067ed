"""The parameters of requests, as OpenAPI has them, and how their texts are read: strictly, so each
must be known, and appear once. Queryables of a collection, and filters that name them: OGC API -
Features, Part 3. The language of filters is CQL2 text."""
from __future__ import annotations

import re
from collections.abc import Iterable, Mapping, Sequence
from dataclasses import dataclass
from datetime import date
from decimal import Decimal, InvalidOperation
from importlib.util import find_spec
from typing import TYPE_CHECKING
from urllib.parse import unquote_to_bytes

from aiohttp import web

from ..attributes.cql2 import Comparison, Filter, Joined, Literal, parsed
from ..engine import USUAL_DEPTH, USUAL_LINE, shortened, shown
from ..indexes.geopackage import Attribute
from .answers import HTML, SCHEMA, Format, Problem
from .settings import MOST_REPORTS, REPORTS, Limits

if TYPE_CHECKING:
    from ..foreign import Object
    from .context import Catalogue, Context

USUAL_LIMIT = 1_000
ON_A_PAGE, MOST_ON_A_PAGE = 50, 1_000  # features as HTML: usually, and at most
LANGUAGE = "cql2-text"
STRING: Object = {"type": "string"}
TEXTS: Object = {"type": "array", "items": STRING}
FLAG: Object = {"type": "boolean", "default": False}
URI: Object = {"type": "string", "format": "uri"}


@dataclass(frozen=True)
class Parameter:
    """A parameter.

    Attributes:
        name: Its name.
        description: What it does.
        schema: Its values, as JSON Schema has them.
        place: Where a request has it: `query`, or `path`.
    """

    name: str
    description: str
    schema: Object
    place: str = "query"

    def told(self) -> Object:
        """Returns it as OpenAPI has it."""
        style = {"style": "form", "explode": False} if self.place == "query" else {}
        return {
            "name": self.name,
            "in": self.place,
            "description": self.description,
            "required": self.place == "path",
            "schema": self.schema,
            **style,
        }


def _whole(least: int, greatest: int, usual: int) -> Object:
    return {
        "type": "integer",
        "minimum": least,
        "maximum": greatest,
        "default": min(usual, greatest),
    }


def _numbers(*counts: int) -> Object:
    lengths = [{"minItems": count, "maxItems": count} for count in counts]
    array: Object = {"type": "array", "items": {"type": "number"}}
    return {**array, **lengths[0]} if len(lengths) == 1 else {**array, "oneOf": lengths}


CRS = Parameter("crs", "The system of geometries in GeoJSON, CRS84 if left out.", URI)
SUMMARY = Parameter(
    "summary",
    "Count how often each reason comes, in a line after the result. There are only reports if"
    " max_reports is there too.",
    FLAG,
)
QUERY = (
    Parameter("exclude", "Keep the features that the query does not select.", FLAG),
    Parameter("id", "Keep features with one of these ids.", TEXTS),
    Parameter(
        "type", "Keep features with a city object of one of these types; in a URL + is %2B.", TEXTS
    ),
    Parameter("lod", "Keep features with a geometry of one of these LoDs.", TEXTS),
    Parameter(
        "bbox",
        "Keep features that reach into this box, in world coordinates of the stream.",
        _numbers(4),
    ),
    Parameter(
        "verdict",
        "If it is last, reports and result follow the last line.",
        {"type": "string", "enum": ["last"]},
    ),
)
SELECTION = (
    Parameter(
        "bbox",
        "Features whose extent reaches into this box: minx,miny,maxx,maxy. The system is that of"
        " bbox-crs, with its axes in their order. It is CRS84 if that is left out. Then a box that"
        " cannot be longitudes and latitudes is in the system of the stream, with x first. In"
        " degrees a box whose west is greater than its east lies over the antimeridian. Of six"
        " numbers the third and the sixth are heights, and are left out.",
        _numbers(4, 6),
    ),
    Parameter("bbox-crs", "The system of bbox.", URI),
    Parameter(
        "datetime", "A time or an interval. No feature has a time, so it selects all.", STRING
    ),
    Parameter("ids", "Features with one of these ids.", TEXTS),
    Parameter(
        "type", "Features with a city object of one of these types; in a URL + is %2B.", TEXTS
    ),
    Parameter("lod", "Features with a geometry of one of these LoDs.", TEXTS),
    Parameter(
        "filter",
        "Features whose attributes fit this filter, in CQL2 text. It names queryables of the"
        " collection.",
        STRING,
    ),
    Parameter(
        "filter-lang",
        "The language of filter.",
        {"type": "string", "enum": [LANGUAGE], "default": LANGUAGE},
    ),
    Parameter("filter-crs", "The system of geometries in filter. It can have none.", URI),
)
PAGING = (
    Parameter(
        "after",
        "Features behind the one of this number in the stream. Links to next pages have it.",
        {"type": "integer", "minimum": 0, "default": 0},
    ),
    Parameter(
        "mark",
        "Links to next pages have it. If the stream is another one by then, the status is 410.",
        STRING,
    ),
)


def of_format(formats: Sequence[Format]) -> Parameter:
    """Returns the parameter that selects one of some formats."""
    schema = {"type": "string", "enum": [each.name for each in formats]}
    return Parameter("f", "The format, instead of the header Accept.", schema)


def of_items(limits: Limits) -> tuple[Parameter, ...]:
    """Returns the parameters of a page of features."""
    limit = Parameter(
        "limit",
        "At most so many features. As CityJSONSeq all are answered if it is left out, and as HTML"
        f" {ON_A_PAGE}.",
        _whole(1, limits.features, USUAL_LIMIT),
    )
    return (*SELECTION, CRS, limit, *PAGING)


def of_judging(limits: Limits) -> tuple[Parameter, ...]:
    """Returns the parameters that say how a body is judged."""
    return (
        Parameter("keep_going", "Report each invalid line, and go on.", FLAG),
        Parameter(
            "tree", "Reject a feature if its main city object does not reach all others.", FLAG
        ),
        Parameter("extensions", "Accept types of city objects that begin with `+`.", FLAG),
        Parameter(
            "line_limit",
            "Reject a line with more bytes.",
            _whole(1, limits.line_limit, USUAL_LINE),
        ),
        Parameter(
            "depth",
            "Reject a line with more arrays and objects open at once.",
            _whole(1, limits.depth, USUAL_DEPTH),
        ),
        Parameter(
            "max_reports",
            "Answer so many reports. The result counts all.",
            _whole(0, MOST_REPORTS, REPORTS),
        ),
    )


NUMBER = re.compile(r"[-+]?(?:\d+\.?\d*|\.\d+)(?:[eE][-+]?\d+)?\Z", re.ASCII)
NUMBERS = "bbox has four numbers, minx,miny,maxx,maxy, or six with heights"
LONGEST_NUMBER = 100
WHOLE = re.compile(r"\+?0*(\d+)\Z", re.ASCII)
DIGITS = 15  # of a whole number
MOST = 10**DIGITS - 1
CLOCK = r"(?:[01]\d|2[0-3]):[0-5]\d"
DATE_TIME = re.compile(  # second 60 is a leap second
    rf"(\d{{4}}-\d\d-\d\d)(?:T{CLOCK}:(?:[0-5]\d|60)(?:\.\d+)?(?:Z|[-+]{CLOCK}))?\Z",
    re.ASCII | re.IGNORECASE,
)
FLAGS = {"": True, "true": True, "1": True, "false": False, "0": False}


def unescaped(text: str) -> str:
    """Returns a text of a URL without its escapes.

    Raises:
        Problem: It is not UTF-8.
    """
    try:
        return unquote_to_bytes(text).decode("utf-8")
    except UnicodeError:
        raise Problem(400, f"what is escaped is not UTF-8: {text}") from None


class Query:
    """The parameters of a request."""

    def __init__(self, raw: str, known: Sequence[Parameter]) -> None:
        """Takes the text after the `?`, and the parameters that it may have.

        Raises:
            Problem: A parameter is not known, or appears twice.
        """
        self._known = {each.name: each for each in known}
        self._raw: dict[str, str] = {}
        for pair in filter(None, raw.split("&")):
            name, _, value = pair.replace("+", " ").partition("=")
            name = unescaped(name)
            if name not in self._known:
                names = ", ".join(self._known)
                raise Problem(400, f"there is no parameter {name}: it is one of {names}")
            if name in self._raw:
                raise Problem(400, f"the parameter {name} is given twice")
            self._raw[name] = value
        if self._raw.get("f") == "html":
            for field in ("bbox", "filter"):  # fields of the form, which may be empty
                if not self._raw.get(field, " "):
                    del self._raw[field]

    def __contains__(self, name: str) -> bool:
        return name in self._raw

    def text(self, name: str) -> str | None:
        """Returns the text of a parameter, if it is there."""
        raw = self._raw.get(name)
        return None if raw is None else unescaped(raw)

    def texts(self, name: str) -> list[str] | None:
        """Returns the texts of a parameter, separated by commas. An escaped comma is part of a
        text."""
        raw = self._raw.get(name)
        return None if raw is None else [unescaped(each) for each in raw.split(",")]

    def flag(self, name: str) -> bool:
        """Returns whether a parameter is `true`, or is there without a value."""
        text = self.text(name)
        if text is None:
            return False
        if text not in FLAGS:
            raise Problem(400, f"{name} is true or false: {text}")
        return FLAGS[text]

    def number(self, name: str) -> int:
        """Returns the whole number of a parameter, or the one that its schema has for it."""
        schema, text = self._known[name].schema, self.text(name)
        if text is None:
            return int(schema["default"])
        return _count(name, text, schema["minimum"], schema.get("maximum", MOST))

    def limit(self, most: int, usual: int) -> int:
        """Returns how many features are asked for, at most `most`. By the standard it is no mistake
        to ask for more."""
        text = self.text("limit")
        return min(most, usual if text is None else _count("limit", text, 1, 10 * MOST + 9))

    def box(self) -> list[Decimal] | None:
        """Returns the two first and the two last edges of the box that is asked for, or None.
        Heights of a box of six numbers are left out. Which edge is the west one depends on the
        system."""
        text = self.text("bbox")
        if text is None:
            return None
        numbers = [_number(edge.strip(), text) for edge in text.split(",")]
        if len(numbers) not in (4, 6):
            raise Problem(400, f"{NUMBERS}: {text}")
        if len(numbers) == 6:
            if numbers[2] > numbers[5]:
                raise Problem(400, f"the box is empty: its third number is above its sixth: {text}")
            del numbers[5], numbers[2]
        return numbers

    def check_time(self) -> None:
        """Checks that `datetime` is a time or an interval. No feature has a time, so it selects
        all."""
        text = self.text("datetime")
        if text is None:
            return
        parts = text.split("/")
        are_times = (_is_time(part) or (len(parts) == 2 and part in ("", "..")) for part in parts)
        if len(parts) > 2 or not all(are_times):
            raise Problem(400, f"datetime is a time as of RFC 3339, or two with / between: {text}")


def _count(name: str, text: str, least: int, greatest: int) -> int:
    """Returns a whole number. Of one with more than 16 digits only these are read."""
    found = WHOLE.match(text)
    number = 0 if found is None else min(int(found[1][: DIGITS + 1]), greatest + 1)
    if found is None or not least <= number <= greatest:
        raise Problem(400, f"{name} is a whole number from {least} to {greatest}: {text}")
    return number


def _is_time(text: str) -> bool:
    """Returns whether a text is a date, or a date and a time, that there is."""
    found = DATE_TIME.match(text)
    try:
        return found is not None and bool(date.fromisoformat(found.group(1)))
    except ValueError:
        return False


def _number(text: str, whole: str) -> Decimal:
    if len(text) > LONGEST_NUMBER or not NUMBER.match(text):
        raise Problem(400, f"{NUMBERS}: {whole}")
    try:
        number = Decimal(text)
    except InvalidOperation:  # its exponent has too many digits
        number = Decimal("Infinity")
    if number != 0 and not (number.is_finite() and abs(number.adjusted()) <= LONGEST_NUMBER):
        raise Problem(400, f"a number of bbox is out of range: {whole}")
    return number


# ---- queryables

RELATION = "http://www.opengis.net/def/rel/ogc/1.0/queryables"
PART, CQL2 = (
    "http://www.opengis.net/spec/ogcapi-features-3/1.0/conf/",
    "http://www.opengis.net/spec/cql2/1.0/conf/",
)
QUERYABLES = (f"{PART}queryables", f"{PART}queryables-query-parameters")
FILTERS = (
    f"{PART}filter",
    f"{PART}features-filter",
    f"{CQL2}cql2-text",
    f"{CQL2}basic-cql2",
    f"{CQL2}advanced-comparison-operators",
)
KINDS = {"INTEGER": "integer", "REAL": "number", "TEXT": "string"}
BOOLEANS = {"true": True, "false": False}
LITERAL = re.compile(r"[-+]?(?:\d+\.?\d*|\.\d+)(?:[eE][-+]?\d{1,9})?", re.ASCII)
LONGEST_LITERAL = 1_000  # digits
LONGEST_NAME = 100  # characters of a name in a description
TOGETHER = 200  # parameters in the definition of the API


def has_filters() -> bool:
    """Whether the package is there that reads filters."""
    return find_spec("lark") is not None


def schema_of(attribute: Attribute) -> Object:
    """Returns the values of an attribute, as JSON Schema has them."""
    if attribute.format == "boolean":
        return {"type": "boolean"}
    told: Object = {"type": KINDS[attribute.type]}
    return told if attribute.format is None else {**told, "format": attribute.format}


def of_attributes(attributes: Iterable[Attribute], known: Sequence[Parameter]) -> list[Parameter]:
    """Returns the parameters that select features by the value of an attribute. A known one keeps
    its meaning."""
    names = {each.name for each in known}
    return [
        Parameter(
            each.column,
            f"Features with this value of {shown(shortened(each.name, LONGEST_NAME))}.",
            schema_of(each),
        )
        for each in attributes
        if each.column not in names
    ]


def of_all(catalogue: Catalogue, known: Sequence[Parameter]) -> list[Parameter]:
    """Returns these parameters of all collections, for the definition of the API."""
    found: dict[str, Parameter] = {}
    for collection in catalogue:
        for each in of_attributes(collection.attributes.values(), known):
            one = found.setdefault(each.name, each)
            if one.schema != each.schema:
                found[each.name] = Parameter(each.name, each.description, {})
    return list(found.values())[:TOGETHER]


def _literal(attribute: Attribute, text: str) -> Literal:
    """Returns the value that a parameter asks for.

    Raises:
        Problem: It is not of the type of the attribute.
    """
    if attribute.format == "boolean":
        if text not in BOOLEANS:
            raise Problem(400, f"{attribute.column} is true or false: {text}")
        return BOOLEANS[text]
    if attribute.type == "TEXT":
        return text
    if len(text) > LONGEST_LITERAL or LITERAL.fullmatch(text) is None:
        raise Problem(400, f"{attribute.column} is a number: {text}")
    return Decimal(text)


def filter_of(
    query: Query, attributes: Mapping[str, Attribute], known: Sequence[Parameter]
) -> Filter | None:
    """Returns the filter of a request: that of `filter`, and the values of attributes.

    Raises:
        Problem: A value is not of the type of its attribute, or the language is another one.
        RequestError: The text is no filter.
    """
    text, language = query.text("filter"), query.text("filter-lang")
    if language not in (None, LANGUAGE):
        raise Problem(400, f"filter-lang is {LANGUAGE}: {language}")
    parts: list[Filter] = [] if text is None else [parsed(text)]
    for each in of_attributes(attributes.values(), known):
        value = query.text(each.name)
        if value is not None:
            parts.append(Comparison(each.name, "=", _literal(attributes[each.name], value)))
    return Joined("AND", tuple(parts)) if parts else None


async def queryables(context: Context) -> web.Response:
    """Answers `/collections/NAME/queryables`."""
    collection = context.collection
    path = f"{collection.path}/queryables"
    told = {
        "$schema": "https://json-schema.org/draft/2020-12/schema",
        "$id": context.links.url(path),
        "type": "object",
        "title": f"Queryables of {collection.id}",
        "properties": {
            each.column: {"title": each.name, **schema_of(each)}
            for each in collection.attributes.values()
        },
        "additionalProperties": False,
    }
    if context.chosen == HTML:
        links = context.links.formats(path, (SCHEMA, HTML), HTML)
        return context.document({**told, "links": links}, "queryables.html", collection=collection)
    return context.document(told, "queryables.html")
