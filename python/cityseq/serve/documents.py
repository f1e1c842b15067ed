"""Documents on the server and its collections: OGC API - Features, Parts 1 and 2. Routes, the links
of the first page, the classes of conformance and the definition of the API, as OpenAPI 3.0, are
made from the table of resources."""
from __future__ import annotations

import re
from collections.abc import Sequence
from typing import TYPE_CHECKING

from aiohttp import web

from .. import __version__
from ..coordinates import CRS84, edges
from .answers import (
    CITY_JSON,
    CITY_JSON_SEQ,
    HTML,
    ITEM,
    ITEMS,
    JSON,
    LINES,
    OPENAPI,
    PAGES,
    PROBLEM,
    SCHEMA,
    SCHEMAS,
    Format,
    Link,
    Links,
)
from .bodies import check, filter
from .context import Catalogue, Collection, Context, Resource
from .items import item, items
from .parameters import (
    CRS,
    FILTERS,
    QUERY,
    QUERYABLES,
    RELATION,
    STRING,
    SUMMARY,
    Parameter,
    has_filters,
    of_all,
    of_items,
    of_judging,
    queryables,
)
from .settings import Limits

if TYPE_CHECKING:
    from ..foreign import Object

TITLE = "City models by cityseq"
DESCRIPTION = (
    "CityJSONSeq streams as OGC API Features, and the check of streams that are sent. Each feature"
    " that is answered was judged again."
)
FEATURES, JUDGING = "Features", "Judging"  # the tags of operations
VARIABLE = re.compile(r"\{(\w+)\}")  # of a path
VARIABLES = {"collectionId": "The name of a collection.", "featureId": "The id of a feature."}
TEXTS = (HTML, CITY_JSON_SEQ, LINES)  # formats that are no JSON object
PACKED = ("application/gzip", "application/octet-stream")
BODY: Object = {
    "description": "A CityJSONSeq stream, plain or packed by gzip. `check` also takes a whole"
    " CityJSON file.",
    "required": True,
    "content": {
        media_type: {"schema": {"type": "string", "format": "binary"}}
        for media_type in (CITY_JSON_SEQ.media_type, CITY_JSON.media_type, *PACKED)
    },
}
REFUSED: Object = {
    "description": "The stream is invalid, and nothing was sent.",
    "content": {LINES.media_type: {"schema": STRING}},
}
COMPONENTS: Object = {
    "responses": {
        "Problem": {
            "description": "Why the request is not done (RFC 9457).",
            "content": {PROBLEM.media_type: {"schema": {"$ref": "#/components/schemas/Problem"}}},
        }
    },
    "schemas": {
        "Problem": {
            "type": "object",
            "required": ["type", "title", "status", "detail"],
            "properties": {
                **dict.fromkeys(("type", "title", "detail", "code"), STRING),
                "status": {"type": "integer"},
            },
        }
    },
}


def _content(formats: Sequence[Format]) -> Object:
    return {
        each.media_type: {"schema": STRING if each in TEXTS else {"type": "object"}}
        for each in formats
    }


def _responses(resource: Resource) -> Object:
    usual = (400, 408, 413, 415, 503) if resource.description else (400, 406, 503)
    problem = {"$ref": "#/components/responses/Problem"}
    statuses = sorted({*usual, *resource.statuses})
    return {
        "200": {"description": resource.summary, "content": _content(resource.formats)},
        **{str(status): REFUSED if status == 422 else problem for status in statuses},
        "default": problem,
    }


def _variables(path: str, names: Sequence[str]) -> list[Object]:
    """Returns the variables of a path. A collection has one of some names."""
    schemas = {"collectionId": {**STRING, "enum": list(names)} if names else STRING}
    return [
        Parameter(name, VARIABLES[name], schemas.get(name, STRING), "path").told()
        for name in VARIABLE.findall(path)
    ]


def _operation(resource: Resource, catalogue: Catalogue) -> Object:
    names = [each.id for each in catalogue]
    is_get = "GET" in resource.methods
    given = [
        {"$ref": f"#/components/parameters/{each.name}"} if is_get else each.told()
        for each in resource.parameters
    ]
    formats = [each.told() for each in resource.known if each not in resource.parameters]
    if resource.filters:
        formats += [each.told() for each in of_all(catalogue, resource.known)]
    operation = {
        "operationId": resource.name,
        "summary": resource.summary,
        "tags": [FEATURES if is_get else JUDGING],
        "parameters": [*_variables(resource.path, names), *given, *formats],
        "responses": _responses(resource),
    }
    more = {"description": resource.description, "requestBody": BODY}
    return operation if is_get else {**operation, **more}


def definition(context: Context) -> Object:
    """Returns the definition of the API."""
    catalogue = context.server.catalogue
    resources = context.server.resources
    gets = [each for each in resources if "GET" in each.methods]
    return {
        "openapi": "3.0.3",
        "info": {"title": TITLE, "description": DESCRIPTION, "version": __version__},
        "servers": [{"url": context.links.base}],
        "tags": [{"name": FEATURES}, {"name": JUDGING}],
        "paths": {
            each.path: {each.methods[0].lower(): _operation(each, catalogue)} for each in resources
        },
        "components": {
            "parameters": {one.name: one.told() for each in gets for one in each.parameters},
            **COMPONENTS,
        },
    }


async def landing(context: Context) -> web.Response:
    """Answers `/`."""
    links = context.links
    told = {
        "title": TITLE,
        "description": DESCRIPTION,
        "links": [
            *context.own_links("/"),
            *(
                links.to(each.path, relation, title, form, f=None if form == JSON else form.name)
                for each in context.server.resources
                for relation, title, form in each.relations
            ),
        ],
    }
    shown = [_described(links, each) for each in context.server.catalogue]
    return context.document(told, "landing.html", collections=shown, limits=context.server.limits)


async def api(context: Context) -> web.Response:
    """Answers `/api`."""
    return context.document(definition(context), "api.html")


async def conformance(context: Context) -> web.Response:
    """Answers `/conformance`. All classes of requirements need longitude and latitude, so without
    pyproj there may be none."""
    systems = [each.system for each in context.server.catalogue]
    has_degrees = all(each.can_change or each.storage is None for each in systems)
    classes = {each for resource in context.server.resources for each in resource.conforms}
    told = {
        "conformsTo": sorted(classes) if has_degrees else [],
        "links": context.own_links("/conformance"),
    }
    return context.document(told, "conformance.html")


async def collections(context: Context) -> web.Response:
    """Answers `/collections`."""
    told = {
        "links": context.own_links("/collections"),
        "collections": [_described(context.links, each) for each in context.server.catalogue],
    }
    return context.document(told, "collections.html")


async def collection(context: Context) -> web.Response:
    """Answers `/collections/NAME`."""
    found = context.collection
    told = _described(context.links, found, context.own_links(found.path))
    return context.document(told, "collection.html")


def _described(links: Links, collection: Collection, own: list[Link] | None = None) -> Object:
    """Returns the description of a collection, with links to itself."""
    system, extent, path = collection.system, collection.extent, collection.path
    told: Object = {
        "id": collection.id,
        "title": collection.id,
        "description": _in_words(collection),
        "itemType": "feature",
        "links": [
            *(own or [links.to(path, "self", "This collection", JSON)]),
            *(
                links.to(
                    f"{path}/items", "items", f"The features as {each.title}", each, f=each.name
                )
                for each in ITEMS
            ),
            links.to(f"{path}/queryables", RELATION, "What queries can name", SCHEMA),
        ],
        "features": collection.stream.features,
        "storageExtent": None if extent is None else edges(extent, False),
    }
    degrees = system.extent_in(CRS84, extent) if extent is not None and system.can_change else None
    if degrees is not None:
        told["extent"] = {"spatial": {"bbox": [edges(degrees, True)], "crs": CRS84}}
    if system.storage is not None:
        told["crs"], told["storageCrs"] = system.listed(), system.storage
    return told


def _in_words(collection: Collection) -> str:
    system = collection.system
    if system.storage is not None:
        place = f"Coordinates are those of EPSG:{system.storage.rsplit('/', 1)[1]}."
    elif system.name is not None:
        place = (
            f"The stream names the system {system.name}, which is no EPSG code. Coordinates are its"
            " own."
        )
    else:
        place = "The stream names no coordinate reference system. Coordinates are its own."
    return f"{collection.stream.features:,} features of a CityJSONSeq stream. {place}"


CONF = "http://www.opengis.net/spec/ogcapi-features-1/1.0/conf/"
CORE, GEOJSON, WEB, OAS30 = (f"{CONF}{name}" for name in ("core", "geojson", "html", "oas30"))
SYSTEMS = "http://www.opengis.net/spec/ogcapi-features-2/1.0/conf/crs"
ONE, PAGE = "/collections/{collectionId}", "/collections/{collectionId}/items"
CLASSES = "The classes that it conforms to"
API = (
    ("service-desc", "The definition of the API", OPENAPI),
    ("service-doc", "The API as a page", HTML),
)
DOCUMENTS = (
    Resource("/", "getLandingPage", "The first page", landing, PAGES, conforms=(CORE, WEB)),
    Resource(
        "/api", "getApi", "This definition", api, (OPENAPI, HTML), conforms=(OAS30,), relations=API
    ),
    Resource(
        "/conformance",
        "getConformance",
        CLASSES,
        conformance,
        PAGES,
        relations=(("conformance", CLASSES, JSON),),
    ),
    Resource(
        "/collections",
        "getCollections",
        "The collections",
        collections,
        PAGES,
        relations=(("data", "The collections", JSON),),
    ),
    Resource(ONE, "describeCollection", "A collection", collection, PAGES, statuses=(404,)),
    Resource(
        f"{ONE}/queryables",
        "getQueryables",
        "The attributes that queries can name",
        queryables,
        SCHEMAS,
        statuses=(404,),
        conforms=QUERYABLES,
    ),
)
ANSWERED = (
    "The header and the kept lines, byte for byte. The answer begins before the body has ended, so"
    " read while you send. An answer without its last chunk is not whole: the stream is invalid."
)


def _features(limits: Limits) -> tuple[Resource, ...]:
    """Returns the resources that answer features."""
    return (
        Resource(
            PAGE,
            "getFeatures",
            "Features of a collection",
            items,
            ITEMS,
            of_items(limits),
            (404, 410, 502),
            (GEOJSON, SYSTEMS, *(FILTERS if has_filters() else ())),
            filters=True,
        ),
        Resource(
            f"{PAGE}/{{featureId}}", "getFeature", "A feature", item, ITEM, (CRS,), (404, 502)
        ),
    )


def _judging(limits: Limits) -> tuple[Resource, ...]:
    """Returns the resources that judge bodies."""
    return (
        Resource(
            "/check",
            "check",
            "The verdict on a stream",
            check,
            (LINES,),
            (*of_judging(limits), SUMMARY),
            description="An object a line: each report, then the result. A body of the type"
            " application/city+json is a whole CityJSON file.",
        ),
        Resource(
            "/filter",
            "filter",
            "The features of a stream that a query selects",
            filter,
            (CITY_JSON_SEQ, LINES),
            (*of_judging(limits), *QUERY),
            (422,),
            description=ANSWERED,
        ),
    )


def table(limits: Limits) -> tuple[Resource, ...]:
    """Returns all resources of a server with these limits."""
    return (*DOCUMENTS, *_features(limits), *_judging(limits))
