"""The collections of a server, its resources, and what is known when a request for one is
answered."""
from __future__ import annotations

import os
import re
from collections.abc import Awaitable, Callable, Iterator, Mapping
from dataclasses import dataclass
from functools import cached_property
from hashlib import sha256
from typing import TYPE_CHECKING

from aiohttp import web

from ..coordinates import System
from ..engine import RequestError
from ..indexes.geopackage import Attribute
from ..indexes.index_pages import IndexPool, OpenStream
from ..indexes.line_reader import NO_RANGES, IndexedStream
from .answers import HTML, Format, Link, Links, Problem, choose, dumped, segment
from .parameters import Parameter, Query, of_format
from .settings import Settings

if TYPE_CHECKING:
    from ..foreign import Json
    from .application import Server


ENDINGS = re.compile(r"(?:\.city)?(?:\.jsonl|\.json)?(?:\.gz|\.zst)?\Z")
LONGEST = 4_000  # characters of an id in a URL
MARK = 16  # characters
NO_SIGN_OF_A_NAME = re.compile(r"[^A-Za-z0-9._-]+")
PLACES = ("number", "path", "told_path", "first_fid")  # where a stream is, and not what it is


@dataclass(frozen=True)
class Collection(OpenStream):
    """A stream, as it is served.

    Attributes:
        id: Its name in URLs.
        attributes: The attributes that queries can name, by their columns.
    """

    id: str
    attributes: Mapping[str, Attribute]

    @cached_property
    def system(self) -> System:
        """Its coordinate reference systems."""
        return System(self.stream.reference_system, self.extent)

    @property
    def mark(self) -> str:
        """A short text that is another one if the index has another stream under this name."""
        told = [value for name, value in vars(self.stream).items() if name not in PLACES]
        return sha256(repr(told).encode("utf-8", "surrogatepass")).hexdigest()[:MARK]

    @property
    def path(self) -> str:
        """Its path in URLs."""
        return f"/collections/{segment(self.id)}"

    def item_path(self, name: str) -> str | None:
        """Returns the path of a feature. None if no URL or query can have its id, or if that is
        too long."""
        text = None if "\n" in name else segment(name)
        return None if text is None or len(text) > LONGEST else f"{self.path}/items/{text}"


def name_of(path: str) -> str:
    """Returns the name that a stream has in URLs, from the name of its file."""
    name = ENDINGS.sub("", os.path.basename(path), count=1)
    return NO_SIGN_OF_A_NAME.sub("-", name).strip("-.") or "stream"


class Catalogue:
    """The collections, by their names."""

    def __init__(self, settings: Settings) -> None:
        """Opens the indexes.

        Raises:
            ReadFault: One cannot be read, or is no index.
            RequestError: The base is no URL, or a stream that is below it is packed without blocks.
        """
        self._collections: dict[str, Collection] = {}
        self._pools = [IndexPool(path, settings.base) for path in settings.indexes]
        for pool in self._pools:
            with pool.index() as index:
                for stream in index.streams:
                    self._add(pool, stream, index.attributes)

    def _add(
        self, pool: IndexPool, stream: IndexedStream, attributes: Mapping[str, Attribute]
    ) -> None:
        if pool.base is not None and stream.is_slow:
            raise RequestError(f"{stream.path}: {NO_RANGES}")
        name = first = name_of(stream.told_path)
        number = 1
        while name in self._collections:
            number += 1
            name = f"{first}-{number}"
        self._collections[name] = Collection(pool, stream, name, attributes)

    def __iter__(self) -> Iterator[Collection]:
        return iter(self._collections.values())

    def find(self, name: str) -> Collection:
        """Returns a collection by its name.

        Raises:
            Problem: There is none.
        """
        try:
            return self._collections[name]
        except KeyError:
            raise Problem(404, f"there is no collection {name}") from None

    def is_changed(self) -> bool:
        """Returns whether the file of an index is another one now."""
        return any(pool.is_changed for pool in self._pools)

    def close(self) -> None:
        """Closes the indexes."""
        for pool in self._pools:
            pool.close()


@dataclass(frozen=True)
class Resource:
    """A resource, and how it is documented.

    Attributes:
        path: Its path, with names of variables in braces.
        name: The name of the operation.
        summary: What it answers, in a few words.
        answer: Answers a request for it.
        formats: The formats of the answer. The first one is usual.
        parameters: The parameters after the `?`, without `f`.
        statuses: The statuses of problems, in addition to those that all resources have.
        conforms: The classes of requirements that it conforms to.
        relations: The links to it from the first page: relation, title and format.
        description: More about it. A resource that has one takes a body.
        filters: Whether it has a parameter for each attribute of its collection.
    """

    path: str
    name: str
    summary: str
    answer: Callable[[Context], Awaitable[web.StreamResponse]]
    formats: tuple[Format, ...]
    parameters: tuple[Parameter, ...] = ()
    statuses: tuple[int, ...] = ()
    conforms: tuple[str, ...] = ()
    relations: tuple[tuple[str, str, Format], ...] = ()
    description: str = ""
    filters: bool = False

    @property
    def methods(self) -> tuple[str, ...]:
        """The methods of requests for it."""
        return ("POST",) if self.description else ("GET", "HEAD")

    @cached_property
    def known(self) -> tuple[Parameter, ...]:
        """All parameters after the `?`."""
        more = () if self.description else (of_format(self.formats),)
        return (*self.parameters, *more)


@dataclass(frozen=True)
class Context:
    """A request, and what answers it.

    Attributes:
        request: The request, as aiohttp has it.
        resource: The resource that it asks for.
        query: Its parameters.
        links: Makes links of the answer.
        server: What all requests share: collections, threads, pages, limits and resources.
    """

    request: web.Request
    resource: Resource
    query: Query
    links: Links
    server: Server

    @cached_property
    def chosen(self) -> Format:
        """The format of the answer.

        Raises:
            Problem: The client accepts none that there is.
        """
        return choose(self.resource.formats, self.query.text("f"), accept_of(self.request))

    @property
    def collection(self) -> Collection:
        """The collection that the path names.

        Raises:
            Problem: There is none of this name.
        """
        return self.server.catalogue.find(self.request.match_info["collectionId"])

    def own_links(self, path: str) -> list[Link]:
        """Returns the links from a document to itself, and to its other formats."""
        return self.links.formats(path, self.resource.formats, self.chosen)

    def page(self, name: str, system: str | None = None, **given: object) -> web.Response:
        """Returns an answer for people, from a template. Its coordinates are in a system."""
        headers = None if system is None else {"Content-Crs": f"<{system}>"}
        text = self.server.pages.render(name, links=self.links, **given)
        return web.Response(text=text, content_type="text/html", headers=headers)

    def document(self, told: Json, page: str, **given: object) -> web.Response:
        """Returns a document in the format that the client accepts."""
        if self.chosen == HTML:
            return self.page(page, None, told=told, **given)
        body, headers = dumped(told) + b"\n", {"Content-Type": self.chosen.media_type}
        return web.Response(body=body, headers=headers)


def accept_of(request: web.Request) -> str:
    """Returns the header `Accept`. A client may send it in several lines."""
    return ", ".join(request.headers.getall("Accept", []))
