"""A server of streams: OGC API - Features over indexes, and the check of streams in requests.

    cityseq-run serve region.gpkg

`app` makes the same as an application of aiohttp, for an existing server:

    from aiohttp import web
    import cityseq.serve
    web.run_app(cityseq.serve.app("region.gpkg", url="https://example.org/"))

`runner` makes it for many processes of gunicorn:

    gunicorn --workers 4 --worker-class aiohttp.GunicornWebWorker \\
      'cityseq.serve:runner("region.gpkg")'
"""
from __future__ import annotations

from collections.abc import Awaitable, Callable, Iterable
from typing import TYPE_CHECKING

from ..engine import RequestError

if TYPE_CHECKING:
    from aiohttp import web

    from ..cli.requests import Serve
    from ..sources import AnyPath
    from .settings import Limits, Settings

__all__ = ["app", "runner"]
NEEDS = (("aiohttp", "aiohttp"), ("jinja2", "Jinja2"))


def _require() -> None:
    """Raises `RequestError` if a package that the server needs is missing."""
    for module, name in NEEDS:
        try:
            __import__(module)
        except ImportError as fault:
            raise RequestError(
                f"there is no {name} for Python: install python3-{module}, or cityseq with the"
                " extra serve"
            ) from fault


def app(
    *indexes: AnyPath,
    base: str | None = None,
    url: str | None = None,
    cors: str | None = None,
    jobs: int | None = None,
    limits: Limits | None = None,
) -> web.Application:
    """Returns an application of aiohttp that serves indexes.

    Args:
        *indexes: The paths of the indexes. Without any, the application checks and filters bodies.
        base: The URL that the streams are below. None if they are files.
        url: The URL that clients know the application by. Links begin with it. None if it is the
            host that they ask for. That host must then be an address or `localhost`.
        cors: The origin whose pages may read the answers, or `*`. None for none.
        jobs: How many threads judge and cut. None is one for each processor.
        limits: What it does at most, as `cityseq.serve.settings.Limits`. The server around it
            limits connections, and the time for the head of a request.

    Raises:
        ReadFault: An index cannot be read.
        RequestError: An argument has a value that it may not have, or aiohttp is missing.
    """
    settings = _settings(indexes, (base, url, cors), jobs, limits)
    from .application import Server, application

    return application(Server(settings))


def _settings(
    indexes: Iterable[AnyPath],
    urls: tuple[str | None, str | None, str | None],
    jobs: int | None,
    limits: Limits | None,
) -> Settings:
    """Returns the settings for the arguments of `app`. The URLs are `base`, `url` and `cors`."""
    import os

    _require()
    from .settings import Limits, Settings

    paths, (base, url, cors) = tuple(map(os.fsdecode, indexes)), urls
    return Settings(paths, base, url, cors=cors, jobs=jobs, limits=limits or Limits())


def runner(
    *indexes: AnyPath,
    quiet: bool = False,
    base: str | None = None,
    url: str | None = None,
    cors: str | None = None,
    jobs: int | None = None,
    limits: Limits | None = None,
) -> Callable[[], Awaitable[web.AppRunner]]:
    """Returns a function that makes the server of a process, as the worker of aiohttp for gunicorn
    calls it. It logs requests to standard output.

    Args:
        *indexes: The paths of the indexes.
        quiet: Whether no requests are logged.
        base, url, cors, jobs, limits: As those of `app`.

    Raises:
        ReadFault: An index cannot be read.
        RequestError: An argument has a value that it may not have, or aiohttp is missing.
    """
    settings = _settings(indexes, (base, url, cors), jobs, limits)
    from .context import Catalogue

    Catalogue(settings).close()  # a process opens the indexes for itself

    async def make() -> "web.AppRunner":
        from .application import Server
        from .process import runner_of

        return runner_of(Server(settings), quiet)

    return make


def run(wanted: Serve) -> int:
    """Runs the command `serve`, and returns the status."""
    _require()
    try:
        from .process import run as run_process
    except (AttributeError, ImportError) as fault:
        raise RequestError(f"this version of aiohttp cannot be used: {fault}") from fault
    return run_process(wanted)
