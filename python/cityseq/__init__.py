"""Checks, filters and summarises CityJSONSeq 2.0 streams on many cores, by a proved library.

    >>> import cityseq
    >>> result = cityseq.check("examples/broken.city.jsonl")
    >>> result.status, str(result.end)
    (1, 'line 3, byte 144: 25 vertex index out of range')
    >>> print(result.end.caret())          # the excerpt, and a caret under the place
    >>> print(result.end.explanation.fix)  # how to fix it
    >>> cityseq.filter("town.city.jsonl.gz", "roads.city.jsonl", types=["Road", "Railway"]).features
    >>> cityseq.info("examples/town.city.jsonl").box
    '995,1990,1050,2005'

A source is a path, `-` for standard input, bytes, or a binary file. Bytes are the stream itself. A
file that is packed by gzip or Zstandard is unpacked.
"""
from __future__ import annotations

TYPE_CHECKING = False  # `typing` takes long to load
if TYPE_CHECKING:
    from .calls import check, check_files, features
    from .calls import filter as filter  # noqa: F401
    from .calls import index, info, report, table
    from .convert.collecting import collect
    from .convert.splitting import split
    from .engine import (
        CityseqError,
        InvalidStream,
        LibraryMissing,
        MemoryFault,
        OutOfDate,
        ReadFault,
        RequestError,
        Status,
        WriteFault,
    )
    from .engine.judge import Limits, Options, Query
    from .engine.reports import Explanation, Report, explain
    from .indexes.lookup import Index
    from .run import Info, Result

# The public names, by the modules that define them.
_MODULES = {
    "calls": "check check_files features filter index info report table",
    "convert.collecting": "collect",
    "convert.splitting": "split",
    "engine": "CityseqError InvalidStream LibraryMissing MemoryFault OutOfDate ReadFault"
    " RequestError Status WriteFault",
    "engine.judge": "Limits Options Query",
    "engine.reports": "Explanation Report explain",
    "indexes.lookup": "Index",
    "run": "Info Result",
}
# `filter` is public too. It is left out, so that `import *` does not hide Python's own function.
__all__ = [
    "CityseqError",
    "Explanation",
    "Index",
    "Info",
    "InvalidStream",
    "LibraryMissing",
    "Limits",
    "MemoryFault",
    "Options",
    "OutOfDate",
    "Query",
    "ReadFault",
    "Report",
    "RequestError",
    "Result",
    "Status",
    "WriteFault",
    "check",
    "check_files",
    "collect",
    "explain",
    "features",
    "index",
    "info",
    "report",
    "split",
    "table",
]
__version__ = "0.2.0"


def __getattr__(name: str) -> object:
    """Loads a public name when it is first used. So `import cityseq` takes little time, and the
    command handles a fault that comes while it is loaded."""
    from importlib import import_module

    for module, names in _MODULES.items():
        if name in names.split():
            globals()[name] = value = getattr(import_module(f".{module}", __name__), name)
            return value
    raise AttributeError(f"module {__name__!r} has no attribute {name!r}")


def __dir__() -> list[str]:
    """Returns the public names."""
    return sorted([*__all__, "__version__", "filter"])
