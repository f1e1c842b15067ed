"""The commands `filter --index` and `index`."""
from __future__ import annotations

import json
import os
from collections.abc import Callable, Iterator, Sequence
from contextlib import contextmanager, suppress
from functools import partial
from typing import TYPE_CHECKING

from .. import __version__
from ..engine import USUAL_DEPTH, USUAL_LINE, RequestError, keep_room, quoted, shown
from ..engine.judge import Work, work_of
from ..indexes.cut import cut, cut_each
from ..indexes.line_reader import IndexedStream
from ..indexes.lookup import Index
from ..run import Result
from ..sources import refuse_read
from ..sources.outputs import Limit, Target, Writer
from ..sources.packed import LEVEL
from .filter_outputs import make_folder, targets_of
from .options import RULES, Filter
from .output import Bar, printer_for, put, say
from .stream_commands import files_of, ids_of, texts_of, total_of, unmatched_of

if TYPE_CHECKING:
    from ..indexes.builder import Wanted
    from .requests import WriteIndex

# Options of `filter` that an index has no answer to, and why.
UNFIT = {
    "exclude": "an index finds what a query selects, and --exclude needs all other lines too",
    "files": "an index has the names of its streams: name no FILE with --index",
    "files_from": "an index has the names of its streams: leave --files-from out",
    "sha256": "--sha256 reads each FILE whole, which --index does not",
    "keep_partial": "a cut by an index leaves nothing in part: leave --keep-partial out",
    "record": "a record has files that were read whole: leave --record out",
    "resume": "--resume is for a --record",
    "cluster": "a cut by an index reads little: leave --cluster out",
}


def run_cut(request: Filter) -> int:
    """Cuts streams by an index, and returns the status."""
    if request.index is None:
        if request.where is None:
            raise RequestError("--base is for --index")
        raise RequestError(
            "--where needs an index: make one by 'cityseq-run index --attributes', and name it by"
            " --index"
        )
    with Index(request.index, base=request.base) as index:
        return _cut(request, index)


def _refuse(request: Filter, index: Index) -> None:
    """Refuses options that a cut by this index cannot have."""
    for name, why in UNFIT.items():
        if getattr(request, name):
            raise RequestError(why)
    limits = {"line_limit": USUAL_LINE, "depth": USUAL_DEPTH}
    for name in RULES:
        value = getattr(request, name)
        if value not in (limits.get(name, False), getattr(index, name)):
            option = f"--{name.replace('_', '-')}"
            raise RequestError(
                f"{index.path}: its streams were not judged with this {option}: build it with it"
            )


def _cut(request: Filter, index: Index) -> int:
    """Writes what a query keeps, to one output or to one for each stream."""
    _refuse(request, index)
    ids = ids_of(request.id, request.ids_from, request.null)
    types, lods = texts_of(request.type), texts_of(request.lod)
    work = index.work(ids, types, lods, request.bbox, request.where)
    paths = [stream.path for stream in index.streams]
    outputs = [request.output] if request.output_dir is None else targets_of(request, paths)
    read = [index.path, request.ids_from, *(paths if index.base is None else [])]
    refuse_read(read, outputs)
    if not request.quiet:
        _say_packed(index)
    rules = {name: getattr(index, name) for name in RULES}
    judged = Filter(**{**vars(request), **rules})  # as the lines were judged
    unmatched = unmatched_of(request, ids)
    see = unmatched.see if unmatched is not None and unmatched.is_exact else None
    worst = features = 0
    with Bar(None, False) as bar:
        printer = printer_for(judged, bar, len(index.streams) > 1)
        writer = partial(Writer, level=request.level or LEVEL, see=see)
        for result in _results(request, index, work, outputs, writer):
            worst, features = max(worst, result.status), features + result.features
            printer.result(result)
    if not request.quiet and not request.json:
        _say_left_out(index)
    if unmatched is not None:
        unmatched.print(request, features)
    return worst


def _say_packed(index: Index) -> None:
    """Says that packed streams without blocks are read from their beginning, in one line."""
    packed = [stream.path for stream in index.streams if stream.is_slow]
    if len(packed) == 1:
        say(f"{shown(packed[0])}: it is packed, so the cut reads it from its beginning")
    elif packed:
        say(
            f"{len(packed):,} of {len(index.streams):,} streams are packed, so the cut reads each"
            " from its beginning"
        )


def _say_left_out(index: Index) -> None:
    """Says which streams have invalid lines, which the index and the output lack."""
    for stream in index.streams:
        if stream.refused:
            lines = "line was" if stream.refused == 1 else "lines were"
            say(
                f"{shown(stream.path)}: {stream.refused:,} invalid {lines} left out:"
                f" index --show {shown(index.path)}"
            )


@contextmanager
def _folders(paths: Sequence[str]) -> Iterator[None]:
    """Makes folders. Removes those that it made if the `with` block fails and leaves nothing in
    them."""
    missing: list[str] = []
    for path in paths:
        above = os.path.realpath(path)
        while not os.path.lexists(above) and above not in missing:
            missing.append(above)
            above = os.path.dirname(above)
    try:
        for path in paths:
            make_folder(path)
        yield
    except BaseException:
        for each in sorted(missing, key=len, reverse=True):
            with suppress(OSError):
                os.rmdir(each)
        raise


def _results(
    request: Filter,
    index: Index,
    work: Work,
    outputs: list[str],
    writer: Callable[[Target], Writer],
) -> list[Result]:
    limit = Limit.of(request.limit)
    if request.output_dir is None:
        return [cut(index, work, outputs[0], request.jobs, writer, limit)]
    index.check()  # before anything is made
    targets = dict(zip((stream.number for stream in index.streams), outputs))

    def output_of(stream: IndexedStream) -> str:
        return targets[stream.number]

    folders = [os.path.dirname(output) for output in outputs]
    with _folders(list(dict.fromkeys([request.output_dir, *folders]))):
        return cut_each(index, work, output_of, request.jobs, writer, limit)


def run_index(request: WriteIndex) -> int:
    """Writes, refreshes or shows an index, and returns the status."""
    if request.show is None and request.refresh is None:
        return _build(request)
    has_more = request.files or request.files_from is not None or request.output is not None
    if has_more or None not in (request.show, request.refresh):
        option = "--show" if request.refresh is None else "--refresh"
        raise RequestError(f"{option} takes the name of an index alone")
    return _refresh(request) if request.show is None else _show(request, request.show)


def _show(request: WriteIndex, path: str) -> int:
    from ..indexes.index_run import described  # no cut needs it
    from .json_output import object_of

    with Index(path) as index:
        if request.json:
            put(json.dumps(object_of("index", described(index, __version__))))
        else:
            put(index.show())
    return 0


def _refresh(request: WriteIndex) -> int:
    """Writes the new times of streams with the same content into an index."""
    from ..indexes.index_run import refresh  # no cut needs it

    if request.json:
        raise RequestError("--refresh writes no JSON: leave --json out")
    streams, new = refresh(request.refresh or "", request.jobs)
    if not request.quiet:
        put(f"streams {streams} refreshed {new}")
    return 0


def _wanted(request: WriteIndex) -> Wanted:
    """Returns what the index has of the lines."""
    from ..attributes import ALL  # no cut needs it
    from ..attributes.columns import checked_names
    from ..indexes.builder import Wanted

    names = request.attributes
    if request.cluster is not None:
        for option, is_given in (("footprints", request.footprints), ("attributes", names)):
            if is_given:
                raise RequestError(f"--{option} and --cluster do not go together")
    if names is None:
        return Wanted(request.footprints)
    listed = [name for name in names if name is not None]
    return Wanted(request.footprints, checked_names(ALL if len(listed) < len(names) else listed))


def _build(request: WriteIndex) -> int:
    """Writes an index and the result of each file."""
    from ..indexes.builder import Builder  # no cut needs it
    from ..indexes.index_run import Indexed, by_threads, checked, written

    output = request.output
    if output is None or output == "-":
        raise RequestError("an index is written to a file: name it by --output")
    wanted = _wanted(request)
    named = files_of(request)
    refuse_read([*named, request.files_from], [output])
    files = checked(named, output)
    work = work_of("check", request.judging)
    keep_room()
    worst = 0
    with Bar(total_of(files, request.progress), request.progress) as bar:
        printer = printer_for(request, bar, len(files) > 1)

        def take(result: Result) -> None:
            nonlocal worst
            worst = max(worst, result.status)
            printer.result(result)

        builder = Builder(output, wanted)
        size, is_elsewhere = request.part_size, request.cluster is not None
        streams = (
            Indexed(
                number,
                file,
                work,
                builder,
                size,
                printer.report,
                partial(bar.add, file),
                is_elsewhere,
            )
            for number, file in enumerate(files, 1)
        )
        begun: list[Indexed] = []
        noted = (begun.append(each) or each for each in streams)  # type: ignore[func-returns-value]
        if request.cluster is None:
            written(builder, lambda: by_threads(noted, request.jobs), work, take)
        else:
            from ..cluster import PART, connected  # few runs need it
            from ..dask import write_index

            with connected(request.cluster) as client:
                write_index(client, builder, noted, work, request.part_size or PART, take)
        printer.close()
    if not request.quiet and not request.json:
        _say_slow([each.path for each in begun if each.is_slow])
        for name in builder.unmet:
            say(f"no feature has a value of the attribute {quoted(name)}")
    return worst


def _say_slow(packed: list[str]) -> None:
    """Says which packed streams a cut unpacks from their beginning, and what ends that."""
    if packed:
        several = f"{len(packed):,} packed streams"
        say(
            f"{shown(packed[0]) if len(packed) == 1 else several}: a cut unpacks all of it;"
            " run 'cityseq-run pack' on it and index it again, to make cuts fast"
        )
