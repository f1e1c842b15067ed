"""Checks, filters, summarises and indexes files on a cluster of `distributed`.

    from distributed import Client
    import cityseq.dask
    with Client("tcp://scheduler:8786") as client:
        for result in cityseq.dask.check(client, ["/data/north.city.jsonl"]):
            print(result.file, result.status, result.features)

Each part of a file is a task, which opens the file by its path or URL. So each worker needs this
package and the files. If a worker dies, other workers do its tasks. Answers are joined in order, as
with threads. A worker that sees another file of a path, or has another engine, is a fault."""
from __future__ import annotations

import os
from collections.abc import Callable, Iterable, Iterator
from contextlib import closing
from dataclasses import replace
from functools import partial
from typing import Union, cast

from .calls import OnReport, Path, Progress
from .cluster import PART, Cluster, Job, checked_size
from .cluster.folders import USUAL, Folder, filter_to_folder
from .cluster.runs import PIECES, Runs
from .cluster.tasks import SHORT, hash_file
from .engine import USUAL_DEPTH, USUAL_LINE, RequestError
from .engine.judge import Box, Options, Query, Texts, Work, work_of
from .indexes.builder import Builder
from .indexes.index_run import Indexed, checked, of_takers, written
from .run import Info, Result, one_options, one_query, watched
from .run.streams import Results, Stream
from .sources import is_path, is_url, refuse_same
from .sources.outputs import Target, Writer
from .sources.packed import Packing
from .sources.regular import Digest

Size = int | str
Paths = Union[Path, Iterable[Path]]
PACKINGS = {None: None, "gz": Packing.GZIP, "zst": Packing.ZSTD}


def _paths(paths: Paths) -> list[str]:
    """Returns the paths of the files. Raises `RequestError` if workers cannot open one."""
    listed: list[object] = [paths] if isinstance(paths, (str, bytes, os.PathLike)) else list(paths)
    for path in listed:
        if not is_path(path):
            raise RequestError(f"the workers open files by their paths: {path!r} is none")
    return [os.fsdecode(path) for path in listed if is_path(path)]


def _run(
    client: object, paths: Paths, work: Work, size: object, tell: OnReport, progress: Progress
) -> Results:
    """Yields the result of each file, in order."""
    cluster, named = Cluster(client, work, size), _paths(paths)
    with watched(progress, named) as done:
        streams = (Stream(path, work, None, None, tell, done) for path in named)
        yield from Runs(cluster).results(streams)


def _size(how: Options, size: Size) -> Size:
    """Returns how many bytes a part has: what the options say, if the caller says nothing else."""
    return how.part_size if how.part_size is not None and size == PART else size


def check(
    client: object,
    paths: Paths,
    *,
    options: Options | None = None,
    line_limit: int = USUAL_LINE,
    depth: int = USUAL_DEPTH,
    keep_going: bool = False,
    tree: bool = False,
    extensions: bool = False,
    on_report: OnReport = None,
    progress: Progress = None,
    part_size: Size = PART,
) -> Iterator[Result]:
    """Checks one file or several, and yields the result of each, in order.

    Args:
        client: A client of `distributed`, which is not asynchronous.
        paths: The paths or URLs of the files, or the only one. A path means the same file for each
            worker. A relative path is one of this process.
        part_size: How many bytes a part has, as a number or a text such as 32MB.
        options, line_limit, depth, keep_going, tree, extensions, on_report, progress: As for
            `cityseq.check`. The cluster has its own number of jobs, so that of the options says
            nothing.

    Yields:
        The result of each file. A fault of one is in its result, and the others go on.

    Raises:
        RequestError: An argument has a value that it may not have.
        CityseqError: The scheduler is lost, or a worker has another engine than this process.
    """
    how = one_options(options, (line_limit, depth), (keep_going, tree, extensions))
    return _run(client, paths, work_of("check", how), _size(how, part_size), on_report, progress)


def info(
    client: object,
    paths: Paths,
    *,
    options: Options | None = None,
    exact_lods: bool = False,
    line_limit: int = USUAL_LINE,
    depth: int = USUAL_DEPTH,
    tree: bool = False,
    extensions: bool = False,
    on_report: OnReport = None,
    progress: Progress = None,
    part_size: Size = PART,
) -> Iterator[Info]:
    """Summarises one file or several, and yields the result of each, in order. The arguments are
    those of `check` and of `cityseq.info`. A fault of a file is in its result."""
    how = one_options(options, (line_limit, depth), (False, tree, extensions))
    work = work_of("info", how, exact_lods=exact_lods)
    found = _run(client, paths, work, _size(how, part_size), on_report, progress)
    return cast(Iterator[Info], found)


def filter(
    client: object,
    path: Path,
    output: Target | None = None,
    query: Query | None = None,
    *,
    output_dir: Path | None = None,
    packing: str | None = None,
    options: Options | None = None,
    ids: Texts | None = None,
    types: Texts | None = None,
    lods: Texts | None = None,
    box: Box | None = None,
    exclude: bool = False,
    line_limit: int = USUAL_LINE,
    depth: int = USUAL_DEPTH,
    keep_going: bool = False,
    tree: bool = False,
    extensions: bool = False,
    keep_partial: bool = False,
    on_report: OnReport = None,
    progress: Progress = None,
    part_size: Size | None = None,
) -> Result:
    """Copies the header and the kept features of a file, as `cityseq.filter` does.

    Args:
        output: The output, which is written where this function is called.
        output_dir: A folder, in place of `output`. The workers write it, so all of them see it: a
            path or a URL. Its parts are streams with the header, in order, and its
            `_manifest.json` comes last. `check`, `info`, `index` and `report` take the folder.
        packing: How the parts of the folder are packed: "gz", "zst" or None.
        part_size: How many bytes a task judges. None is 32 MiB, and 256 MiB for a part of a folder,
            or less if there would be fewer parts than threads.

    The other arguments are those of `check` and of `cityseq.filter`, and so are the faults.
    """
    how = one_options(options, (line_limit, depth), (keep_going, tree, extensions))
    work = work_of("filter", how, one_query(query, Query(ids, types, lods, box, exclude)))
    if (output is None) == (output_dir is None):
        raise RequestError("one of `output` and `output_dir` is wanted")
    (named,) = _paths([path])
    with watched(progress, [named]) as done:
        if output is None:
            size = how.part_size if part_size is None else part_size
            cluster, folder = _folder(client, named, output_dir, packing, work, size)
            stream = partial(Stream, named, work, None, None, on_report, done)
            return filter_to_folder(cluster, folder, stream, how.keep_going)
        cluster = Cluster(client, work, _size(how, PART if part_size is None else part_size))
        refuse_same([named], [output])
        stream = partial(Stream, named, work, None, Writer(output, keep_partial), on_report, done)
        (result,) = Runs(cluster).results([stream()])
        return result.raised_if_invalid(how.keep_going)


def _folder(
    client: object,
    path: str,
    folder: Path | None,
    packing: str | None,
    work: Work,
    size: Size | None,
) -> tuple[Cluster, Folder]:
    """Returns the cluster and the folder of a filter that workers write."""
    if not is_path(folder) or packing not in PACKINGS:
        raise RequestError("a folder has a path or a URL, and its parts are packed by gz or zst")
    cluster = Cluster(client, work, USUAL if size is None else checked_size(size))
    if size is None and not is_url(path) and os.path.isfile(path):
        pieces = PIECES * max(cluster.threads(), 1)
        cluster.size = max(min(USUAL, os.path.getsize(path) // pieces), SHORT)
    return cluster, Folder.of(os.fsdecode(folder), PACKINGS[packing])


class _Digests:
    """Lets workers make the hashes of files."""

    def __init__(self, cluster: Cluster) -> None:
        self._cluster = cluster

    def submit(self, path: str) -> Job[Digest | None]:
        """Begins to make the hash of a file. The result is that of `digest_of`."""
        whole = path if is_url(path) else os.path.abspath(path)
        return self._cluster.task("hash", path, hash_file, whole)


def index(
    client: object,
    paths: Paths,
    output: Path,
    *,
    options: Options | None = None,
    line_limit: int = USUAL_LINE,
    depth: int = USUAL_DEPTH,
    keep_going: bool = False,
    tree: bool = False,
    extensions: bool = False,
    on_report: OnReport = None,
    progress: Progress = None,
    part_size: Size = PART,
) -> list[Result]:
    """Writes an index of files where this is called, as `cityseq.index` does. The workers judge
    the files, and return where each feature is. Packed files are refused: they have no parts. The
    other arguments are those of `check`."""
    how = one_options(options, (line_limit, depth), (keep_going, tree, extensions))
    found: list[Result] = []
    named = checked(paths, output)
    work, builder = work_of("check", how), Builder(os.fsdecode(output))
    with watched(progress, named) as done:
        indexed = (
            Indexed(number, path, work, builder, None, on_report, done, True)
            for number, path in enumerate(named, 1)
        )
        write_index(client, builder, indexed, work, _size(how, part_size), found.append)
    for result in found:
        result.raised_if_invalid(how.keep_going)
    return found


def write_index(
    client: object,
    builder: Builder,
    indexed: Iterable[Indexed],
    work: Work,
    size: object,
    take: Callable[[Result], None],
) -> None:
    """Lets workers judge the streams of an index, writes it, and passes each result to `take`."""
    cluster = Cluster(client, replace(work, kind="records"), size)
    with closing(of_takers(indexed, Runs(cluster).results)) as results:
        written(builder, lambda: results, work, take, _Digests(cluster))
