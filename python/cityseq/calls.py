"""The calls of the package, which `cityseq` has as its own names."""
from __future__ import annotations

import os
from collections.abc import Callable, Iterable, Iterator
from dataclasses import replace
from typing import TYPE_CHECKING, Union

from .engine import USUAL_DEPTH, USUAL_LINE
from .engine.judge import Box, Options, Query, Texts, Work, work_of
from .engine.reports import Report
from .run import Info, Result, one_options, one_query, watched
from .run.streams import Stream, results
from .sources import Source, refuse_same, stream_of
from .sources.outputs import Limit, Target, Writer

if TYPE_CHECKING:
    from .delivery.facts import Delivery
    from .run.features import Feature, TableColumn


OnReport = Callable[[Report], None] | None
Progress = Callable[[int], None] | bool | None
Path = Union[str, "os.PathLike[str]"]


def _only(stream: Stream, jobs: int | None) -> Result:
    """Returns the result of one stream. All threads that judged it have ended then."""
    (result,) = results([stream], jobs)
    return result


def check(
    source: Source,
    *,
    options: Options | None = None,
    jobs: int | None = None,
    line_limit: int = USUAL_LINE,
    depth: int = USUAL_DEPTH,
    keep_going: bool = False,
    tree: bool = False,
    extensions: bool = False,
    on_report: OnReport = None,
    progress: Progress = None,
    part_size: int | None = None,
    whole: bool | None = None,
) -> Result:
    """Checks whether a stream is valid, and counts its lines and features.

    Args:
        source: A path, `-` for standard input, bytes that are the stream, or a binary file. What is
            packed by gzip or Zstandard is unpacked, but for bytes.
        options: The options, in place of `jobs`, `line_limit`, `depth`, `keep_going`, `tree`,
            `extensions` and `part_size`.
        jobs: How many threads judge parts of the stream. None is one for each processor.
        line_limit: The most bytes in a line, from 1 to 1 GiB.
        depth: The most arrays and objects that are open at once, from 1 to 1,024.
        keep_going: Whether to report each invalid line, and not only the first.
        tree: Whether the main city object has to reach each other one of its feature.
        extensions: Whether types of city objects that begin with `+` are known, as extensions have.
        on_report: Is called with each report as it comes. The result then has no list of them.
        progress: Is called with the number of bytes that were done since the call before. In a
            packed file these are packed bytes. True shows a bar, by the package tqdm.
        part_size: How many bytes a part has. None is 4 MiB or less.
        whole: Whether the source is a whole CityJSON file. Then the stream that `split` makes of it
            is judged. None: it is one if its name ends in .city.json or .city.json.gz.

    Returns:
        The verdict, the counts and the reports. If a whole file cannot be split, it is invalid, and
        `fault` says why.

    Raises:
        ReadFault: The source cannot be opened or read, or it changes.
        MemoryFault: Memory is short.
        RequestError: An argument has a value that it may not have.
        LibraryMissing: The library is not there, or it is another version.
    """
    how = one_options(options, (line_limit, depth), (keep_going, tree, extensions), jobs, part_size)
    work = work_of("check", how)
    with watched(progress, [source]) as done:
        given = stream_of(source, whole)
        stream = Stream(given, work, how.part_size, tell=on_report, progress=done)
        return _only(stream, how.jobs).raised()


def check_files(
    sources: Iterable[Source],
    *,
    options: Options | None = None,
    jobs: int | None = None,
    line_limit: int = USUAL_LINE,
    depth: int = USUAL_DEPTH,
    keep_going: bool = False,
    tree: bool = False,
    extensions: bool = False,
    on_report: OnReport = None,
    progress: Progress = None,
    part_size: int | None = None,
    whole: bool | None = None,
) -> Iterator[Result]:
    """Checks many streams, by threads that they share.

    Args:
        sources: The streams, each as `check` takes one.
        options: As for `check`, and so are all others.

    Yields:
        The result of each stream, in order. A fault of one is in its result, and the others go on.

    Raises:
        RequestError: An argument has a value that it may not have.
        LibraryMissing: The library is not there, or it is another version.
    """
    how = one_options(options, (line_limit, depth), (keep_going, tree, extensions), jobs, part_size)
    listed = list(sources) if progress is True else sources
    return _checked(listed, whole, work_of("check", how), how, on_report, progress)


def _checked(
    listed: Iterable[Source],
    whole: bool | None,
    work: Work,
    how: Options,
    on_report: OnReport,
    progress: Progress,
) -> Iterator[Result]:
    with watched(progress, listed) as done:
        given = (stream_of(each, whole) for each in listed)
        streams = (Stream(each, work, how.part_size, None, on_report, done) for each in given)
        yield from results(streams, how.jobs)


def filter(
    source: Source,
    output: Target,
    query: Query | None = None,
    *,
    options: Options | None = None,
    ids: Texts | None = None,
    types: Texts | None = None,
    lods: Texts | None = None,
    box: Box | None = None,
    exclude: bool = False,
    limit: int | None = None,
    jobs: int | None = None,
    line_limit: int = USUAL_LINE,
    depth: int = USUAL_DEPTH,
    keep_going: bool = False,
    tree: bool = False,
    extensions: bool = False,
    keep_partial: bool = False,
    on_report: OnReport = None,
    progress: Progress = None,
    part_size: int | None = None,
) -> Result:
    """Copies the header and the features that a query selects, byte for byte and in order.

    The query selects a feature that meets each of `ids`, `types`, `lods` and `box`. None sets no
    condition. The options that are not listed here are those of `check`.

    Args:
        source: The stream, as `check` takes it.
        output: A path, `-` for standard output, or a binary file. A path is written to a new file
            next to it, which is renamed when the whole stream was read and is valid. With
            `keep_going` a valid header is enough.
        query: The query, in place of `ids`, `types`, `lods`, `box` and `exclude`.
        options: As for `check`.
        ids: Keeps a feature whose id is one of these.
        types: Keeps a feature that has a city object of one of these types. With `extensions` these
            may begin with `+`.
        lods: Keeps a feature that has a geometry of one of these LoDs.
        box: Keeps a feature whose vertices reach into this box: four numbers, or a text
            minx,miny,maxx,maxy, in world coordinates.
        exclude: Keeps the features that the query does not select.
        limit: Keeps at most this many features, the first ones. 0 keeps the header alone. All lines
            are judged nevertheless. None sets no limit.
        keep_going: Whether to leave out invalid lines, and to go on.
        keep_partial: Whether what was kept is left as `NAME.part` if the stream is invalid.

    Returns:
        The verdict, the counts and the reports. `features` counts what was kept.

    Raises:
        InvalidStream: The stream is invalid. With `keep_going` only an invalid header is.
        WriteFault: The output cannot be opened or written.
        ReadFault: The source cannot be opened or read, or it changes.
        MemoryFault: Memory is short.
        RequestError: An argument has a value that it may not have, or the output is the source.
        LibraryMissing: The library is not there, or it is another version.
    """
    how = one_options(options, (line_limit, depth), (keep_going, tree, extensions), jobs, part_size)
    work = work_of("filter", how, one_query(query, Query(ids, types, lods, box, exclude)))
    refuse_same([source], [output])
    with watched(progress, [source]) as done:
        writer = Writer(output, keep_partial)
        writer.limit = Limit.of(limit)
        stream = Stream(source, work, how.part_size, writer, on_report, done)
        return _only(stream, how.jobs).raised_if_invalid(how.keep_going)


def info(
    source: Source,
    *,
    options: Options | None = None,
    exact_lods: bool = False,
    jobs: int | None = None,
    line_limit: int = USUAL_LINE,
    depth: int = USUAL_DEPTH,
    tree: bool = False,
    extensions: bool = False,
    on_report: OnReport = None,
    progress: Progress = None,
    part_size: int | None = None,
    whole: bool | None = None,
) -> Info:
    """Summarises a valid stream: transform, types, LoDs, ranges of vertices, and their box.

    The options that are not listed here are those of `check`. There is no `keep_going`, because a
    summary of the valid lines looks like a summary of the stream.

    Args:
        source: The stream, as `check` takes it.
        exact_lods: Whether to count the features with each text of an LoD, such as 2.2. Python
            looks for these texts, and one thread does so at a time.

    Returns:
        The verdict, the counts and the summary. The summary is empty if the stream is invalid.

    Raises:
        ReadFault: The source cannot be opened or read, or it changes.
        MemoryFault: Memory is short.
        RequestError: An argument has a value that it may not have.
        LibraryMissing: The library is not there, or it is another version.
    """
    how = one_options(options, (line_limit, depth), (False, tree, extensions), jobs, part_size)
    work = work_of("info", how, exact_lods=exact_lods)
    with watched(progress, [source]) as done:
        given = stream_of(source, whole)
        stream = Stream(given, work, how.part_size, tell=on_report, progress=done)
        result = _only(stream, how.jobs).raised()
    assert isinstance(result, Info)
    return result


def features(
    source: Source,
    query: Query | None = None,
    *,
    options: Options | None = None,
    ids: Texts | None = None,
    types: Texts | None = None,
    lods: Texts | None = None,
    box: Box | None = None,
    exclude: bool = False,
    line_limit: int = USUAL_LINE,
    depth: int = USUAL_DEPTH,
    keep_going: bool = False,
    tree: bool = False,
    extensions: bool = False,
) -> Iterator[Feature]:
    """Lists the features that a query selects. The arguments are those of `filter`.

    Yields:
        Each kept feature in order: its line, its id, what is in it, and `json()` for the rest.

    Raises:
        InvalidStream: A line is invalid. The features before it came first. With `keep_going` only
            an invalid header raises it.
        ReadFault: The source cannot be opened or read, or it changes.
        MemoryFault: Memory is short.
        RequestError: An argument has a value that it may not have.
        LibraryMissing: The library is not there, or it is another version.
    """
    from .run.features import features as listed  # few runs need it

    how = one_options(options, (line_limit, depth), (keep_going, tree, extensions))
    work = work_of("filter", how, one_query(query, Query(ids, types, lods, box, exclude)))
    return listed(source, work)


def table(
    source: Source,
    query: Query | None = None,
    *,
    options: Options | None = None,
    ids: Texts | None = None,
    types: Texts | None = None,
    lods: Texts | None = None,
    box: Box | None = None,
    exclude: bool = False,
    attributes: Texts | None = None,
    line_limit: int = USUAL_LINE,
    depth: int = USUAL_DEPTH,
    keep_going: bool = False,
    tree: bool = False,
    extensions: bool = False,
) -> dict[str, TableColumn]:
    """Returns the features that a query selects as columns, which `pandas.DataFrame` takes. The
    other arguments are those of `features`.

    Args:
        attributes: The names of attributes of the main city object that get columns, or the text
            "all" for all of them. A name that another column has, also but for case, gets `_2`.

    Returns:
        A column for each of `id`, `line`, `length` in bytes, `objects`, `geometries`, `types`,
        `lods`, and `xmin`, `xmax`, `ymin`, `ymax`, `zmin`, `zmax`. The last six are world
            coordinates as the nearest floats, and NaN if a feature has no vertex. A coordinate that
            is greater than all floats is infinite. The columns of attributes follow. They have
            values as Python reads JSON, and None if a feature lacks the attribute.

    Raises:
        CityseqError: As `features` does.
    """
    from .run.features import table as tabled  # few runs need it

    how = one_options(options, (line_limit, depth), (keep_going, tree, extensions))
    work = work_of("filter", how, one_query(query, Query(ids, types, lods, box, exclude)))
    if attributes is None:
        return tabled(source, work)
    from .attributes.columns import checked_names  # few runs need it

    return tabled(source, work, checked_names(attributes))


def index(
    paths: Path | Iterable[Path],
    output: Path,
    *,
    options: Options | None = None,
    footprints: bool = False,
    attributes: Texts | None = None,
    jobs: int | None = None,
    line_limit: int = USUAL_LINE,
    depth: int = USUAL_DEPTH,
    keep_going: bool = False,
    tree: bool = False,
    extensions: bool = False,
    on_report: OnReport = None,
    progress: Progress = None,
    part_size: int | None = None,
) -> list[Result]:
    """Writes an index of streams. `Index` uses it to cut the streams without reading them whole.

    The index is a GeoPackage, which docs/geopackage.md describes. It is written to a new file next
    to it, which is renamed when it is whole. The options that are not listed here are those of
    `check`.

    Args:
        paths: The paths of the streams, or the only one. They are regular files, which may be
            packed.
        output: The path of the index.
        footprints: Whether the index has a layer with the ground of each feature.
        attributes: The names of attributes that get columns, or the text "all" for all of them.
            They are those of the main city object of each feature.
        keep_going: Whether to leave out invalid lines. The table `reports` then lists them.

    Returns:
        The result of each stream, in order.

    Raises:
        InvalidStream: A stream is invalid. With `keep_going` only an invalid header is.
        ReadFault: A stream cannot be opened or read, or it changes.
        WriteFault: The index cannot be opened or written, or another program has an older one open.
        MemoryFault: Memory is short.
        RequestError: An argument has a value that it may not have, or the output is a stream or
            another file that is no index.
        LibraryMissing: The library is not there, or it is another version.
    """
    from .attributes.columns import checked_names  # few runs need it
    from .indexes.builder import Wanted
    from .indexes.index_run import checked
    from .indexes.index_run import index as indexed

    how = one_options(options, (line_limit, depth), (keep_going, tree, extensions), jobs, part_size)
    work, named = work_of("check", how), checked(paths, output)
    wanted = Wanted(footprints, None if attributes is None else checked_names(attributes))
    with watched(progress, named) as done:
        how_run = how.jobs, how.part_size, on_report, done, wanted
        return indexed(named, output, work, *how_run)


def report(
    paths: Path | Iterable[Path],
    output: Path | None = None,
    *,
    options: Options | None = None,
    title: str | None = None,
    jobs: int | None = None,
    line_limit: int = USUAL_LINE,
    depth: int = USUAL_DEPTH,
    tree: bool = False,
    extensions: bool = False,
    progress: Progress = None,
    part_size: int | None = None,
    whole: bool | None = None,
) -> Delivery:
    """Writes a page about a delivery, and returns its facts.

    The page is one file of HTML. All reports lie next to it, as `NAME.reports.csv` and
    `NAME.reports.jsonl`. Each file is renamed when it is whole. The options that are not listed
    here are those of `check`. The packages Jinja2 and matplotlib are needed.

    Args:
        paths: The paths of the files, or the only one. They may be packed.
        output: The path of the page. None writes nothing.
        title: The heading of the page. None is the name of the page.

    Returns:
        What is in the files and what is invalid, with `status` and `files`. A fault of one file is
        in its entry, and the others go on. `json_object` returns all that as one object of JSON,
        which docs/report.schema.json describes.

    Raises:
        WriteFault: The page, the reports or a temporary file cannot be written.
        RequestError: An argument has a value that it may not have, or the output is a file of the
            delivery.
        CityseqError: A package is missing that a page needs.
        LibraryMissing: The library is not there, or it is another version.
    """
    from .delivery import How, checked, of_bytes  # few runs need it
    from .delivery import report as made

    given = one_options(options, (line_limit, depth), (False, tree, extensions), jobs, part_size)
    how = replace(given, keep_going=True)
    work = work_of("check", how)
    with watched(progress, checked(paths, output)[0]) as done:
        by_file = None if done is None else of_bytes(done)
        asked = How(how.jobs, how.part_size, title, progress=by_file, whole=whole)
        return made(paths, output, work, asked)
