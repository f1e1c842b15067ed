"""What a command line for any other command asks for, the table of all commands, and the layout of
the help. That of a command is the docstring of its class."""
from __future__ import annotations

import re
from argparse import ArgumentTypeError
from inspect import cleandoc

from .options import (
    CLUSTER,
    DEPTH,
    EXTENSIONS,
    FILES_FROM,
    JOBS,
    JSON,
    KEEP_GOING,
    LEVEL,
    LINE_LIMIT,
    MAX_REPORTS,
    MOST_BYTES,
    NULL,
    OUTPUT,
    PROGRESS,
    QUIET,
    RUNS,
    SUMMARY,
    TREE,
    WHOLE,
    Check,
    Filter,
    Info,
    Option,
    Request,
    flag,
    options_of,
    size,
    wanted,
    whole_number,
)

NAME = re.compile(r'\s*(?:"((?:[^"]|"")*)"\s*|([^",][^,]*))(,|\Z)')
MOST_SECONDS = 1_000_000


def names(text: str) -> list[str | None]:
    """Returns names that have commas between them. A name with a comma is in double quotes, and a
    quote in it is doubled. None stands for the word `all` without quotes.

    Raises:
        ArgumentTypeError: The text has other names.
    """
    found: list[str | None] = []
    at, more = 0, ","
    while more:
        name = NAME.match(text, at)
        if name is None:
            raise ArgumentTypeError(f"{text!r} has no name from character {at + 1} on")
        at, more = name.end(), name[3]
        plain = (name[2] or "").strip()
        found.append(name[1].replace('""', '"') if name[1] is not None else plain)
        if found[-1] == "all" and name[1] is None:
            found[-1] = None
    return found


class WriteIndex(Request):
    """Write an index of streams as a GeoPackage; `filter` cuts streams by it

    Examples:
      {0} index --output region.gpkg region.city.jsonl more.city.jsonl
      {0} filter --index region.gpkg --bbox 84000,447000,85000,448000 > tile.city.jsonl
      {0} index --show region.gpkg
      {0} index --refresh region.gpkg

    The command judges each FILE as `check` does. OUTPUT is a GeoPackage with the extent of each
    feature, which maps show, and the place of its line. If a stream is invalid, no index is made.
    With --keep-going the index leaves out invalid lines, and lists them in the table `reports`.
    An index describes the files as they are: build it again if one changes. If only their times
    changed, as by a copy, --refresh reads the files and writes the new times.
    See '{0} --help' for the exit status.
    """

    command = "index"
    runner = ".index_commands:run_index"
    line_limit, depth = LINE_LIMIT, DEPTH
    keep_going, tree, extensions = KEEP_GOING, TREE, EXTENSIONS
    output = wanted("Write the index to this file when all streams were read", "OUTPUT", str, "o")
    footprints = flag("Add a layer with the ground of each feature, which takes longer")
    attributes = wanted(
        "Add a column for each of these attributes, or for `all`; write a name with a comma in"
        " double quotes; the option may be repeated",
        "NAMES",
        names,
    )
    attributes.repeats = True
    show = wanted(
        "Describe an index, and list the ids that more than one feature has", "INDEX", str
    )
    refresh = wanted(
        "Write the new times of streams into an index if their content is the same", "INDEX", str
    )
    files_from, null, jobs, part_size = RUNS
    cluster = CLUSTER
    json, max_reports, summary, progress, quiet = JSON, MAX_REPORTS, SUMMARY, PROGRESS, QUIET


class Pack(Request):
    """Pack files so that a cut by an index reads only a part of them

    Examples:
      {0} pack delivery/*.city.jsonl
      {0} pack --output small.city.jsonl.gz large.city.jsonl.gz
      {0} pack --verify delivery/*.gz

    The command packs each FILE in blocks of 64 KB, each with its checksum (BGZF). gzip unpacks such
    an archive as any other. `index` notes where its blocks are, and `filter --index` unpacks only
    those that have selected features. The archive of FILE is FILE.gz, which must not be there yet.
    A FILE that other programs packed is unpacked first. If its name ends in .gz, the archive takes
    its place.
    With --verify the command reads whole archives and compares all checksums. If the empty last
    block is missing, an archive of blocks is cut short, and the status is 3.
    See '{0} --help' for the exit status.
    """

    command = "pack"
    runner = ".file_commands:run_pack"
    output = wanted("Write the archive of one FILE to this file", "OUTPUT", str, "o")
    verify = flag("Read archives, report those that are broken or cut short, and pack nothing")
    level = LEVEL
    files_from, null, jobs = FILES_FROM, NULL, JOBS
    progress, quiet = PROGRESS, QUIET


class WriteReport(Request):
    """Write a page about a delivery: verdicts, contents, a map and invalid lines

    Examples:
      {0} report --output delivery.html north.city.jsonl.gz south.city.jsonl.gz
      {0} report --json delivery/*.gz > delivery.json

    The command judges each FILE as `check --keep-going` does. OUTPUT is one page of HTML that loads
    nothing. It shows whether each FILE is valid, what is in it, a map, the invalid lines with their
    fixes, and the ids that more than one feature has. The page needs Jinja2 and matplotlib. The
    status is that of `check`.
    See '{0} --help' for the exit status.
    """

    command = "report"
    runner = ".file_commands:run_report"
    line_limit, depth = LINE_LIMIT, DEPTH
    tree, extensions, whole = TREE, EXTENSIONS, WHOLE
    output = wanted(
        "Write the page to this file, and all reports to NAME.reports.csv and .jsonl next to it",
        "OUTPUT",
        str,
        "o",
    )
    title = wanted("The heading of the page [default: the name of OUTPUT]", "TITLE", str)
    files_from, null, jobs, part_size = RUNS
    json = flag("Write all facts as one object (see docs/report.schema.json)")
    progress, quiet = PROGRESS, QUIET


class SplitFile(Request):
    """Make a stream of a whole CityJSON file, with a feature for each main city object

    Examples:
      {0} split town.city.json --output town.city.jsonl
      {0} split town.city.json.gz | {0} check

    OUTPUT is a stream: a header, and a feature for each main city object with all that its
    `children` reach. Each part keeps its spelling, and only indices change. The command judges no
    geometry: use `check` for that. If the file has a fault, the status is 1, standard error gives
    its path in the file, and OUTPUT is not made.
    See '{0} --help' for the exit status.
    """

    command, operands = "split", "[FILE]"
    runner = ".file_commands:run_split"
    line_limit, output, quiet = LINE_LIMIT, OUTPUT, QUIET


class CollectStreams(Request):
    """Make one whole CityJSON file of streams

    Examples:
      {0} collect town.city.jsonl --output town.city.json
      {0} collect north.city.jsonl.gz south.city.jsonl.gz --output region.city.json.gz

    OUTPUT is one CityJSON object with the city objects of each STREAM, in order. Equal vertices are
    there once. The transforms must be equal, or shift by whole multiples of the scale. Two features
    may have one id only if they are equal.
    See '{0} --help' for the exit status.
    """

    command, operands = "collect", "[STREAM]..."
    runner = ".file_commands:run_collect"
    line_limit, depth = LINE_LIMIT, DEPTH
    output, files_from, null, quiet = OUTPUT, FILES_FROM, NULL, QUIET


class Serve(Request):
    """Serve streams by their indexes, and a page that checks files

    Examples:
      {0} serve region.gpkg
      {0} serve --host 0.0.0.0 --url https://city.example.org/ region.gpkg
      curl --data-binary @delivery.city.jsonl.gz http://127.0.0.1:8080/check
      ogrinfo -al -oo PAGE_SIZE=1000 OAPIF:http://127.0.0.1:8080/

    The command serves the streams of each INDEX as OGC API - Features, and a page that checks
    files. It judges a body as it comes, and stores nothing. Without INDEX there is only the page.
    Standard output has a line for each request. Ctrl-C or a signal stops the server, with status 0.
    It needs aiohttp and Jinja2 for Python.
    """

    command, operands = "serve", "[INDEX]..."
    runner = "..serve:run"
    host = Option(
        "Listen at this address, or at all addresses of this name", "HOST", str, "127.0.0.1"
    )
    port = Option("Listen at this port; 0 is a free one", "PORT", whole_number(0, 65_535), 8080)
    url = wanted("Begin links with this URL, which clients use", "URL", str)
    cors = wanted("Let the pages of this origin read the answers; * is any origin", "ORIGIN", str)
    base = wanted("Read the streams from a web server, below this URL", "URL", str)
    jobs = JOBS
    max_requests = Option(
        "Answer at most this many requests without a body at once",
        "N",
        whole_number(1, 100_000),
        100,
    )
    max_bodies = Option("Take at most this many bodies at once", "N", whole_number(1, 100_000), 32)
    max_body = Option(
        "Reject a body of more bytes, also after it is unpacked",
        "BYTES",
        size(1, MOST_BYTES),
        16 << 30,
    )
    max_whole = Option(
        "Reject a whole CityJSON file of more bytes; each takes up to 4 times as many in memory",
        "BYTES",
        size(1, MOST_BYTES),
        64 << 20,
    )
    max_features = Option(
        "Write at most this many features in an answer", "N", whole_number(1, 10_000_000), 100_000
    )
    max_seconds = Option(
        "End a request that takes longer", "SECONDS", whole_number(1, MOST_SECONDS), 3_600
    )
    idle_seconds = Option(
        "End a request whose client is silent for longer",
        "SECONDS",
        whole_number(1, MOST_SECONDS),
        30,
    )
    min_rate = Option(
        "End a request whose client sends or takes fewer bytes a second",
        "BYTES",
        size(1, MOST_BYTES),
        1_000,
    )
    stop_seconds = Option(
        "Give open answers this long to end when the server stops",
        "SECONDS",
        whole_number(0, MOST_SECONDS),
        10,
    )
    line_limit, depth = LINE_LIMIT, DEPTH
    quiet = flag("Log no requests", "q")


class Explain(Request):
    """Explain the code of a reason, and how to fix the line

    Examples:
      {0} explain
      {0} explain 25

    Without CODE it lists all codes.
    """

    command, operands = "explain", "[CODE]"
    runner = ".stream_commands:explain_code"


COMMANDS: dict[str, type[Request]] = {
    each.command: each
    for each in (
        Check,
        Filter,
        Info,
        WriteIndex,
        Pack,
        WriteReport,
        SplitFile,
        CollectStreams,
        Serve,
        Explain,
    )
}

ABOUT = "Check, filter and summarise CityJSONSeq 2.0 streams on all cores and in bounded memory"
TOP = (
    ("-h, --help", "Print help"),
    ("-V, --version", "Print the version"),
)
STATUSES = """\
Exit status, the greatest of all FILEs:
  0    The stream is valid up to its end.
  1    A line is invalid. Standard error gives line, byte and reason.
       With --keep-going it lists every invalid line.
  2    The command line is wrong.
  3    A read failed.
  4    A write failed.
  5    The system refused memory.
  70   Something unexpected happened. Please report it.
  130, 143 and 129: the run was interrupted, or a signal asked it to end.

A CityJSONSeq stream is a CityJSON 2.0 header, then one CityJSONFeature on each line.
Without FILE the command reads standard input, and prints what the program prints.
A FILE may be packed by gzip or Zstandard, and - is standard input.
docs/RULES.md explains each reason, and docs/GUIDE.md shows the command at work."""


def usage(program: str, command: type[Request] | None) -> str:
    """Returns the usage of a command, or of the program."""
    if command is None:
        return f"Usage: {program} <COMMAND>"
    options = "[OPTIONS] " if options_of(command) else ""
    return f"Usage: {program} {command.command} {options}{command.operands}"


def _table(rows: list[tuple[str, str]]) -> str:
    width = max(len(left) for left, _ in rows)
    return "\n".join(f"  {left:<{width}}  {right}" for left, right in rows)


def _left(option: Option[object]) -> str:
    """Returns an option as the help shows it. All long names begin in one column."""
    short = f"-{option.short}, " if option.short else "    "
    return f"{short}--{option.name}" + (f" <{option.value}>" if option.value else "")


def told(command: type[Request]) -> tuple[str, str]:
    """Returns what a command does, in one line, and what its help has after the options."""
    about, _, after = cleandoc(command.__doc__ or "").partition("\n\n")
    return about, after


def program_help(program: str) -> str:
    """Returns the help on all commands."""
    commands = [(name, told(command)[0]) for name, command in COMMANDS.items()]
    commands.append(("help", "Print this help, or the help on a command"))
    parts = (
        ABOUT,
        usage(program, None),
        f"Commands:\n{_table(commands)}",
        f"Options:\n{_table(list(TOP))}",
        STATUSES,
    )
    return "\n\n".join(parts)


def command_help(program: str, command: type[Request]) -> str:
    """Returns the help on a command."""
    rows = [(_left(option), option.about) for option in options_of(command)]
    about, after = told(command)
    parts = (
        about,
        usage(program, command),
        f"Options:\n{_table([*rows, ('-h, --help', 'Print help')])}",
        after.format(program),
    )
    return "\n\n".join(parts)
