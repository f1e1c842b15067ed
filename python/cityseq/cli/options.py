"""The options of the command, and what a command line for `check`, `filter` or `info` asks for.

A command is a class of requests. Its docstring is its help, in which {0} stands for the name that
was called. Its options are those that its body names, in the order of the help. A request has the
values that were given, and the usual ones. Parser, help, manual page and completions use them."""
from __future__ import annotations

import re
from argparse import ArgumentTypeError
from collections.abc import Callable, Iterable
from typing import TYPE_CHECKING, ClassVar, Generic, TypeVar

from ..engine import DEPTH_LIMITS, LINE_LIMITS, USUAL_DEPTH, USUAL_LINE
from ..engine.judge import Limits, Options

if TYPE_CHECKING:
    from ..foreign import Object

T = TypeVar("T")
UNITS = {"K": 10, "M": 20, "G": 30}  # each is a power of two
SPELLED = re.compile(r"(\d{1,10})\s*([KMG])(?:i?B)?", re.IGNORECASE | re.ASCII)
NUMBER = re.compile(r"\+?[0-9]+")
MOST_DIGITS = 20
MOST_JOBS, MOST_BYTES = 4_096, 1 << 40
LEVELS = 1, 9
RULES = ("line_limit", "depth", "tree", "extensions", "keep_going")
SELECTION = ("exclude", "id", "ids_from", "type", "lod", "bbox", "limit")


def whole_number(least: int, greatest: int) -> Callable[[str], int]:
    """Returns a function that reads a whole number between two. It raises `ArgumentTypeError`."""

    def read(text: str) -> int:
        digits = text[1:] if text[:1] == "+" else text
        if not NUMBER.fullmatch(text):
            raise ArgumentTypeError(f"{text!r} is not a whole number")
        if len(digits.lstrip("0")) > MOST_DIGITS or not least <= int(digits) <= greatest:
            raise ArgumentTypeError(f"{digits} is not from {least} to {greatest}")
        return int(digits)

    return read


def size(least: int, greatest: int) -> Callable[[str], int]:
    """Returns a function that reads a number of bytes between two, such as 8M. K, M and G stand for
    powers of 1,024. It raises `ArgumentTypeError`."""
    read_number = whole_number(0, greatest)

    def read(text: str) -> int:
        bits = UNITS.get(text[-1:].upper(), 0)
        digits = text[:-1] if bits else text
        if not NUMBER.fullmatch(digits):
            raise ArgumentTypeError(
                f"{text!r} is no number of bytes{_advice(text, least, greatest)}"
            )
        number = read_number(digits) << bits
        if not least <= number <= greatest:
            raise ArgumentTypeError(f"{text} is not from {least} to {greatest}")
        return number

    return read


def _advice(text: str, least: int, greatest: int) -> str:
    """Returns the end of a sentence: how to write the number of bytes that is meant. If that cannot
    be read, or is not between two, it is another number."""
    found = SPELLED.fullmatch(text)
    if found:
        count, unit = int(found[1]), found[2].upper()
        if least <= count << UNITS[unit] <= greatest:
            return f": write it as {count}{unit} or {count << UNITS[unit]}"
    return f", such as 8M or {8 << UNITS['M']}"


def _format(text: str) -> str:
    """Reads the name of a format. Raises `ArgumentTypeError`."""
    if text != "sarif":
        raise ArgumentTypeError(f"{text!r} is not sarif")
    return text


class Option(Generic[T]):
    """An option. As an attribute of a request it is its usual value. A given value stands in
    the `__dict__` of the request, which hides the usual one, since there is no `__set__`.

    Attributes:
        field: The name of the attribute.
        help: What it does, as a line of the help.
        value: What its value is called. None if it takes no value.
        read: Reads the value. Raises `ArgumentTypeError` if the value is wrong.
        usual: Its usual value.
        short: The letter of its short form, if it has one.
        repeats: Whether it may be given more than once. Each value is a list then.
    """

    field, repeats = "", False

    def __init__(
        self, help: str, value: str | None, read: Callable[[str], T], usual: T, short: str = ""
    ) -> None:
        self.help, self.value, self.read, self.usual, self.short = help, value, read, usual, short

    def __set_name__(self, _: object, field: str) -> None:
        self.field = field

    def __get__(self, request: object, command: object = None) -> T:
        return self.usual

    @property
    def name(self) -> str:
        """Its name, without hyphens before it."""
        return self.field.replace("_", "-")

    @property
    def about(self) -> str:
        """What it does, with its usual value if the help does not describe that."""
        is_told = self.usual in (None, False) or self.value is None
        return self.help if is_told else f"{self.help} [default: {self.usual}]"


def flag(help: str, short: str = "") -> Option[bool]:
    """Returns an option that takes no value."""
    return Option(help, None, bool, False, short)


def wanted(help: str, value: str, read: Callable[[str], T], short: str = "") -> Option[T | None]:
    """Returns an option that is None if it is not given."""
    return Option(help, value, read, None, short)


LINE_LIMIT = Option(
    "Reject a line of more bytes, from {} to {}, such as 8M".format(*LINE_LIMITS),
    "BYTES",
    size(*LINE_LIMITS),
    USUAL_LINE,
)
DEPTH = Option(
    "Reject a line with more arrays and objects open at once, from {} to {}".format(*DEPTH_LIMITS),
    "LEVELS",
    whole_number(*DEPTH_LIMITS),
    USUAL_DEPTH,
)
KEEP_GOING = flag("Report each invalid line and go on with the next")
TREE = flag("Reject a feature unless `children` lead from its main city object to all others")
EXTENSIONS = flag("Accept types of city objects that begin with `+`, the types of extensions")
WHOLE = flag(
    "Each FILE is a whole CityJSON file, also if its name does not end in .city.json or"
    " .city.json.gz"
)
OUTPUT = Option(
    "Write to this file when the run has ended well; pack it if the name ends in .gz or .zst",
    "OUTPUT",
    str,
    "-",
    "o",
)
LEVEL = wanted(
    "Pack outputs by this level, from {} to {}; a higher level takes longer [default: 4]".format(
        *LEVELS
    ),
    "LEVEL",
    whole_number(*LEVELS),
)
FILES_FROM = wanted(
    "Read the names of files from this file, one on each line; - is standard input", "LIST", str
)
NULL = flag("Lists have a NUL after each name or id, as `find -print0` writes them")
JOBS = wanted(
    "Use this number of threads [default: the number of processors]",
    "N",
    whole_number(1, MOST_JOBS),
    "j",
)
PART_SIZE = wanted(
    "Judge parts of this many bytes [default: 4 MiB or less]", "BYTES", size(1, MOST_BYTES)
)
CLUSTER = wanted(
    "Let the workers of this scheduler of Dask judge each FILE, such as tcp://scheduler:8786",
    "ADDRESS",
    str,
)
JSON = flag(
    "Write JSON, one object on each line: each report, and the result of each FILE (see"
    " docs/json.md)"
)
SHA256 = flag("With --json: write the SHA-256 of each FILE")
MAX_REPORTS = wanted(
    "Write at most this many reports of each FILE, and count the rest [default: 1000 on a"
    " terminal]",
    "N",
    whole_number(0, MOST_BYTES),
)
SUMMARY = flag("Count how often each reason occurs, and write no reports")
PROGRESS = flag("Show the progress on standard error")
QUIET = flag("Write only faults; the status gives the result", "q")
RECORD = wanted("Append the state and the result of each FILE to this file", "RECORD", str)
LACKING = flag("")  # of a base class: a command that has no such option takes it as false
RUNS = FILES_FROM, NULL, JOBS, PART_SIZE
PRINTING = JSON, SHA256, MAX_REPORTS, SUMMARY, PROGRESS, QUIET


class Request:
    """What a command line asks for.

    Attributes:
        command: The name of the command.
        operands: The other words that it takes, as the usage shows them.
        runner: The module that runs it, and the function there.
        recorded: The fields that affect the result of a file, as a record and JSON have them.
        is_plain: Whether only standard input is read. Then all output is as the program's.
        writes_to_standard_output: Whether kept lines go to standard output.
    """

    command: ClassVar[str]
    operands: ClassVar[str] = "[FILE]..."
    runner: ClassVar[str]
    recorded: ClassVar[tuple[str, ...]] = RULES
    files_from, null, keep_going = FILES_FROM, NULL, LACKING

    def __init__(self, files: Iterable[str] = (), **fields: object) -> None:
        self.files = list(files)
        vars(self).update(fields)

    @property
    def judging(self) -> Options:
        """How lines are judged."""
        # not each command has all of these
        line_limit, depth, tree, extensions, keep_going = (getattr(self, name) for name in RULES)
        return Options(Limits(line_limit, depth), keep_going, tree, extensions=extensions)

    @property
    def options(self) -> Object:
        """The options that affect the result of a file."""
        return {name: getattr(self, name) for name in self.recorded}

    @property
    def is_plain(self) -> bool:
        return False

    @property
    def writes_to_standard_output(self) -> bool:
        return False


def options_of(command: type[Request]) -> list[Option[object]]:
    """Returns the options of a command, in the order of the help."""
    return [each for each in vars(command).values() if isinstance(each, Option)]


class StreamRequest(Request):
    """Checks, filters or summarises streams."""

    runner = ".stream_commands:run"
    whole = LACKING
    record, resume = wanted("", "", str), LACKING

    @property
    def is_plain(self) -> bool:
        return not self.files and self.files_from is None and not self.whole

    @property
    def options(self) -> Object:
        return {**super().options, **({"whole": True} if self.whole else {})}


class Check(StreamRequest):
    """Check whether a stream is valid, and count its lines and features

    Examples:
      {0} check < town.city.jsonl
      {0} check --keep-going < town.city.jsonl 2> invalid-lines.txt
      {0} check --keep-going --summary north.city.jsonl.gz south.city.jsonl.gz

    If the whole stream is valid, the output is 'valid lines=N features=M'.
    Otherwise standard error gives line, byte and reason of the first invalid line.
    With --keep-going it lists every invalid line, and the output is
    'invalid lines=N features=M refused=R' (R invalid lines). An invalid header still ends the run.
    See '{0} --help' for the exit status.
    """

    command = "check"
    line_limit, depth = LINE_LIMIT, DEPTH
    keep_going, tree, extensions, whole = KEEP_GOING, TREE, EXTENSIONS, WHOLE
    files_from, null, jobs, part_size = RUNS
    cluster = CLUSTER
    json, sha256, max_reports, summary, progress, quiet = PRINTING
    format = wanted(
        "Write reports as `sarif`, which a pull request shows next to their lines",
        "FORMAT",
        _format,
    )
    record = RECORD
    resume = flag("Skip each FILE that is unchanged and recorded with the same options")


class Filter(StreamRequest):
    """Copy the header and the features that a query selects

    Examples:
      {0} filter --type Building,BuildingPart --lod 2.2 < town.city.jsonl > buildings.city.jsonl
      zcat town.city.jsonl.gz | {0} filter --bbox=-5,0,5000,5000 | gzip > part.city.jsonl.gz
      {0} filter --keep-going < town.city.jsonl > good.city.jsonl 2> invalid-lines.txt
      {0} filter --bbox=-5,0,5000,5000 --output part.city.jsonl.gz town.city.jsonl.gz

    Kept lines are copied byte for byte, in order. A feature is kept if it meets each option from
    --id to --bbox that is given. With --exclude it is kept if it does not. Without these options
    every feature is kept. --limit leaves out all features after the first N of these. The lines
    after them are judged nevertheless.
    The run stops at the first invalid line. Features before it have been written to standard
    output, and OUTPUT is not made. With --keep-going the run leaves out invalid lines and goes on.
    An invalid header still ends it.
    See '{0} --help' for the exit status.
    """

    command = "filter"
    recorded = (*RULES, *SELECTION)
    line_limit, depth = LINE_LIMIT, DEPTH
    keep_going, tree, extensions = KEEP_GOING, TREE, EXTENSIONS
    exclude = flag("Keep the features that the options up to --bbox do not select")
    id = wanted("Select features by id: one id, or several with commas between them", "IDS", str)
    ids_from = wanted(
        "Select features by id: read the ids from this file, one on each line; - is standard input",
        "LIST",
        str,
    )
    type = wanted(
        "Select features that have a city object of one of these types; with --extensions a type"
        " may begin with `+`",
        "TYPES",
        str,
    )
    lod = wanted("Select features that have a geometry with one of these LoDs", "LODS", str)
    bbox = wanted(
        "Select features that reach into this box, in world coordinates; write --bbox=-5,0,5,9 if"
        " it begins with a minus",
        "MINX,MINY,MAXX,MAXY",
        str,
    )
    limit = wanted(
        "Keep at most this many features in all, the first ones; 0 keeps the header",
        "N",
        whole_number(0, MOST_BYTES),
    )
    index = wanted(
        "Read only the selected lines of the streams of this index, without any FILE", "INDEX", str
    )
    where = wanted(
        "With --index: select features by their attributes, such as"
        " \"year > 1990 AND status = 'in use'\" (CQL2 text)",
        "FILTER",
        str,
    )
    base = wanted("With --index: read the streams from a web server, below this URL", "URL", str)
    output = OUTPUT
    output_dir = wanted(
        "Write the output of each FILE to a file of the same name in this folder", "FOLDER", str
    )
    keep_folders = flag("With --output-dir: keep the folders in the name of each FILE")
    keep_partial = flag("Leave an output that is not whole as OUTPUT.part")
    level = LEVEL
    files_from, null, jobs, part_size = RUNS
    cluster = CLUSTER
    json, sha256, max_reports, summary, progress, quiet = PRINTING
    record = RECORD
    resume = flag(
        "With --output-dir: skip each FILE that is unchanged and recorded, and whose output is"
        " whole"
    )

    @property
    def is_plain(self) -> bool:
        return super().is_plain and self.index is None

    @property
    def options(self) -> Object:
        return {**super().options, **({} if self.where is None else {"where": self.where})}

    @property
    def writes_to_standard_output(self) -> bool:
        return self.output == "-" and self.output_dir is None


class Info(StreamRequest):
    """Summarise a valid stream: types, LoDs, extent and memory

    Examples:
      {0} info < town.city.jsonl
      {0} info --lods town.city.jsonl.gz

    If the whole stream is valid, the output has the numbers of lines and features, scale and
    translation, city objects by type, and geometries by LoD. It also has the least and the greatest
    number of the vertices on each axis, and the most bytes, tokens and open arrays and objects that
    were in memory. For a FILE it has the box in world coordinates.
    With --lods it counts the features with each text of an LoD, such as 2.2. This takes longer.
    See '{0} --help' for the exit status.
    """

    command = "info"
    line_limit, depth = LINE_LIMIT, DEPTH
    tree, extensions, whole = TREE, EXTENSIONS, WHOLE
    lods = flag("Count the features with each text of an LoD")
    files_from, null, jobs, part_size = RUNS
    cluster = CLUSTER
    json, sha256, max_reports, summary, progress, quiet = PRINTING
