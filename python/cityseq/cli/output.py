"""Standard output and standard error of the command: lines, the results of files, and the bar that
shows how far a run is. Each output may be closed, full, a terminal, or a pipe that takes only a
part of a write."""
from __future__ import annotations

import io
import json
import os
import sys
import time
from collections import Counter
from collections.abc import Iterator
from contextlib import suppress
from dataclasses import dataclass, field
from importlib import import_module
from typing import TYPE_CHECKING, Any, TextIO

from ..engine import quoted, shown, write_fault
from ..run import Info, Result
from ..sources import size_of, write_all
from .options import Check, Request

if TYPE_CHECKING:
    from _typeshed import ReadableBuffer

    from ..engine.reports import Report
    from ..foreign import Object, Package
    from .options import Filter
    from .options import Info as InfoRequest
    from .requests import WriteIndex

    PrintRequest = Check | Filter | InfoRequest | WriteIndex

ON_A_TERMINAL = 1_000  # reports of one file that are printed there
MORE = "more lines may be invalid: use --keep-going"
BOLD, RED, GREEN, PLAIN = "\x1b[1m", "\x1b[31m", "\x1b[32m", "\x1b[0m"


class Descriptor(io.RawIOBase):
    """A raw file that writes to a descriptor until all is written, also if the descriptor does not
    block."""

    def __init__(self, number: int) -> None:
        super().__init__()
        self._number = number
        self._file = open(number, "wb", buffering=0, closefd=False)

    def fileno(self) -> int:
        """Returns the number of the descriptor."""
        return self._number

    def isatty(self) -> bool:
        """Whether the descriptor is a terminal."""
        return os.isatty(self._number)

    def writable(self) -> bool:
        return True

    def write(self, text: ReadableBuffer) -> int:
        """Writes all of a text."""
        view = memoryview(text)
        write_all(self._file, view)
        return view.nbytes


def hold_descriptors() -> None:
    """Opens those of the first three descriptors that are closed. Otherwise a file that is opened
    later could get the number of standard error.

    What Python found closed at its start stays closed: `sys.stdout` is None, and a write to it
    is a fault."""
    opened = os.open(os.devnull, os.O_RDWR)
    while opened <= 2:
        opened = os.dup(opened)
    os.close(opened)


def _whole(output: io.TextIOWrapper, by_lines: bool) -> TextIO:
    """Returns a text file that writes all to the descriptor of another one, or raises `OSError`.

    Python's own files over a raw file do not: what a write did not take is lost. The new file has
    a buffer if the other one has. With `by_lines` each line is written at once."""
    file: Any = Descriptor(output.fileno())  # `TextIOWrapper` has no type for raw files
    if by_lines or not output.write_through:
        file = io.BufferedWriter(file)
    return io.TextIOWrapper(
        file,
        output.encoding,
        "backslashreplace",  # for characters that the encoding lacks
        newline="\n",
        line_buffering=by_lines,
        write_through=output.write_through,
    )


def write_whole_outputs() -> None:
    """Makes standard output and standard error write all that they get, or fail."""
    for name in ("stdout", "stderr"):
        output = getattr(sys, name)
        if isinstance(output, io.TextIOWrapper):
            output.flush()
            setattr(sys, name, _whole(output, name == "stderr" or output.isatty()))


def fitting(text: str) -> str:
    """Returns a text with a replacement for each character that standard error cannot have."""
    encoding = getattr(sys.stderr, "encoding", None) or "utf-8"
    return text.encode(encoding, "replace").decode(encoding)


def is_terminal(output: TextIO | None) -> bool:
    """Whether an output is a terminal."""
    try:
        return output is not None and bool(output.isatty())
    except ValueError:
        return False


def say(words: str, end: str = "\n") -> None:
    """Writes words to standard error. If it is closed or full, only the status shows a fault."""
    if sys.stderr is None:  # `print` takes None for standard output
        return
    with suppress(OSError, ValueError):
        print(words, end=end, file=sys.stderr, flush=True)


def put(text: str) -> None:
    """Writes a line to standard output in one call. A reader may close it after any line."""
    try:
        if sys.stdout is None:
            raise OSError("standard output is closed")
        sys.stdout.write(f"{text}\n")
    except (OSError, ValueError) as fault:
        raise write_fault(fault, None) from fault


def put_object(request: Request, value: Object) -> None:
    """Writes an object of JSON as a line to standard output, or to standard error if the kept lines
    are on standard output."""
    if request.writes_to_standard_output:
        say(json.dumps(value))
    else:
        put(json.dumps(value))


def flush() -> None:
    """Flushes standard output."""
    try:
        if sys.stdout is not None:
            sys.stdout.flush()
    except (OSError, ValueError) as fault:
        raise write_fault(fault, None) from fault


def drop_output() -> None:
    """Discards what is still in the buffer of standard output."""
    if sys.stdout is not None:
        os.dup2(os.open(os.devnull, os.O_WRONLY), 1)


ELSEWHERE = 10.0  # seconds between two lines where tqdm is missing, or the output is a file
LONGEST = 40  # characters of a file's name


class Bar:
    """Shows how many bytes are done, the total if it is known, and the current file. In a packed
    file these are packed bytes. Shows nothing if it is not wanted."""

    def __init__(self, total: int | None, is_wanted: bool) -> None:
        self._total, self._done, self._file = total, 0, ""
        self._is_shown = is_wanted and sys.stderr is not None
        self._begun = self._last = time.monotonic()
        self._bar: Package | None = None
        if self._is_shown and is_terminal(sys.stderr):
            self._bar = _tqdm(total)

    def __enter__(self) -> Bar:
        return self

    def __exit__(self, *_: object) -> None:
        if self._bar is not None:
            self._bar.close()
        elif self._is_shown:
            self._show()

    def add(self, file: str, size: int) -> None:
        """Counts `size` more bytes of a file."""
        self._done += size
        self._file = file
        if self._bar is not None:
            self._bar.set_postfix_str(shown(file)[-LONGEST:], refresh=False)
            self._bar.update(size)
        elif self._is_shown and time.monotonic() - self._last > ELSEWHERE:
            self._last = time.monotonic()
            self._show()

    def clear(self) -> None:
        """Clears the bar, so that a line can be written to a terminal."""
        if self._bar is not None:
            self._bar.clear()

    def _show(self) -> None:
        share = f" of {self._total / 1e6:,.0f}" if self._total else ""
        percent = f"{100 * self._done / self._total:3.0f} %  " if self._total else ""
        rate = self._done / 1e6 / max(time.monotonic() - self._begun, 0.001)
        say(f"{percent}{self._done / 1e6:,.0f}{share} MB, {rate:,.0f} MB/s  {shown(self._file)}")


def _tqdm(total: int | None) -> Package | None:
    """Returns a bar of tqdm. None if that is not installed."""
    try:
        tqdm: Package = import_module("tqdm")
    except ImportError:
        return None
    return tqdm.tqdm(total=total, unit="B", unit_scale=True, file=sys.stderr, dynamic_ncols=True)


def info_lines(info: Info, is_plain: bool) -> Iterator[str]:
    """Yields the summary of a stream: the lines that the program writes. A file also has the box
    in world coordinates. The texts of LoDs follow if they were counted."""
    from ..engine.world import normal

    yield f"lines {info.lines}"
    yield f"features {info.features}"
    yield "scale " + " ".join(map(normal, info.scale))
    yield "translate " + " ".join(map(normal, info.translate))
    yield from (f"type {name} {count}" for name, count in info.types.items())
    yield from (f"lod {name} {count}" for name, count in info.classes.items())
    yield from (
        f"{axis} {edges[0]} {edges[1]}"
        for axis, edges in zip("xyz", (info.x, info.y, info.z))
        if edges is not None
    )
    yield f"peak bytes {info.peak_bytes}"
    yield f"peak tokens {info.peak_tokens}"
    yield f"peak open {info.peak_depth}"
    if info.box is not None and not is_plain:
        yield f"bbox {info.box}"
    for text, count in sorted((info.lods or {}).items()):
        yield f"features with lod {quoted(text)} {count}"
    for text in info.unasked:
        yield f"features with lod {quoted(text)} unknown"


def counts(lines: int, features: int, refused: int) -> str:
    """Returns the counts of a stream, as the program writes them."""
    return f"lines={lines} features={features}" + (f" refused={refused}" if refused else "")


def brief(words: str) -> str:
    """Returns the program's words for a fault, without the cause."""
    return words.split(":")[0]


@dataclass
class Reports:
    """The invalid lines of a file: line, byte and code of the first one, and how many have each
    code."""

    first: tuple[int, int, int] | None = None
    codes: Counter[int] = field(default_factory=Counter)

    def add(self, report: Report) -> None:
        """Counts an invalid line."""
        self.first = self.first or (report.line, report.byte, report.code)
        self.codes[report.code] += 1


class Printer:
    """Prints each report as it comes, up to the wanted number, and the result of each file. A
    report that ends a run is printed with the result, so after all output before it. This class
    prints text: for standard input only what the program writes, for files also some help."""

    def __init__(self, request: PrintRequest, bar: Bar, has_many: bool) -> None:
        self._request, self._bar, self._has_many = request, bar, has_many
        self._codes: Counter[int] = Counter()
        self._count = 0  # reports of the current file
        self._has_hints = self._has_rest = False
        self._most = request.max_reports
        if self._most is None and self._is_cut_on(sys.stderr):
            self._most = ON_A_TERMINAL
        self._has_colour = (
            is_terminal(sys.stderr)
            and not os.environ.get("NO_COLOR")
            and os.environ.get("TERM") != "dumb"
        )

    def _is_cut_on(self, output: TextIO) -> bool:
        """Whether there are fewer reports on this output than on others."""
        return is_terminal(output) and not self._request.is_plain and not self._request.json

    def report(self, report: Report) -> None:
        """Takes an invalid line. With `keep_going` it is printed at once."""
        if self._request.keep_going and report.line > 1:
            self._take(report)

    def _take(self, report: Report) -> None:
        self._codes[report.code] += 1
        self._count += 1
        if self._are_printed() and (self._most is None or self._count <= self._most):
            self.print_report(report)

    def _are_printed(self) -> bool:
        return not self._request.quiet and not self._request.summary

    def result(self, result: Result, sha256: str | None = None) -> None:
        """Prints the result of a file, with the hash of the file if that is wanted."""
        if result.end is not None and result.fault is None:
            self._has_hints = bool(result.hints)
            self._has_rest = self._has_rest or result.end.line > 1
            self._take(result.end)
        if self._most is not None and self._count > self._most and self._are_printed():
            self.print_more(result.file, self._count - self._most)
        self._count = 0
        self.print_result(result, sha256)

    def skipped(self, file: str, recorded: Object) -> None:
        """Prints what a record has about a file that is skipped."""
        for code, lines in recorded.get("codes", {}).items():
            self._codes[int(code)] += lines
        self.print_skipped(file, recorded)

    def close(self) -> None:
        """Prints how often each reason occurred, if `--summary` asks for it."""
        request = self._request
        if request.summary and not request.quiet:
            self.print_summary(self._codes)
        is_wanted = isinstance(request, Check) and not (request.quiet or request.is_plain)
        if is_wanted and self._has_rest and not request.keep_going and not request.json:
            self._say(MORE)

    def _say(self, *lines: str) -> None:
        self._bar.clear()
        say("\n".join(lines))

    def _put(self, lines: list[str]) -> None:
        if not self._request.quiet:
            self._bar.clear()
            put("\n".join(lines))

    def _of(self, file: str) -> str:
        """Returns the beginning of each line about a file."""
        return f"{shown(file)}: " if self._has_many else ""

    def _painted(self, colour: str, text: str) -> str:
        return f"{colour}{text}{PLAIN}" if self._has_colour else text

    def print_report(self, report: Report) -> None:
        """Prints a report."""
        if self._request.is_plain:
            self._say(str(report))
        else:
            self._say(*self._lines(report))

    def _lines(self, report: Report) -> Iterator[str]:
        """Yields the program's words, then the feature, the excerpt, a hint and a fix."""
        place = f"{self._of(report.file)}line {report.line}, byte {report.byte}"
        yield f"{self._painted(BOLD, place)}: {self._painted(RED, f'{report.code} {report.text}')}"
        if report.id is not None:
            yield f"    feature {quoted(report.id)}"
        if report.excerpt:
            yield f"    {fitting(report.excerpt)}"
            yield f"    {' ' * report.column}{self._painted(GREEN, '^')}"
        if report.met is not None:
            yield f"    Hint: {report.met}."
        if not self._has_hints or report.line > 1:  # the hints say what to do with the file
            yield f"    Fix: {report.explanation.fix.split('. ')[0].rstrip('.')}."

    def print_more(self, file: str, count: int) -> None:
        """Prints how many more reports there are."""
        lines = "line is" if count == 1 else "lines are"
        self._say(
            f"{self._of(file)}{count:,} more {lines} invalid:"
            " --max-reports sets how many are shown, --summary counts them"
        )

    def print_result(self, result: Result, sha256: str | None) -> None:
        """Prints the result of a file."""
        if result.fault is not None:
            self._say(self._fault(result, result.fault))
            return
        if not self._request.is_plain and not self._request.quiet:
            for hint in result.hints:
                self._say(f"{self._of(result.file)}{hint}")
        if result.end is None and isinstance(result, Info):
            lines = info_lines(result, self._request.is_plain)
            self._put([self._of(result.file) + line for line in lines])
        elif result.end is None and self._request.command != "filter":
            numbers = counts(result.lines, result.features, result.refused)
            self._put([f"{self._of(result.file)}{result.status.verdict} {numbers}"])

    def _fault(self, result: Result, words: str) -> str:
        """Returns the text of a fault. Standard input alone has the program's words."""
        if self._request.is_plain and result.fault_file in (None, "-"):
            return brief(words)
        return f"{shown(result.fault_file or result.file)}: {shown(words)}"

    def print_skipped(self, file: str, recorded: Object) -> None:
        """Prints what a record has about a file that is skipped."""
        numbers = counts(recorded["lines"], recorded["features"], recorded["refused"])
        line = f"{recorded['verdict']} {numbers}, as recorded at {recorded['time']}"
        self._put([self._of(file) + shown(line)])

    def print_summary(self, codes: Counter[int]) -> None:
        """Prints how often each reason occurred."""
        from ..engine.reports import explain  # few runs need it

        for code in sorted(codes):
            self._say(f"{codes[code]:7} {code} {explain(code).text}")


class JsonPrinter(Printer):
    """Prints JSON objects, one a line, to standard output. If the kept lines are there, the objects
    go to standard error."""

    def _print(self, value: Object) -> None:
        self._bar.clear()
        put_object(self._request, value)

    def print_report(self, report: Report) -> None:
        from .json_output import report_object  # text does not need it

        self._print(report_object(report))

    def print_more(self, file: str, count: int) -> None:
        """Prints nothing: the result has the counts."""

    def print_result(self, result: Result, sha256: str | None) -> None:
        from .json_output import result_object

        self._print(result_object(result, self._request, size_of(result.file), sha256))

    def print_skipped(self, file: str, recorded: Object) -> None:
        self._print(recorded)

    def print_summary(self, codes: Counter[int]) -> None:
        from .json_output import reasons_object

        self._print(reasons_object(codes))


def printer_for(request: PrintRequest, bar: Bar, has_many: bool) -> Printer:
    """Returns the printer for the options."""
    if isinstance(request, Check) and request.format is not None:
        from .json_output import SarifPrinter  # few runs need it

        return SarifPrinter(request, bar)
    return (JsonPrinter if request.json else Printer)(request, bar, has_many)
