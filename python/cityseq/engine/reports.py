"""Reports of invalid lines: where each line is, why it is invalid, and how to fix it."""
from __future__ import annotations

import functools
import json
import os
import re
import struct
import unicodedata
from collections.abc import Iterator
from dataclasses import dataclass, field

from . import RawAnswer, library

TOO_LONG = 2
LONGEST = 1 << 20  # bytes: a longer line is not read as JSON
BESIDE = 40  # how many bytes an excerpt shows on each side of the place
KEPT = 1_024  # bytes: a report that is kept keeps a line that is not longer, to describe it later
RAW = struct.Struct("=4Q")  # `struct cityseq_report`: line, begin, place, code
DETAILS = ("id", "excerpt", "column", "met")
# The usual beginning of a feature: its id, or its type and then its id.
UP_TO_ID = (
    rb'[ \t\r]*\{[ \t\r]*(?:"type"[ \t\r]*:[ \t\r]*"CityJSONFeature"[ \t\r]*,[ \t\r]*)?'
    rb'"id"[ \t\r]*:[ \t\r]*'
)
USUAL_BEGIN = re.compile(UP_TO_ID + rb'("(?:[^"\\\x00-\x1f]|\\.)*")')


@dataclass(frozen=True)
class Explanation:
    """What a reason means, and how a producer of data fixes it, as in docs/RULES.md."""

    code: int
    text: str
    meaning: str
    fix: str


@functools.cache
def _explanations() -> dict[int, Explanation]:
    package = os.path.dirname(os.path.dirname(__file__))
    with open(os.path.join(package, "reasons.json"), encoding="utf-8") as source:
        return {
            int(code): Explanation(int(code), **told) for code, told in json.load(source).items()
        }


def explain(code: int) -> Explanation:
    """Returns what a code means. Raises `KeyError` if no reason has it."""
    return _explanations()[code]


def explanations() -> list[Explanation]:
    """Returns what all codes mean, in the order of their numbers."""
    return list(_explanations().values())


def _text_of(code: int) -> str:
    known = _explanations().get(code)
    return known.text if known else "unknown reason"


def _none() -> None:
    """Returns what a report has of a hint that is not given."""


@dataclass(frozen=True)
class Report:
    """An invalid line: its number from 1, the byte in it from 0, and the reason.

    `id` and `met` are hints that Python reads, and None if it cannot. `id` is the id of the
    feature. `met` describes what is at the place. The excerpt is the text around the place.
    `column` is the column of the place in the excerpt, as a terminal shows it.

    A stream may have very many reports, of which few are shown. So the last four are read from the
    line when one of them is asked for. A report that is kept does not keep a long line: see `kept`.
    """

    file: str
    line: int
    byte: int
    code: int
    text: str
    # no default of the class: `__getattr__` finds what an instance does not have
    id: str | None = field(default_factory=_none)
    excerpt: str = field(default_factory=str)
    column: int = field(default_factory=int)
    met: str | None = field(default_factory=_none)

    @classmethod
    def of_line(cls, file: str, numbers: tuple[int, int, int], content: bytes) -> Report:
        """Returns the report of a line with this content. The numbers are the line, the byte in it
        and the code."""
        report = cls.__new__(cls)
        line, byte, code = numbers
        report.__dict__.update(
            file=file, line=line, byte=byte, code=code, text=_text_of(code), _content=content
        )
        return report

    def kept(self) -> Report:
        """Returns this report, for who keeps it. If the line is long, it is described now."""
        if len(self.__dict__.get("_content", b"")) > KEPT:
            self._describe()
        return self

    def _describe(self) -> None:
        """Reads id, excerpt, column and hint from the line, which is then not kept."""
        from .hints import met  # few runs need it

        content = self.__dict__.pop("_content")
        is_header = self.line == 1
        excerpt, column = excerpt_of(content, self.byte)
        self.__dict__.update(
            id=None if is_header else find_id(content),
            excerpt=excerpt,
            column=column,
            met=met(content, self.byte, self.code, is_header),
        )

    def __getattr__(self, name: str) -> object:
        if name not in DETAILS or "_content" not in self.__dict__:
            raise AttributeError(f"{type(self).__name__!r} object has no attribute {name!r}")
        self._describe()
        return self.__dict__[name]

    def __str__(self) -> str:
        """Returns the program's own words."""
        return f"line {self.line}, byte {self.byte}: {self.code} {self.text}"

    @property
    def explanation(self) -> Explanation:
        """What the code means, and how to fix the line."""
        return explain(self.code)

    def caret(self) -> str:
        """Returns the excerpt, and below it a line with a caret under the place."""
        return f"{self.excerpt}\n{' ' * self.column}^"

    def moved(self, lines: int) -> Report:
        """Returns the same report with `lines` added to its line number."""
        if not lines:
            return self
        other = type(self).__new__(type(self))
        other.__dict__.update(self.__dict__, line=self.line + lines)
        return other


def find_id(line: bytes) -> str | None:
    """Returns the id of a feature, or None if the line cannot be read that far."""
    usual = USUAL_BEGIN.match(line)
    if usual is None and len(line) > LONGEST:
        return None
    try:
        told = json.loads((usual.group(1) if usual else line).decode("utf-8"))
    except (ValueError, RecursionError):
        return None
    if isinstance(told, dict):
        told = told.get("id")
    return told if isinstance(told, str) else None


def _shown(text: bytes) -> str:
    """Returns bytes as text that a terminal can show. A replacement character takes the place of
    each byte or character that cannot be printed."""
    decoded = text.decode("utf-8", "replace")
    if decoded.isprintable():
        return decoded
    return "".join(sign if sign.isprintable() else "\ufffd" for sign in decoded)


def _width(text: str) -> int:
    """Returns how many columns of a terminal a text takes."""
    if text.isascii():
        return len(text)
    return sum(2 if unicodedata.east_asian_width(sign) in "WF" else 1 for sign in text)


def excerpt_of(line: bytes | bytearray, place: int) -> tuple[str, int]:
    """Returns the text around a place of a line, and the column of the place in it."""
    begin = max(0, place - BESIDE)
    while begin < place and line[begin] & 0xC0 == 0x80:
        begin += 1
    end = min(len(line), place + BESIDE)
    while place < end < len(line) and line[end] & 0xC0 == 0x80:
        end -= 1
    before, after = _shown(bytes(line[begin:place])), _shown(bytes(line[place:end]))
    return before + after, _width(before)


@dataclass(frozen=True)
class Invalid:
    """Some invalid lines of a header and a part.

    Attributes:
        file: The name of the stream.
        raw: The reports, one after another, as the library writes them.
        header: The first line.
        part: The lines after it, as far as they were judged.
        lines: How many lines of the stream came between the header and the part.
    """

    file: str
    raw: bytes
    header: bytes
    part: bytes | bytearray
    lines: int = 0

    @property
    def codes(self) -> list[int]:
        """The reason of each line."""
        return [code for _, _, _, code in RAW.iter_unpack(self.raw)]

    def contents(self) -> Iterator[tuple[tuple[int, int, int], bytes]]:
        """Yields line, byte and code of each report, and the content of its line. Some bytes of a
        line that is too long may be missing after that byte."""
        for line, begin, place, code in RAW.iter_unpack(self.raw):
            yield (line, place, code), self._content(begin, None)

    def _content(self, begin: int, most: int | None) -> bytes:
        """Returns the content of the line that begins here, or its first bytes."""
        length = len(self.header)
        text, left = (self.header, 0) if begin < length else (self.part, begin - length)
        if most is not None:
            return bytes(text[left : left + most])
        end = text.find(b"\n", left)
        return bytes(text[left : end if end >= 0 else len(text)])

    def __iter__(self) -> Iterator[Report]:
        for line, begin, place, code in RAW.iter_unpack(self.raw):
            content = self._content(begin, place + 1 if code == TOO_LONG else None)
            yield Report.of_line(self.file, (line, place, code), content).moved(self.lines)

    def moved(self, lines: int) -> Invalid:
        """Returns the same lines with `lines` added to their numbers."""
        return Invalid(self.file, self.raw, self.header, self.part, self.lines + lines)


@dataclass(frozen=True)
class Described:
    """The reports of some invalid lines, without the lines."""

    reports: list[Report]

    @property
    def codes(self) -> list[int]:
        """The reason of each line."""
        return [report.code for report in self.reports]

    def __iter__(self) -> Iterator[Report]:
        return iter(self.reports)

    def moved(self, lines: int) -> Described:
        """Returns the same reports with `lines` added to their line numbers."""
        return Described([report.moved(lines) for report in self.reports])


def report_of_end(answer: RawAnswer, header: bytes, part: bytes | bytearray, file: str) -> Report:
    """Returns the report of the line that ended an answer."""
    begin = library().line_begin(header, part, answer.line)
    raw = RAW.pack(answer.line, begin, answer.place, answer.code)
    return next(iter(Invalid(file, raw, header, part))).kept()
