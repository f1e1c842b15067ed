"""Writes the page: one file with its style, its script and its data, which loads nothing."""
from __future__ import annotations

import base64
import hashlib
import json
import os
from collections.abc import Iterator, Sequence
from typing import TYPE_CHECKING, TypeVar

from ..engine import shown
from ..engine.reports import Report, explain
from ..engine.world import plain
from . import needed
from .charts import Map, coarse, histogram, map_of, size_of_power
from .facts import Area, Delivery, File

if TYPE_CHECKING:
    from ..foreign import Package

T = TypeVar("T")
MOST_BYTES = 1_900_000  # of the page, with as many rows of reports as fit
MOST_SIGNS = 200  # characters of a text of a stream
STATIC_ROWS = 25  # rows of reports without the script
MOST_MAPS = 40
MAP_BYTES = 600_000  # of maps in full. All others have few cells
MOST_DETAILED = 300  # files with details. All others have only a row
MOST_FILES = 2_000  # rows of files
NEAR = 24  # characters of an excerpt on each side, in the table
END = "\u00b6"  # represents the end of a line
ORDER = ("fault", "invalid", "valid")  # of the rows of files
WORDS = {"valid": "valid", "invalid": "invalid", "fault": "not judged"}


def cut(text: str | None) -> str:
    """Returns a text of a stream with its controls escaped, cut if it is long."""
    told = text or ""
    if len(told) <= MOST_SIGNS:
        return shown(told)
    return f"{shown(told[:MOST_SIGNS])}\u2026 ({len(told):,} signs)"


def size(count: int | None) -> str:
    """Returns a number of bytes in words."""
    if count is None:
        return "unknown"
    value, unit = float(count), "bytes"
    for unit in ("bytes", "kB", "MB", "GB", "TB"):
        if value < 1_000 or unit == "TB":
            break
        value /= 1_000
    return f"{count:,} bytes" if unit == "bytes" else f"{value:.3g} {unit}"


def share(part: int, whole: int) -> str:
    """Returns a part of a whole as a percentage."""
    percent = 100 * part / whole if whole else 0.0
    return f"{percent:.2g} %" if 0 < percent < 10 else f"{percent:.0f} %"


def counted(count: int, one: str, many: str = "") -> str:
    """Returns a number with its noun."""
    return f"{count:,} {one if count == 1 else many or one + 's'}"


def split_at(excerpt: str, column: int) -> tuple[str, str, str]:
    """Returns an excerpt before the place, the character at it, and the rest. The column counts the
    columns of a terminal, where some characters are two columns wide."""
    from unicodedata import east_asian_width

    for number, sign in enumerate(excerpt):
        if column <= 0:
            return excerpt[:number], sign, excerpt[number + 1 :]
        column -= 2 if east_asian_width(sign) in "WF" else 1
    return excerpt, END, ""


def near(report: Report) -> tuple[str, str, str]:
    """Returns the text near the place of a report, for a row of the table."""
    before, sign, after = split_at(shown(report.excerpt), report.column)
    return before[-NEAR:], sign, after[:NEAR]


def verdict_of(delivery: Delivery) -> str:
    """Returns the verdict on a delivery in one sentence."""
    found, count = delivery.verdicts, len(delivery.files)
    if found["valid"] == count:
        return "The file is valid." if count == 1 else f"All {count:,} files are valid."
    parts = []
    if found["valid"]:
        parts.append(f"{found['valid']:,} {'is' if found['valid'] == 1 else 'are'} valid")
    if found["invalid"]:
        lines = counted(delivery.invalid, "invalid line")
        parts.append(
            f"{found['invalid']:,} {'is' if found['invalid'] == 1 else 'are'} invalid" f" ({lines})"
        )
    if found["fault"]:
        verb = "was" if found["fault"] == 1 else "were"
        parts.append(f"{found['fault']:,} {verb} not judged")
    if count == 1:
        return f"The file {parts[0].partition(' ')[2]}."
    rest = " and ".join([", ".join(parts[:-1])] * (len(parts) > 1) + parts[-1:])
    return f"Of {count:,} files {rest}."


def worst(delivery: Delivery) -> str:
    """Returns the verdict that the top of the page has the colour of."""
    found = delivery.verdicts
    return next((each for each in ("invalid", "fault") if found[each]), "valid")


def by_verdict(files: Sequence[File]) -> list[File]:
    """Returns files in the order of their rows: first those that a reader must look at."""
    return sorted(files, key=lambda file: ORDER.index(file.verdict))


def row_of(report: Report, numbers: dict[str, int]) -> list[object]:
    """Returns a report as a row for the page's script."""
    name = "" if report.id is None else cut(report.id)
    return [numbers[report.file], report.line, report.byte, report.code, name, *near(report)]


def data_of(reports: Sequence[Report], files: Sequence[File], room: int) -> tuple[str, int]:
    """Returns the table of reports as JSON for a page, and how many reports are in it. They are as
    many as fit into `room` bytes."""
    numbers, names, rows = {}, [], []  # type: tuple[dict[str, int], list[str], list[str]]
    for report in reports:
        if report.file not in numbers:
            numbers[report.file] = len(names)
            names.append(cut(report.file))
            room -= len(_json(names[-1]).encode())
        rows.append(_json(row_of(report, numbers)))
        room -= len(rows[-1].encode()) + 1
        if room < 0:
            rows.pop()
            break
    codes = sorted({report.code for report in reports})
    told = _json({"files": names, "reasons": {code: explain(code).text for code in codes}})
    return f'{told[:-1]},"rows":[{",".join(rows)}]}}', len(rows)


def _json(told: object) -> str:
    """Returns JSON that no reader of HTML takes for a tag or the end of a script."""
    text = json.dumps(told, ensure_ascii=False, separators=(",", ":"))
    for sign in "<>&\u2028\u2029":
        text = text.replace(sign, f"\\u{ord(sign):04x}")
    return text


def _read(name: str) -> str:
    path = os.path.join(os.path.dirname(__file__), name)
    with open(path, encoding="utf-8") as file:
        return file.read()


def _sum(text: str) -> str:
    """Returns the digest that allows the page's own script or style to be used."""
    digest = hashlib.sha256(text.encode("utf-8")).digest()
    return f"'sha256-{base64.b64encode(digest).decode()}'"


def _bars(counts: dict[T, int], whole: int) -> list[tuple[T, int, float]]:
    """Returns the rows of a bar chart: name, count, and how long the bar is in percent."""
    return [(name, count, round(100 * count / whole, 2)) for name, count in counts.items()]


def _code(text: str) -> Package:
    """Returns a text of this package with code between backticks marked as code."""
    markup = needed("markupsafe")
    parts = map(markup.escape, text.split("`"))
    code = markup.Markup("<code>{}</code>").format
    return markup.Markup("").join(code(part) if n % 2 else part for n, part in enumerate(parts))


def _maps(delivery: Delivery) -> list[tuple[Area, Map]]:
    """Returns the areas that have a place, and a map of each."""
    found: list[tuple[Area, Map]] = []
    room = MAP_BYTES
    for area in [area for area in delivery.areas if area.features or area.spots][:MOST_MAPS]:
        name = f"map-{len(found)}"
        drawn = map_of(area, name)
        if len(drawn.svg) > room:
            area = coarse(area)
            drawn = map_of(area, name)
        room -= len(drawn.svg)
        found.append((area, drawn))
    return found


def _extents(file: File) -> Iterator[tuple[str, str, str]]:
    """Yields each axis with its least and greatest world coordinate."""
    for axis, extent in zip("xyz", file.extent):
        if extent is not None:
            yield axis, plain(extent[0]), plain(extent[1])


def html(delivery: Delivery) -> str:
    """Returns the page."""
    jinja2, markup = needed("jinja2"), needed("markupsafe").Markup
    environment = jinja2.Environment(
        loader=jinja2.FunctionLoader(_read),
        autoescape=True,
        undefined=jinja2.StrictUndefined,
        trim_blocks=True,
        lstrip_blocks=True,
    )
    environment.filters.update(
        cut=cut, size=size, count="{:,}".format, plain=plain, power=size_of_power, code=_code
    )
    environment.globals.update(
        counted=counted,
        share=share,
        split_at=split_at,
        near=near,
        bars=_bars,
        extents=_extents,
        words=WORDS,
    )
    script, style = _read("page.js"), _read("page.css")
    contents = delivery.contents
    given = {
        "delivery": delivery,
        "contents": contents,
        "verdict": verdict_of(delivery),
        "worst": worst(delivery),
        "files": by_verdict(delivery.files),
        "maps": _maps(delivery),
        "script": markup(script),
        "style": markup(style),
        "script_sum": markup(_sum(script)),
        "style_sum": markup(_sum(style)),
        "lengths": markup(histogram(contents.lengths, "lengths")) if contents.lengths else "",
        "detailed": MOST_DETAILED,
        "most_files": MOST_FILES,
        "static_rows": STATIC_ROWS,
    }
    template = environment.get_template("page.html")
    room = MOST_BYTES - len(template.render(data="", in_page=0, **given).encode("utf-8"))
    data, in_page = data_of(delivery.reports, delivery.files, room)
    page: str = template.render(data=markup(data), in_page=in_page, **given)
    return page
