"""Results as JSON objects, and as SARIF."""
from __future__ import annotations

import json
import os
from collections import Counter
from typing import TYPE_CHECKING
from urllib.parse import quote

from .. import __version__
from ..engine import RequestError, quoted, shown
from ..engine.reports import Report, explain
from ..run import Info, Result
from .options import Check, Request
from .output import Bar, Printer, put

if TYPE_CHECKING:
    from decimal import Decimal
    from typing import TextIO

    from ..foreign import Json, Object
    from .output import Reports


VERSION = 1  # of the objects: it changes if a member is renamed, removed or changes its meaning
LONGEST = 40  # digits before or after the point of a number that is written out
MOST = 1 << 53  # a double has every whole number up to this
CODES = tuple(code for code in range(1, 32) if not 6 <= code <= 9)
STANDARD = "https://docs.oasis-open.org/sarif/sarif/v2.1.0/errata01/os"
SCHEMA = f"{STANDARD}/schemas/sarif-schema-2.1.0.json"


def object_of(kind: str, members: Object) -> Object:
    return {"kind": kind, "version": VERSION, **members}


def exact(number: Decimal) -> int | float | str:
    """Returns a JSON number if each reader gets the exact value from it. Else returns its text."""
    from decimal import Decimal  # only `info` needs it, and it takes long to load

    from ..engine.world import plain

    if number == 0:
        return 0
    if abs(number.adjusted()) > LONGEST:
        return str(number)
    if number == number.to_integral_value():
        return int(number) if abs(number) <= MOST else plain(number)
    return float(number) if Decimal(float(number)) == number else plain(number)


def report_object(report: Report) -> Object:
    """Returns the object of an invalid line."""
    return object_of(
        "report",
        {
            "file": report.file,
            "line": report.line,
            "byte": report.byte,
            "code": report.code,
            "text": report.text,
            "id": report.id,
            "hint": report.met,
            "excerpt": report.excerpt,
            "column": report.column,
            "fix": explain(report.code).fix,
        },
    )


def _counts(result: Result) -> Object:
    return {
        "status": result.status,
        "verdict": result.status.verdict,
        "lines": result.lines,
        "features": result.features,
        "refused": result.refused,
        "ended_at": None if result.end is None else result.end.line,
        "fault": result.fault,
        "fault_file": result.fault_file,
    }


def box_object(box: str | None) -> list[Json] | None:
    """Returns the edges of a box as JSON numbers."""
    from decimal import Decimal  # only `info` and `report` need it

    return None if box is None else [exact(Decimal(edge)) for edge in box.split(",")]


def _of_info(info: Info) -> Object:
    return {
        "scale": list(map(exact, info.scale)),
        "translate": list(map(exact, info.translate)),
        "types": info.types,
        "lod_classes": info.classes,
        "lods": info.lods,
        "lods_unknown": list(info.unasked),
        "x": info.x,
        "y": info.y,
        "z": info.z,
        "bbox": box_object(info.box),
    }


def result_object(result: Result, request: Request, size: int | None, sha256: str | None) -> Object:
    """Returns the object of a file's result, without the reports."""
    members = {
        "file": result.file,
        "command": request.command,
        "cityseq": __version__,
        "options": request.options,
        "size": size,
        "sha256": sha256,
        **_counts(result),
        "peak_bytes": result.peak_bytes,
        "peak_tokens": result.peak_tokens,
        "peak_depth": result.peak_depth,
        "hints": result.hints,
    }
    if isinstance(result, Info):
        members["info"] = _of_info(result) if result.valid else None
    return object_of("result", members)


def reasons_object(codes: Counter[int]) -> Object:
    """Returns the object that counts how often each reason occurred."""
    return object_of(
        "reasons",
        {
            "reasons": [
                {"code": code, "text": explain(code).text, "lines": codes[code]}
                for code in sorted(codes)
            ]
        },
    )


def record_object(result: Result, request: Request, invalid: Reports, state: Object) -> Object:
    """Returns a line of a record: the state of a file, its result, and its invalid lines."""
    line, byte, code = invalid.first or (None, None, None)
    return object_of(
        "record",
        {
            "file": result.file,
            **state,
            "command": request.command,
            "cityseq": __version__,
            "options": request.options,
            **_counts(result),
            "line": line,
            "byte": byte,
            "code": code,
            "codes": {str(code): invalid.codes[code] for code in sorted(invalid.codes)},
        },
    )


def _message(report: Report) -> str:
    """Returns the message for an invalid line: the reason, the feature, and how to fix it."""
    feature = "" if report.id is None else f", in feature {quoted(report.id)}"
    met = "" if report.met is None else f" ({shown(report.met)})"
    return f"{report.text}{met} at byte {report.byte}{feature}. {explain(report.code).fix}"


def _rule(code: int) -> Object:
    reason = explain(code)
    return {
        "id": str(code),
        "shortDescription": {"text": reason.text},
        "fullDescription": {"text": reason.meaning},
        "help": {"text": reason.fix},
    }


def _location(file: str) -> Object:
    return {"artifactLocation": {"uri": quote(os.fsencode(file))}}


def _result(report: Report) -> Object:
    region = {"startLine": report.line, "snippet": {"text": report.excerpt}}
    return {
        "ruleId": str(report.code),
        "level": "error",
        "message": {"text": _message(report)},
        "locations": [{"physicalLocation": {**_location(report.file), "region": region}}],
        "properties": {"byte": report.byte},
    }


def _notification(level: str, text: str, file: str) -> Object:
    """Returns what a tool tells about its run, and not about a line."""
    return {
        "level": level,
        "message": {"text": text},
        "locations": [{"physicalLocation": _location(file)}],
    }


class SarifPrinter(Printer):
    """Prints one SARIF log to standard output, piece by piece. It keeps no report in memory."""

    def __init__(self, request: Check, bar: Bar) -> None:
        super().__init__(request, bar, False)
        if request.json or request.summary or request.quiet or request.resume:
            raise RequestError(
                "--format prints all: leave --json, --summary, --quiet and --resume out"
            )
        self._notifications: list[Object] = []
        self._is_successful = True
        rules = json.dumps(list(map(_rule, CODES)))
        put(
            f'{{"$schema":"{SCHEMA}","version":"2.1.0","runs":[{{'
            f'"tool":{{"driver":{{"name":"cityseq","version":"{__version__}","rules":{rules}}}}},'
            '"results":['
        )
        self._comma = ""

    def _is_cut_on(self, output: TextIO) -> bool:
        return False

    def print_report(self, report: Report) -> None:
        put(f"{self._comma}{json.dumps(_result(report))}")
        self._comma = ","

    def print_more(self, file: str, count: int) -> None:
        text = f"{file}: {self._count} lines are invalid, and --max-reports left out {count}"
        self._notifications.append(_notification("warning", text, file))

    def print_result(self, result: Result, sha256: str | None) -> None:
        if result.fault is not None:
            file = result.fault_file or result.file
            self._is_successful = False
            self._notifications.append(_notification("error", f"{file}: {result.fault}", file))

    def close(self) -> None:
        """Ends the log. It says whether all files were judged, and which reports are missing."""
        run: Object = {"executionSuccessful": self._is_successful}
        if self._notifications:
            run["toolExecutionNotifications"] = self._notifications
        put(f'],"invocations":[{json.dumps(run)}]}}]}}')
