#!/usr/bin/env python3
"""Writes the tables of docs/RULES.md from the sources.

    tools/rules.py [--check]

The tables are those of reasons, of the types of city objects and of the types of geometries. With
--check the document is compared and not written, and the status is 1 if a table is old.
"""

import argparse
import re
import sys
from pathlib import Path
from typing import Iterator

sys.path.insert(0, str(Path(__file__).resolve().parent))
import clauses  # noqa: E402

ROOT = Path(__file__).resolve().parent.parent
DOCUMENT = Path("docs") / "RULES.md"
REASONS = "crates/cj_spans/src/reason.rt"
MEANING = "crates/cj_geometry/specs/Meaning"
LISTS = "cj_spans/src/reason.rt", "cityseq_c/src/words.rt"  # They name each reason.
WIDEST = 150  # characters of the functions in a cell


def read(path: str) -> str:
    """Returns the text of a file of the repository."""
    return (ROOT / path).read_text(encoding="utf-8")


def anchor_of(heading: str) -> str:
    """Returns the anchor of a heading."""
    return "#" + re.sub(r"[^a-z0-9-]", "", heading.lower().replace(" ", "-"))


def code_of(lines: list[str]) -> Iterator[str]:
    """Yields the lines of a function that run."""
    is_clause = False
    for line in lines:
        bare = line.strip()
        if bare.startswith(("ensures", "requires")):
            is_clause = True
        elif bare in ("{", "{}"):
            is_clause = False
        if not is_clause and not bare.startswith("//"):
            yield line


def functions_by_reason() -> dict[str, list[str]]:
    """Returns the functions whose code names a reason, after their crates, by its name."""
    found: dict[str, list[str]] = {}
    for path in sorted((ROOT / "crates").glob("*/src/**/*.rt")):
        place = path.relative_to(ROOT / "crates")
        has_edits = any(clauses.edits_of(ROOT / "crates" / place.parts[0]))
        if str(place) in LISTS or not has_edits:  # Crates without edits have tests alone.
            continue
        text = path.read_text(encoding="utf-8")
        lines = text.splitlines()
        modules = [*place.parts[2:-1], place.stem]
        for function in clauses.functions_of(text):
            code = "\n".join(code_of(lines[function.first : function.last + 1]))
            for name in sorted(set(re.findall(r"\bReason::(\w+)", code))):
                shown = "::".join([*modules, function.name])
                found.setdefault(name, []).append(f"{place.parts[0]}: {shown}")
    return found


def cell_of(functions: list[str]) -> str:
    """Returns a cell with the functions of a reason, and how many more there are."""
    cell, crate, number = "", "", 0
    for number, function in enumerate(functions):
        owner, name = function.split(": ")
        shown = f"`{name}`" if owner == crate else f"`{owner}`: `{name}`"
        if len(cell) + len(shown) > WIDEST:
            return f"{cell} and {len(functions) - number} more"
        cell, crate = cell + (", " if cell else "") + shown, owner
    return cell


def reasons_part() -> str:
    """Returns the table of reasons."""
    rows = ["| Code | Text | Name | Functions that name it |", "|---|---|---|---|"]
    functions = functions_by_reason()
    for name, code, text in re.findall(r'Reason::(\w+) => \((\d+), "([^"]*)"\)', read(REASONS)):
        link = f"[{code}]({anchor_of(f'{code} {text}')})"
        rows.append(f"| {link} | {text} | `{name}` | {cell_of(functions.get(name, []))} |")
    return "\n".join(rows)


def types_part() -> str:
    """Returns the types of city objects of both levels."""
    rows = re.findall(
        r'(first|second)_level \(codes "(\w+)"\) (\d+)', read(f"{MEANING}/ObjectTypes.antt")
    )
    lines = ["| Level | Numbers | Types |", "|---|---|---|"]
    for level in "first", "second":
        named = [(name, int(number)) for each, name, number in rows if each == level]
        while named:
            count = len(named)
            while len(", ".join(name for name, _ in named[:count])) > WIDEST:
                count -= 1
            shown = ", ".join(name for name, _ in named[:count])
            lines.append(f"| {level} | {named[0][1]} to {named[count - 1][1]} | {shown} |")
            named = named[count:]
    return "\n".join(lines)


def geometries_part() -> str:
    """Returns the table of the types of geometries."""
    rows = re.findall(
        r'row \(codes "(\w+)"\) (?:\(parts (\d) (?:None|\(Some (\d)\))\)|instance)',
        read(f"{MEANING}/Table.antt"),
    )
    lines = ["| Type | Depth of `boundaries` | Depth of semantic `values` |", "|---|---|---|"]
    lines += [
        f"| {name} | {depth or 'one index'} | {own or 'unread'} |" for name, depth, own in rows
    ]
    return "\n".join(lines)


def document() -> str:
    """Returns the document with its tables made anew.

    Raises:
        ValueError: a marker is missing.
    """
    text = read(str(DOCUMENT))
    parts = {
        "reasons": reasons_part(),
        "types": types_part(),
        "geometries": geometries_part(),
    }
    for part, body in parts.items():
        begin, end = f"<!-- {part}: made by tools/rules.py -->\n", f"<!-- {part}: end -->"
        if begin not in text or end not in text:
            raise ValueError(f"no markers of {part}")
        before, rest = text.split(begin)
        text = before + begin + body + "\n" + end + rest.split(end)[1]
    return text


def main() -> int:
    """Runs the command. Returns its status."""
    parser = argparse.ArgumentParser(description=(__doc__ or "").partition("\n")[0])
    parser.add_argument("--check", action="store_true", help="compare the document, write nothing")
    chosen = parser.parse_args()
    text = document()
    if not chosen.check:
        (ROOT / DOCUMENT).write_text(text, encoding="utf-8")
    elif text != read(str(DOCUMENT)):
        print(f"{DOCUMENT} has an old table: run tools/rules.py", file=sys.stderr)
        return 1
    return 0


if __name__ == "__main__":
    sys.exit(main())
