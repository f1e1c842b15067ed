#!/usr/bin/env python3
"""Writes the index of clauses, docs/CLAUSES.md, from the sources.

    tools/clauses.py [--check]

The index has a table for each crate that has edits. It lists each public function, each function of
a trait, and each function with an edit. A row has the names of its clauses, what the comment above
them says, and the edits of its code that the check must refuse. A second table has the records of
the definitions that the clauses use. With --check the file is compared
and not written, and the status is 1 if it is old.
"""

import argparse
import re
import sys
from dataclasses import dataclass, field
from pathlib import Path
from typing import Iterator, Optional

ROOT = Path(__file__).resolve().parent.parent
INDEX = Path("docs") / "CLAUSES.md"
FOLDER = "wrong-bodies"
WIDEST = 150  # characters of a cell that a list fills
LONGEST, MOST_WORDS = 160, 25  # characters and words of the sentence in a cell

OWNER = re.compile(r"(?:pub(?:\(\w+\))? )?(?:unsafe )?(impl|trait)\b(?: (\w+) for)? (\w+)")
FUNCTION = re.compile(r"( *)(pub(?:\(\w+\))? )?(?:const )?(?:unsafe )?(?:extern \"C\" )?fn (\w+)")
CLAUSE = re.compile(r" *ensures (?:(\w+) )?\{")
UNNAMED = "unnamed"

HEAD = """# Clauses

`tools/clauses.py` writes this index from the sources, and a test fails if it is old.
[PROMISES](PROMISES.md) says what a user relies on, and [PROOF](PROOF.md) what must be believed.

A *clause* is a named fact in the contract of a function. The prover has shown each one. A row
has the first sentence of the comment in the source. A clause without a comment of its own is in
the row of its function. *Edits* are wrong changes of that function, and the check must
reject each. If a function has none, the functions that it calls have some. A *record* groups facts
that several clauses share, such as `Feeds`. Crates without edits are left out: they have tests.
"""


@dataclass
class Group:
    """Clauses under one comment.

    Attributes:
        comment: the comment above them in the contract, or "".
        clauses: their names, in order.
    """

    comment: str
    clauses: list[str] = field(default_factory=list)


@dataclass
class Function:
    """A function of a source file.

    Attributes:
        name: its name, after that of its type.
        is_listed: whether it is public, or a function of a trait.
        first: the number of its first line, from 0.
        last: the number of its last line.
        comment: its doc comment.
        groups: its clauses.
        edits: the names of the edits in its code.
    """

    name: str
    is_listed: bool
    first: int
    last: int
    comment: str
    groups: list[Group] = field(default_factory=list)
    edits: list[str] = field(default_factory=list)


def sentence_of(comment: str) -> str:
    """Returns the first sentence of a comment. A long one ends early, after one of its parts."""
    first = comment.split("\n\n")[0]
    words = re.sub(r"\[(`[^`\]]*`)\](?:\([^)]*\))?", r"\1", " ".join(first.split()))
    shown = re.split(r"(?<=[.:]) (?=[A-Z`])", words.replace("|", "\\|"))[0]
    if len(shown) > LONGEST or len(shown.split()) > MOST_WORDS:
        kept = " ".join(shown[: LONGEST - 3].rsplit(" ", 1)[0].split()[:MOST_WORDS])
        parts = re.split(r"(?<=[;:,]) ", kept)
        shown = (" ".join(parts[:-1]) or kept).rstrip(";:,") + " .."
        if shown.count("`") % 2:
            shown = shown.rsplit(" `", 1)[0] + " .."
    return shown.removesuffix(":") + "." * shown.endswith(":")


def comment_above(lines: list[str], number: int, mark: str) -> str:
    """Returns the comment that ends above a line, without its marks, past attributes."""
    found: list[str] = []
    while number > 0 and lines[number - 1].strip().startswith((mark, "#[")):
        number -= 1
        if lines[number].strip().startswith(mark):
            found.insert(0, lines[number].strip()[len(mark) :].strip())
    return "\n".join(found)


def end_of(lines: list[str], first: int, indent: str) -> int:
    """Returns the number of the last line of a function that begins here."""
    in_body = False
    for number in range(first, len(lines)):
        line = lines[number].rstrip()
        bare = line.strip()
        if in_body:
            if line == indent + "}":
                return number
        elif bare == "{" or (bare.endswith(" {") and not bare.startswith("ensures")):
            in_body = True
        elif bare == "{}" or bare.endswith(";") or (number == first and bare.endswith("}")):
            return number
    return len(lines) - 1


def groups_of(lines: list[str]) -> list[Group]:
    """Returns the clauses of a contract, each group under its comment."""
    groups = [Group("")]
    for number, line in enumerate(lines):
        if line.strip() in ("{", "{}"):
            break
        if found := CLAUSE.match(line):
            if comment := comment_above(lines, number, "//"):
                groups.append(Group(comment))
            elif number and not lines[number - 1].strip() and groups[-1].comment:
                groups.append(Group(""))
            groups[-1].clauses.append(found[1] or UNNAMED)
    return [group for group in groups if group.clauses]


def functions_of(text: str) -> Iterator[Function]:
    """Yields the functions of a source file, in order."""
    lines = text.splitlines()
    owner, in_trait = "", False
    for number, line in enumerate(lines):
        head = re.sub(r"<[^<>]*>", "", re.sub(r"<[^<>]*>", "", line.replace("->", "")))
        if found := OWNER.match(head):
            owner, in_trait = found[3], found[1] == "trait" or found[2] is not None
        elif line == "}":
            owner, in_trait = "", False
        if found := FUNCTION.match(line):
            name = f"{owner}::{found[3]}" if owner else found[3]
            last = end_of(lines, number, found[1])
            yield Function(
                name,
                found[2] == "pub " or in_trait,
                number,
                last,
                comment_above(lines, number, "///"),
                groups_of(lines[number : last + 1]),
            )


def edits_of(crate: Path) -> Iterator[tuple[str, list[tuple[str, str]]]]:
    """Yields the edits of a crate: the name, and file and old text of each change."""
    for path in sorted((crate / FOLDER).glob("*.edit"), key=lambda path: path.stem):
        file, changes = "", []
        for line in path.read_text(encoding="utf-8").splitlines():
            word, _, text = line.partition(": ")
            if word == "file":
                file = text.strip()
            elif word == "old":
                changes.append((file, text))
        yield path.stem, changes


def function_at(functions: list[Function], text: str, changed: str) -> Optional[Function]:
    """Returns the function that a changed text is in, or None."""
    line = text[: text.find(changed)].count("\n")
    inside = (each for each in functions if each.first <= line <= each.last)
    return next(inside, None)


def cells_of(names: list[str]) -> list[str]:
    """Returns the names between backticks, as few cells as hold them."""
    cells = [""]
    for name in names:
        shown = f"`{name}`" if name != UNNAMED else "one without a name"
        if cells[-1] and len(cells[-1]) + len(shown) > WIDEST:
            cells.append("")
        cells[-1] += (", " if cells[-1] else "") + shown
    return cells


def rows_of(function: Function, link: str) -> Iterator[str]:
    """Yields the rows of a function: what is in one cell too many comes in a further row."""
    bare = [name for group in function.groups if not group.comment for name in group.clauses]
    first = [cells_of(bare), [sentence_of(function.comment)], cells_of(function.edits)]
    name = f"[`{function.name}`]({link})"
    for number in range(max(map(len, first))):
        cells = [column[number] if number < len(column) else "" for column in first]
        yield "| " + " | ".join([name if number == 0 else "", *cells]) + " |"
    for group in function.groups:
        if group.comment:
            for number, cell in enumerate(cells_of(group.clauses)):
                sentence = sentence_of(group.comment) if number == 0 else ""
                yield f"|  | {cell} | {sentence} |  |"


def table_of(crate: Path) -> list[str]:
    """Returns the rows of the functions of a crate, file after file, and its other edits."""
    rows: list[str] = []
    others: list[str] = []
    sources = {}
    for path in sorted(crate.glob("src/**/*.rt")):
        text = path.read_text(encoding="utf-8")
        sources[str(path.relative_to(crate))] = (list(functions_of(text)), text)
    for name, changes in edits_of(crate):
        places = (function_at(*sources.get(file, ([], "")), old) for file, old in changes)
        function = next((place for place in places if place), None)
        (function.edits if function else others).append(name)
    for file, (functions, _) in sources.items():
        for function in functions:
            if function.edits or (function.is_listed and function.groups):
                rows += rows_of(function, f"../crates/{crate.name}/{file}")
    rows += [f"| outside functions |  |  | {cell} |" for cell in cells_of(others) if cell]
    return rows


def records_of(crate: Path) -> list[str]:
    """Returns the rows of the records that public clauses are made of."""
    rows = []
    for path in sorted(crate.glob("specs/**/*.antt")):
        if "inner" in path.relative_to(crate).parts:
            continue
        lines = path.read_text(encoding="utf-8").splitlines()
        for number, line in enumerate(lines):
            if found := re.match(r"pub record (\w+)", line):
                body = "\n".join(lines[number + 1 :]).split("\n\n")[0]
                parts = cells_of(re.findall(r"^  pub (\w+) ", body, re.M))
                sentence = sentence_of(comment_above(lines, number, "--"))
                link = f"[`{found[1]}`](../crates/{crate.name}/{path.relative_to(crate)})"
                rows.append(f"| {link} | {parts[0]} | {sentence} |")
                rows += [f"|  | {cell} |  |" for cell in parts[1:]]
    return rows


def index() -> str:
    """Returns the whole index."""
    parts = [HEAD]
    for crate in sorted((ROOT / "crates").iterdir()):
        if not any(edits_of(crate)):
            continue
        head = ["| Function | Clauses | What the comment says | Edits |", "|---|---|---|---|"]
        parts.append("\n".join([f"## {crate.name}\n", *head, *table_of(crate), ""]))
        if records := records_of(crate):
            head = ["| Record | Parts | What the comment says |", "|---|---|---|"]
            parts.append("\n".join([f"### Records of {crate.name}\n", *head, *records, ""]))
    return re.sub(r" +\|", " |", "\n".join(parts))


def main() -> int:
    """Runs the command. Returns its status."""
    parser = argparse.ArgumentParser(description=(__doc__ or "").partition("\n")[0])
    parser.add_argument("--check", action="store_true", help="compare the file and do not write it")
    chosen = parser.parse_args()
    path, text = ROOT / INDEX, index()
    if not chosen.check:
        path.write_text(text, encoding="utf-8")
    elif not path.exists() or path.read_text(encoding="utf-8") != text:
        print(f"{INDEX} is old: run tools/clauses.py", file=sys.stderr)
        return 1
    return 0


if __name__ == "__main__":
    sys.exit(main())
