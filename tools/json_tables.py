#!/usr/bin/env python3
"""Writes the tables of docs/json.md from docs/json.schema.json.

    tools/json_tables.py [--check]

A table is between `<!-- NAME: made by tools/json_tables.py -->` and `<!-- NAME: end -->`. It has
the members of the definition NAME of the schema, without `kind` and `version`, which all have.
Members that follow each other with one type and one description are in one row. With --check the
document is compared and not written, and the status is 1 if a table is old.
"""

import argparse
import json
import re
import sys
from itertools import groupby
from pathlib import Path
from typing import Any, Match

ROOT = Path(__file__).resolve().parent.parent
DOCUMENT, SCHEMA = Path("docs") / "json.md", Path("docs") / "json.schema.json"
TABLE = re.compile(r"(<!-- (\w+): made by tools/json_tables\.py -->\n)[\s\S]*?(<!-- \2: end -->)")
COMMON = "kind", "version"
HEAD = "| Member | Type | What it is |\n|---|---|---|"
NUMBERS = {2: "two", 3: "three", 4: "four"}
NAMES = {"integer": "number"}
KINDS = {bool: "boolean", int: "number", str: "string", type(None): "null"}

Schema = dict[str, Any]


class Definitions:
    """The definitions of a schema, by their names."""

    def __init__(self, schema: Schema) -> None:
        self.by_name: dict[str, Schema] = schema["$defs"]

    def resolved(self, schema: Schema) -> Schema:
        """Returns what a schema refers to, or itself."""
        if "$ref" in schema:
            return self.by_name[schema["$ref"].rpartition("/")[2]]
        return schema

    def names_of(self, schema: Schema) -> list[str]:
        """Returns the names of the types of a schema, in the plural words of an array."""
        schema = self.resolved(schema)
        if "anyOf" in schema:
            return [name for each in schema["anyOf"] for name in self.names_of(each)]
        if "const" in schema or "enum" in schema:
            values = schema.get("enum", [schema.get("const")])
            return list(dict.fromkeys(KINDS[type(value)] for value in values))
        names = schema["type"] if isinstance(schema["type"], list) else [schema["type"]]
        return [
            self.array_of(schema) if name == "array" else NAMES.get(name, name) for name in names
        ]

    def array_of(self, schema: Schema) -> str:
        """Returns what an array has."""
        number = NUMBERS.get(schema.get("minItems", 0), "")
        is_decimal = schema["items"].get("$ref") == "#/$defs/decimal"
        name = "decimal" if is_decimal else self.names_of(schema["items"])[0]
        return " ".join(filter(None, ["array of", number, f"{name}s"]))

    def type_of(self, schema: Schema) -> str:
        """Returns the type of a member, as a table shows it."""
        names = self.names_of(schema)
        return (", or " if " " in names[0] else " or ").join(names)

    def table(self, name: str) -> str:
        """Returns the table of a definition.

        Raises:
            KeyError: there is no such definition, or a member has no description.
        """
        members = self.by_name[name]["properties"].items()
        shown = [
            (self.type_of(schema), schema["description"], member)
            for member, schema in members
            if name == "common" or member not in COMMON
        ]
        rows = [
            f"| {', '.join(f'`{member}`' for _, _, member in group)} | {key[0]} | {key[1]} |"
            for key, group in groupby(shown, lambda row: row[:2])
        ]
        return "\n".join([HEAD, *rows])


def page(text: str, schema: Schema) -> str:
    """Returns a document with its tables made anew."""
    definitions = Definitions(schema)

    def made(found: Match[str]) -> str:
        return f"{found[1]}{definitions.table(found[2])}\n{found[3]}"

    return TABLE.sub(made, text)


def document() -> str:
    """Returns the document as it must be."""
    schema = json.loads((ROOT / SCHEMA).read_text(encoding="utf-8"))
    return page((ROOT / DOCUMENT).read_text(encoding="utf-8"), schema)


def main() -> int:
    """Runs the command. Returns its status."""
    parser = argparse.ArgumentParser(description=(__doc__ or "").partition("\n")[0])
    parser.add_argument("--check", action="store_true", help="compare the document, do not write")
    chosen = parser.parse_args()
    path, text = ROOT / DOCUMENT, document()
    if not chosen.check:
        path.write_text(text, encoding="utf-8")
    elif path.read_text(encoding="utf-8") != text:
        print(f"{DOCUMENT} is old: run tools/json_tables.py", file=sys.stderr)
        return 1
    return 0


if __name__ == "__main__":
    sys.exit(main())
