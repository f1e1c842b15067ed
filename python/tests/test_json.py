"""What is told as JSON, and the record: by the document, docs/json.md."""
import hashlib
import json
import os
import re
import unittest
from decimal import Decimal

import cityseq
from cityseq.cli.json_output import exact

from . import support
from .support import HEADER, PLAIN, InFolder, command
from .test_sources import GOOD
from .test_told import example

try:
    import jsonschema
except ImportError:
    jsonschema = None

TYPES = {
    "string": str,
    "number": (int, float),
    "boolean": bool,
    "object": dict,
    "null": type(None),
    "array of strings": list,
    "array of objects": list,
    "array of three decimals": list,
    "array of four decimals": list,
    "array of two numbers": list,
    "array of four numbers": list,
}


def tables():
    """The members that the document has, by the heading or the line before each table: for each its
    types."""
    found, title = {}, ""
    with open(os.path.join(support.ROOT, "docs", "json.md"), encoding="utf-8") as document:
        for line in document:
            row = re.match(r"\| ((?:`\w+`(?:, )?)+) \| ([^|]*) \|", line)
            if line.startswith("## "):
                title = line[3:].strip()
            elif line.startswith("The members of `"):
                title = line.split("`")[1]
            elif row:
                types = [TYPES[kind] for kind in re.split(r",? or ", row.group(2))]
                found.setdefault(title, {}).update(
                    dict.fromkeys(re.findall(r"\w+", row.group(1)), types)
                )
    return found


def fits_the_schema(told):
    """Looks whether an object is as docs/json.schema.json says, if jsonschema is there."""
    if jsonschema is not None:
        jsonschema.validate(told, SCHEMA)


TABLES = tables()
COMMON, OPTIONS = TABLES[""], TABLES["options"]
with open(os.path.join(support.ROOT, "docs", "json.schema.json"), encoding="utf-8") as schema:
    SCHEMA = json.load(schema)


class Documented(InFolder):
    """Looks whether objects are as the document says."""

    def told(self, *words, **more):
        """The objects that the command writes, each looked at."""
        output, said, status = command(*words, **more)
        objects = [
            json.loads(line)
            for line in (output if b'"kind"' in output else said.encode()).splitlines()
        ]
        for told in objects:
            self.fits(told, {**COMMON, **TABLES[told["kind"]]})
            self.assertEqual(told["version"], 1)
            fits_the_schema(told)
            if told["kind"] in ("result", "record"):
                optional = {"whole", "where"} - set(told["options"])
                wanted = {name: OPTIONS[name] for name in OPTIONS if name not in optional}
                self.fits(
                    told["options"],
                    wanted if told["command"] == "filter" else dict(list(wanted.items())[:5]),
                )
            if told.get("info") is not None:
                self.fits(told["info"], TABLES["info"])
        return objects, said, status

    def fits(self, told, wanted):
        optional = {"info"} if "command" in told and told["command"] != "info" else set()
        self.assertEqual(set(told), set(wanted) - optional)
        for name, value in told.items():
            self.assertTrue(any(isinstance(value, kind) for kind in wanted[name]), (name, value))


class Objects(Documented):
    """Each object has the members that the document says, and their types."""

    def test_check(self):
        objects, said, status = self.told(
            "check",
            "--json",
            "--keep-going",
            example("delivery"),
            example("town"),
            self.folder / "none",
        )
        self.assertEqual((said, status), ("", 3))
        reports, results = objects[:5], objects[5:]
        self.assertEqual(
            [(one["line"], one["byte"], one["code"], one["id"]) for one in reports],
            [
                (3, 144, 25, "p2"),
                (4, 87, 10, "p3"),
                (6, 100, 4, "p5"),
                (7, 144, 25, "p6"),
                (8, 64, 19, "p7"),
            ],
        )
        self.assertEqual(
            [one["hint"] for one in reports],
            [
                "the index is 4",
                'the geometry has no "lod"',
                None,
                "the index is 4",
                'the type is "Shed"',
            ],
        )
        self.assertEqual(
            [
                (one["status"], one["verdict"], one["features"], one["refused"], one["ended_at"])
                for one in results
            ],
            [(1, "invalid", 3, 5, None), (0, "valid", 4, 0, None), (3, "fault", 0, 0, None)],
        )
        self.assertEqual(
            [one["size"] for one in results],
            [os.path.getsize(example("delivery")), os.path.getsize(example("town")), None],
        )
        self.assertEqual(
            (results[2]["fault"], results[2]["fault_file"]),
            ("read fault: No such file or directory", str(self.folder / "none")),
        )
        self.assertEqual({one["cityseq"] for one in results}, {cityseq.__version__})

    def test_a_line_is_reported_once(self):
        for words in (("check",), ("filter",), ("info",)):
            objects, _, status = self.told(*words, "--json", example("broken"))
            self.assertEqual([one["kind"] for one in objects], ["report", "result"])
            self.assertEqual(
                (objects[0]["line"], objects[1]["ended_at"], objects[1]["refused"], status),
                (3, 3, 0, 1),
            )
            self.assertIsNone(objects[1].get("info"))

    def test_info(self):
        self.assertIsNone(self.told("info", "--json", example("town"))[0][0]["info"]["lods"])
        (told,), _, status = self.told("info", "--json", "--lods", example("town"))
        info = told["info"]
        self.assertEqual(
            (status, info["scale"], info["translate"], info["bbox"]),
            (0, ["0.001"] * 3, [1000, 2000, 0], [995, 1990, 1050, 2005]),
        )
        self.assertEqual(
            (info["x"], info["types"]["Building"], info["lod_classes"]["1"], info["lods"]["2.2"]),
            ([-5000, 50000], 2, 2, 1),
        )

    def test_filter(self):
        objects, said, _ = self.told(
            "filter", "--json", "--type", "Road", "--output", self.folder / "out", self.file(GOOD)
        )
        self.assertEqual(
            (objects[0]["features"], objects[0]["options"]["type"], said), (1, "Road", "")
        )
        self.assertEqual(command("filter", "--json", "-", given=GOOD)[0], GOOD)
        self.told("filter", "--json", "-", given=GOOD)

    def test_index(self):
        index, paths = str(self.folder / "it.gpkg"), [
            example("town"),
            str(self.file(HEADER + PLAIN + PLAIN, "two.gz")),
        ]
        objects, said, status = self.told("index", "--json", "--output", index, *paths)
        self.assertEqual(
            ([(one["file"], one["command"], one["features"]) for one in objects], said, status),
            ([(paths[0], "index", 4), (paths[1], "index", 2)], "", 0),
        )
        (told,), _, _ = self.told("index", "--json", "--show", index)
        self.assertEqual(
            (told["features"], told["bbox"], [one["packing"] for one in told["streams"]]),
            (6, [995, 1990, 1050, 2005], [None, "gzip"]),
        )
        self.assertEqual(
            told["repeated_ids"],
            [{"id": "b", "places": [{"file": paths[1], "line": 2}, {"file": paths[1], "line": 3}]}],
        )
        for one in told["streams"]:
            self.fits(one, TABLES["streams"])
        self.fits(told["repeated_ids"][0], TABLES["repeated_ids"])
        self.assertEqual(told["streams"][1]["bbox"], None)

    def test_the_digest(self):
        for path in (self.file(GOOD), self.file(GOOD, "a.gz")):
            digest = hashlib.sha256(path.read_bytes()).hexdigest()
            self.assertEqual(self.told("check", "--json", "--sha256", path)[0][0]["sha256"], digest)
            self.assertIsNone(self.told("check", "--json", path)[0][0]["sha256"])
        self.assertIsNone(self.told("check", "--json", "--sha256", given=GOOD)[0][0]["sha256"])

    def test_the_summary(self):
        objects, _, _ = self.told(
            "check", "--json", "--summary", "--keep-going", example("delivery")
        )
        self.assertEqual([one["kind"] for one in objects], ["result", "reasons"])
        self.assertEqual(
            [(one["code"], one["text"], one["lines"]) for one in objects[1]["reasons"]],
            [
                (4, "syntax", 1),
                (10, "member missing", 1),
                (19, "unknown object type", 1),
                (25, "vertex index out of range", 2),
            ],
        )

    def test_numbers(self):
        for text, wanted in (
            ("0.001", "0.001"),
            ("2E+3", 2000),
            ("0.5", 0.5),
            ("-0", 0),
            ("84616.468", "84616.468"),
            ("9007199254740993", "9007199254740993"),
            ("1E-1000000", "1E-1000000"),
            ("1E+1000000", "1E+1000000"),
            ("-995.25", -995.25),
        ):
            self.assertEqual(exact(Decimal(text)), wanted)
            self.assertEqual(type(exact(Decimal(text))), type(wanted))


if __name__ == "__main__":
    unittest.main()
