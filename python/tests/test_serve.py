"""The server: what it says of itself, cuts and pages of collections, and what other programs read of it."""
import gzip
import html
import io
import json
import random
import re
import shutil
import subprocess
import threading
import time
import unittest
from decimal import Decimal
from urllib.parse import quote

import cityseq

from .serving import EXAMPLES, HOSTILE, MISSING, RD, Served, Serving
from .support import HEADER, command, feature

try:
    import pyproj
except ImportError:
    pyproj = None
try:
    import jsonschema
except ImportError:
    jsonschema = None
try:
    from owslib.ogcapi.features import Features
except ImportError:
    Features = None

CRS84 = "http://www.opengis.net/def/crs/OGC/1.3/CRS84"
TEXT = {"type": "string", "minLength": 1}
LINKS = {
    "type": "array",
    "items": {
        "type": "object",
        "required": ["href", "rel"],
        "properties": {
            "href": {"type": "string", "pattern": "^http://"},
            "rel": TEXT,
            "type": TEXT,
            "title": TEXT,
        },
    },
}
# what the standard requires of each answer (17-069r4, 18-058)
COLLECTION = {
    "type": "object",
    "required": ["id", "links"],
    "properties": {
        "id": TEXT,
        "title": TEXT,
        "description": TEXT,
        "links": LINKS,
        "itemType": {"const": "feature"},
        "crs": {"type": "array", "items": TEXT},
        "storageCrs": TEXT,
        "extent": {
            "type": "object",
            "properties": {
                "spatial": {
                    "type": "object",
                    "properties": {
                        "bbox": {
                            "type": "array",
                            "minItems": 1,
                            "items": {
                                "type": "array",
                                "minItems": 4,
                                "maxItems": 6,
                                "items": {"type": "number"},
                            },
                        },
                        "crs": {"const": CRS84},
                    },
                }
            },
        },
    },
}
FEATURE = {
    "type": "object",
    "required": ["type", "geometry", "properties", "id"],
    "properties": {
        "type": {"const": "Feature"},
        "properties": {"type": ["object", "null"]},
        "geometry": {
            "oneOf": [
                {"type": "null"},
                {
                    "type": "object",
                    "required": ["type", "coordinates"],
                    "properties": {
                        "type": {"const": "Polygon"},
                        "coordinates": {
                            "type": "array",
                            "items": {
                                "type": "array",
                                "minItems": 4,
                                "items": {
                                    "type": "array",
                                    "minItems": 2,
                                    "items": {"type": "number"},
                                },
                            },
                        },
                    },
                },
            ]
        },
    },
}
SCHEMAS = {
    "/": {
        "type": "object",
        "required": ["links"],
        "properties": {"title": TEXT, "description": TEXT, "links": LINKS},
    },
    "/conformance": {
        "type": "object",
        "required": ["conformsTo"],
        "properties": {"conformsTo": {"type": "array", "items": TEXT}},
    },
    "/collections": {
        "type": "object",
        "required": ["links", "collections"],
        "properties": {"links": LINKS, "collections": {"type": "array", "items": COLLECTION}},
    },
    "/collections/sample": COLLECTION,
    "/collections/town": COLLECTION,
    "/collections/sample/items": {
        "type": "object",
        "required": ["type", "features"],
        "properties": {
            "type": {"const": "FeatureCollection"},
            "features": {"type": "array", "items": FEATURE},
            "links": LINKS,
            "timeStamp": {"type": "string", "pattern": r"^\d{4}-\d\d-\d\dT\d\d:\d\d:\d\dZ$"},
            "numberMatched": {"type": "integer", "minimum": 0},
            "numberReturned": {"type": "integer", "minimum": 0},
        },
    },
    "/collections/town/items/house-1": FEATURE,
    "/api?f=openapi": {
        "type": "object",
        "required": ["openapi", "info", "paths"],
        "properties": {
            "openapi": {"type": "string", "pattern": r"^3\.0\."},
            "info": {"type": "object", "required": ["title", "version"]},
            "paths": {
                "type": "object",
                "patternProperties": {
                    "^/": {
                        "type": "object",
                        "minProperties": 1,
                        "additionalProperties": {"type": "object", "required": ["responses"]},
                    }
                },
                "additionalProperties": False,
            },
        },
    },
    "/none": {
        "type": "object",
        "required": ["type", "title", "status", "detail", "code"],
        "properties": {
            "type": TEXT,
            "title": TEXT,
            "status": {"const": 404},
            "detail": TEXT,
            "code": TEXT,
        },
    },
}


@unittest.skipIf(MISSING, MISSING)
class Documents(Served):
    def test_landing_page_links(self):
        links = self.server.ask("/").json()["links"]
        rels = {link["rel"] for link in links}
        self.assertLessEqual(
            {"self", "alternate", "service-desc", "service-doc", "conformance", "data"}, rels
        )
        for link in links:
            self.assertTrue(link["href"].startswith(self.server.url), link)
            self.assertEqual(
                self.server.ask(link["href"][len(self.server.url) - 1 :]).status, 200, link
            )

    def test_media_types(self):
        for path, accept, wanted in (
            ("/", "*/*", "application/json"),
            ("/", "text/html,*/*;q=0.8", "text/html"),
            ("/api", "*/*", "application/vnd.oai.openapi+json;version=3.0"),
            ("/api", "text/html", "text/html"),
            ("/collections/sample/items", "application/json", "application/geo+json"),
            ("/collections/sample/items", "application/city+json-seq", "application/city+json-seq"),
            ("/collections/sample/items", "text/html", "text/html"),
            ("/collections/town/items/house-1", "application/city+json", "application/city+json"),
        ):
            answer = self.server.ask(path, Accept=accept)
            self.assertEqual(answer.status, 200, answer.body)
            self.assertEqual(answer.headers["Content-Type"].split("; charset")[0], wanted, path)
        self.assertEqual(self.server.ask("/", Accept="image/png").status, 406)

    @unittest.skipIf(jsonschema is None, "jsonschema is not there")
    def test_answers_have_what_the_standard_requires(self):
        for path, schema in SCHEMAS.items():
            with self.subTest(path):
                jsonschema.Draft7Validator.check_schema(schema)
                jsonschema.validate(
                    self.server.ask(path).json(), schema, jsonschema.Draft7Validator
                )

    def test_collections_say_their_system(self):
        sample, town = (
            self.server.ask(f"/collections/{name}").json() for name in ("sample", "town")
        )
        self.assertEqual(sample["storageCrs"], RD)
        self.assertIn(RD, sample["crs"])
        self.assertNotIn("crs", town)
        self.assertNotIn("extent", town)
        self.assertIn("names no coordinate reference system", town["description"])
        if pyproj is not None:
            west, south, east, north = sample["extent"]["spatial"]["bbox"][0]
            self.assertTrue(4 < west < east < 5 and 51 < south < north < 53)

    def test_api_names_every_path(self):
        paths = self.server.ask("/api").json()["paths"]
        self.assertEqual(
            set(paths),
            {
                "/",
                "/conformance",
                "/api",
                "/collections",
                "/collections/{collectionId}",
                "/collections/{collectionId}/queryables",
                "/check",
                "/filter",
                "/collections/{collectionId}/items",
                "/collections/{collectionId}/items/{featureId}",
            },
        )

    def test_the_definition_of_the_api_is_whole(self):
        told = self.server.ask("/api").json()

        def followed(value):
            if isinstance(value, dict):
                if "$ref" in value:
                    found = told
                    for name in value["$ref"].split("/")[1:]:
                        found = found[name]
                    return followed(found)
                return {name: followed(each) for name, each in value.items()}
            return [followed(each) for each in value] if isinstance(value, list) else value

        names = []
        for path, operations in followed(told["paths"]).items():
            for operation in operations.values():
                names.append(operation["operationId"])
                given = {each["name"] for each in operation["parameters"] if each["in"] == "path"}
                self.assertEqual(given, set(re.findall(r"{(\w+)}", path)))
                for each in operation["parameters"]:
                    self.assertTrue(each["schema"] and each["description"])
                for status, answer in operation["responses"].items():
                    self.assertRegex(status, r"[1-5]\d\d|default")
                    self.assertTrue(answer["description"] and answer["content"])
        self.assertEqual(len(names), len(set(names)))

    def test_every_answer_has_the_security_headers(self):
        for path in (
            "/",
            "/?f=html",
            "/none",
            "/static/page.js",
            "/collections/sample/items?f=city-json-seq",
        ):
            headers = self.server.ask(path).headers
            self.assertIn("frame-ancestors 'none'", headers["Content-Security-Policy"])
            self.assertNotIn("unsafe", headers["Content-Security-Policy"])
            self.assertEqual(headers["X-Content-Type-Options"], "nosniff")
            self.assertEqual(headers["Referrer-Policy"], "no-referrer")
            self.assertIsNone(headers["Access-Control-Allow-Origin"])

    def test_pages_load_nothing_from_elsewhere(self):
        for path in (
            "/",
            "/api",
            "/collections",
            "/conformance",
            "/collections/sample",
            "/collections/sample/items",
            "/collections/town/items/house-1",
        ):
            page = self.server.ask(path, Accept="text/html").body.decode()
            for found in re.findall(
                r'<(?:script|img|link|iframe)[^>]*(?:src|href)="([^"]*)"', page
            ):
                self.assertRegex(found, r"\A(?:/static/|" + re.escape(self.server.url) + ")", found)
            self.assertNotRegex(page, r"<script>|\son[a-z]+=|style=")


@unittest.skipIf(MISSING, MISSING)
class Cuts(Served):
    def seq(self, name, query):
        answer = self.server.ask(f"/collections/{name}/items?f=city-json-seq&{query}")
        self.assertEqual(answer.status, 200, answer.body)
        return answer.body

    def test_a_cut_is_what_filter_writes(self):
        for name, query, words in (
            ("sample", "", ()),
            ("town", "", ()),
            ("equal", "", ()),
            ("hostile", "", ()),
            ("sample", "bbox=84700,447450,84800,447550", ("--bbox", "84700,447450,84800,447550")),
            ("town", "bbox=1001,2001,1005,2005", ("--bbox", "1001,2001,1005,2005")),
            (
                "town",
                "type=Road,SolitaryVegetationObject",
                ("--type", "Road,SolitaryVegetationObject"),
            ),
            ("sample", "lod=2.2", ("--lod", "2.2")),
            ("sample", "lod=2.9", ("--lod", "2.9")),
            ("town", "ids=house-1,house-2", ("--id", "house-1,house-2")),
            (
                "sample",
                "type=BuildingPart&lod=2.2&bbox=84700,447450,85000,447600",
                ("--type", "BuildingPart", "--lod", "2.2", "--bbox", "84700,447450,85000,447600"),
            ),
        ):
            with self.subTest(name=name, query=query):
                self.assertEqual(self.seq(name, query), self.filtered(name, *words))

    def test_boxes_by_chance(self):
        chance = random.Random(60)
        for _ in range(40):
            x, y = chance.uniform(84500, 85200), chance.uniform(447300, 447800)
            box = ",".join(
                f"{edge:.3f}"
                for edge in (x, y, x + chance.uniform(0, 300), y + chance.uniform(0, 300))
            )
            wanted = io.BytesIO()
            cityseq.filter(self.folder / "sample.city.jsonl", wanted, box=box)
            self.assertEqual(self.seq("sample", f"bbox={box}"), wanted.getvalue(), box)

    def test_pages_have_each_feature_once(self):
        for name, limit, count in (
            ("equal", 10, 57),
            ("sample", 7, 120),
            ("sample", 120, 120),
            ("hostile", 1, len(HOSTILE)),
        ):
            wanted = [found.line for found in cityseq.features(self.folder / f"{name}.city.jsonl")]
            path, lines, pages = (
                f"/collections/{name}/items?limit={limit}&crs={RD if name == 'sample' else ''}",
                [],
                0,
            )
            path = path if name == "sample" else path.rpartition("&")[0]
            while path:
                told = self.server.ask(path).json()
                self.assertEqual(told["numberReturned"], len(told["features"]))
                self.assertEqual(told["numberMatched"], count)
                lines += [each["properties"]["line"] for each in told["features"]]
                following = [link["href"] for link in told["links"] if link["rel"] == "next"]
                path, pages = (
                    following[0][len(self.server.url) - 1 :] if following else "",
                    pages + 1,
                )
            self.assertEqual(lines, wanted)
            self.assertEqual(pages, -(-count // limit))

    def test_pages_of_lines_are_the_whole(self):
        path, text = "/collections/sample/items?f=city-json-seq&limit=11&lod=2.2", b""
        while path:
            answer = self.server.ask(path)
            header, _, lines = answer.body.partition(b"\n")
            text += lines
            link = re.match(r'<([^>]*)>; rel="next"', answer.headers["Link"] or "")
            path = link.group(1)[len(self.server.url) - 1 :] if link else ""
        self.assertEqual(header + b"\n" + text, self.filtered("sample", "--lod", "2.2"))

    def test_candidates_are_the_rows_of_the_index_page_by_page(self):
        chance = random.Random(7)
        with cityseq.Index(self.folder / "all.gpkg") as index:
            for _ in range(60):
                x, y = chance.uniform(84500, 85200), chance.uniform(447300, 447800)
                work = index.work(
                    types=chance.choice((None, "BuildingPart")),
                    lods=chance.choice((None, ["2.2", "0"])),
                    box=chance.choice((None, (x, y, x + 200, y + 200))),
                )
                rows = list(index.rows(work))
                for stream in index.streams:
                    found, after, most = [], 0, chance.randrange(1, 50)
                    while True:
                        page = index.candidates(work, stream, after, most)
                        found += page
                        if len(page) < most:
                            break
                        after = page[-1][0]
                    self.assertEqual(
                        [row for _, row in found],
                        [row for row in rows if row.stream == stream.number],
                    )
                    self.assertEqual(
                        [number for number, _ in found], sorted({number for number, _ in found})
                    )

    def test_no_page_but_the_last_is_empty(self):
        """Where many candidates are not kept, the page goes on to those that are."""
        told = self.server.ask(f"/collections/sample/items?limit=1&lod=2.9&crs={RD}").json()
        self.assertEqual(
            (told["features"], [link for link in told["links"] if link["rel"] == "next"]), ([], [])
        )

    def test_more_than_the_most_is_said(self):
        with Serving("--max-features", "5", self.folder / "all.gpkg") as small:
            answer = small.ask("/collections/sample/items?f=city-json-seq")
            self.assertEqual(answer.status, 400)
            self.assertIn("more than 5 features", answer.json()["detail"])
            self.assertEqual(
                len(small.ask(f"/collections/sample/items?limit=50&crs={RD}").json()["features"]), 5
            )

    @unittest.skipIf(pyproj is None, "pyproj is not there")
    def test_longitude_and_latitude(self):
        told = self.server.ask("/collections/sample/items?limit=120").json()
        edges = [point for each in told["features"] for point in each["geometry"]["coordinates"][0]]
        self.assertTrue(all(4 < x < 5 and 51 < y < 53 for x, y in edges))
        answer = self.server.ask("/collections/sample/items?limit=1")
        self.assertEqual(answer.headers["Content-Crs"], f"<{CRS84}>")
        box = self.server.ask("/collections/sample").json()["extent"]["spatial"]["bbox"][0]
        near = ",".join(map(str, box))
        self.assertEqual(
            self.server.ask(f"/collections/sample/items?limit=120&bbox={near}").json()[
                "numberReturned"
            ],
            120,
        )
        self.assertEqual(
            self.server.ask("/collections/sample/items?bbox=0,0,1,1").json()["features"], []
        )

    def test_coordinates_of_the_stream(self):
        answer = self.server.ask(f"/collections/sample/items?limit=120&crs={RD}")
        self.assertEqual(answer.headers["Content-Crs"], f"<{RD}>")
        for told, found in zip(
            answer.json()["features"], cityseq.features(self.folder / "sample.city.jsonl")
        ):
            (west, east), (south, north), _ = found.extent
            ring = told["geometry"]["coordinates"][0]
            self.assertEqual((told["id"], told["properties"]["line"]), (found.id, found.line))
            self.assertEqual(
                [Decimal(repr(edge)) for edge in (*ring[0], *ring[2])], [west, south, east, north]
            )

    def test_one_feature(self):
        text = self.filtered("town", "--id", "house-1")
        self.assertEqual(
            self.server.ask("/collections/town/items/house-1?f=city-json-seq").body, text
        )
        told = self.server.ask("/collections/town/items/house-1?f=city-json").json()
        header, line = map(json.loads, text.splitlines())
        self.assertEqual(
            told, {**header, "CityObjects": line["CityObjects"], "vertices": line["vertices"]}
        )
        self.assertEqual(self.server.ask("/collections/town/items/house-1").json()["id"], "house-1")

    def test_hostile_ids_are_found_and_escaped(self):
        page = self.server.ask(
            "/collections/hostile/items?limit=50", Accept="text/html"
        ).body.decode()
        self.assertNotIn("<script>alert", page)
        self.assertIn(html.escape("<script>alert(1)</script>", quote=False), page)
        self.assertNotIn("\u202e", page)
        self.assertLess(len(page), 60_000)
        for name in HOSTILE:
            if "\ud800" in name or len(name) > 8_000:
                continue
            path = f"/collections/hostile/items/{quote(name, safe='')}"
            self.assertEqual(self.server.ask(path).json()["id"], name)
            self.assertEqual(self.server.ask(path, Accept="text/html").status, 200)
        told = self.server.ask("/collections/hostile/items?limit=50").json()
        self.assertEqual([each["id"] for each in told["features"]], list(HOSTILE))

    def test_a_stream_that_changed(self):
        path = self.folder / "later.city.jsonl"
        path.write_bytes(HEADER + feature("a"))
        command("index", "--output", str(self.folder / "later.gpkg"), str(path))
        with Serving(self.folder / "later.gpkg") as later:
            self.assertEqual(later.ask("/collections/later/items").status, 200)
            path.write_bytes(HEADER + feature("b"))
            answer = later.ask("/collections/later/items")
            self.assertEqual(
                (answer.status, answer.headers["Content-Type"]), (502, "application/problem+json")
            )
            self.assertIn("out of date", answer.json()["detail"])
            self.assertNotIn(str(self.folder), answer.body.decode())
            command("index", "--output", str(self.folder / "later.gpkg"), str(path))
            time.sleep(1.1)
            self.assertEqual(later.ask("/collections/later/items").json()["features"][0]["id"], "b")
            (self.folder / "later.gpkg").unlink()
            time.sleep(1.1)
            self.assertEqual(later.ask("/collections/later/items").status, 200)

    def test_many_clients_at_once(self):
        wanted = self.filtered("sample")
        answers = []
        threads = [
            threading.Thread(target=lambda: answers.append(self.seq("sample", "")))
            for _ in range(40)
        ]
        for each in threads:
            each.start()
        for each in threads:
            each.join()
        self.assertEqual(answers, [wanted] * 40)


@unittest.skipIf(MISSING, MISSING)
class Others(Served):
    @unittest.skipIf(shutil.which("ogrinfo") is None, "ogrinfo is not there")
    def test_gdal(self):
        ran = subprocess.run(
            ["ogrinfo", "-ro", "-al", "-so", f"OAPIF:{self.server.url}"],
            stdout=subprocess.PIPE,
            stderr=subprocess.STDOUT,
            timeout=300,
        )
        said = ran.stdout.decode()
        self.assertEqual(ran.returncode, 0, said)
        for text in (
            "Layer name: sample",
            "Feature Count: 120",
            "Layer name: town",
            "Feature Count: 4",
            "types: String",
        ):
            self.assertIn(text, said)
        words = ["ogrinfo", "-ro", "-q", "-oo", "PAGE_SIZE=7", f"OAPIF:{self.server.url}", "equal"]
        ran = subprocess.run(words, stdout=subprocess.PIPE, timeout=300)
        self.assertEqual(ran.stdout.decode().count("OGRFeature"), 57)

    @unittest.skipIf(Features is None, "owslib is not there")
    def test_owslib(self):
        client = Features(self.server.url)
        self.assertIn(
            "http://www.opengis.net/spec/ogcapi-features-1/1.0/conf/core",
            client.conformance()["conformsTo"],
        )
        self.assertEqual(set(client.feature_collections()), {"sample", "town", "hostile", "equal"})
        self.assertEqual(client.api()["openapi"], "3.0.3")
        self.assertEqual(client.collection("town")["id"], "town")
        told = client.collection_items("town", limit=2, bbox=[1001, 2001, 1005, 2005])
        self.assertEqual(told["numberReturned"], len(told["features"]))
        self.assertEqual(client.collection_item("town", "house-1")["id"], "house-1")

    @unittest.skipIf(shutil.which("curl") is None, "curl is not there")
    def test_curl(self):
        path = self.folder / "packed.city.jsonl.gz"
        path.write_bytes(gzip.compress((EXAMPLES / "broken.city.jsonl").read_bytes()))
        ran = subprocess.run(
            ["curl", "-sS", "--data-binary", f"@{path}", f"{self.server.url}check"],
            stdout=subprocess.PIPE,
            timeout=300,
        )
        report, result = map(json.loads, ran.stdout.splitlines())
        self.assertEqual(
            (report["line"], report["byte"], report["code"], result["verdict"]),
            (3, 144, 25, "invalid"),
        )
        words = ["curl", "-sS", "-T", "-", f"{self.server.url}filter?type=Road", "-X", "POST"]
        ran = subprocess.run(
            words,
            stdout=subprocess.PIPE,
            timeout=300,
            input=(EXAMPLES / "town.city.jsonl").read_bytes(),
        )
        self.assertEqual(ran.stdout, self.filtered("town", "--type", "Road"))
