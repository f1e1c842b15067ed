"""The server: what the standard asks of its answers (17-069r4 and 18-058), point by point."""
import html
import random
import re
import unittest
from importlib.util import find_spec
from urllib.parse import quote

from .serving import MISSING, RD, Served, Serving
from .support import HEADER, command, feature

CRS84 = "http://www.opengis.net/def/crs/OGC/1.3/CRS84"
SWEDEN = "http://www.opengis.net/def/crs/EPSG/0/5845"  # SWEREF99 TM and RH2000: north, east, up
IN_RD = "bbox=84700,447450,84800,447550"
QUERYABLES = "http://www.opengis.net/def/rel/ogc/1.0/queryables"
HAS_PYPROJ = find_spec("pyproj") is not None
GETS = (
    "/",
    "/conformance",
    "/api",
    "/collections",
    "/collections/town",
    "/collections/town/items",
    "/collections/town/items/house-1",
)


def links_of(answer):
    """The links of an answer: those of its body, or of its header Link."""
    if "json" in answer.headers["Content-Type"] and "city" not in answer.headers["Content-Type"]:
        told = answer.json()
        return told.get("links", []) + [
            link for each in told.get("collections", []) for link in each["links"]
        ]
    return [
        {"href": href, "rel": rel, "type": kind}
        for href, rel, kind in re.findall(
            r'<([^>]*)>; rel="([^"]*)"; type="([^"]*)"', answer.headers["Link"] or ""
        )
    ]


def rels_of(answer):
    return sorted(link["rel"] for link in links_of(answer))


@unittest.skipIf(MISSING, MISSING)
class Links(Served):
    def path_of(self, link):
        self.assertTrue(link["href"].startswith(self.server.url), link)
        return link["href"][len(self.server.url) - 1 :]

    def test_each_link_leads_to_what_it_says(self):
        coming = [
            "/",
            f"/collections/sample/items?crs={RD}&limit=50&{IN_RD}&bbox-crs={RD}",
            "/collections/town/items?type=Road,Building&limit=2",
            "/collections/town/items/house-1?f=city-json",
            "/collections/equal/items?f=city-json-seq&limit=30&datetime=../2020-01-01T00:00:00Z",
        ]
        if HAS_PYPROJ:
            coming += [f"/collections/sample/items?crs={CRS84}&limit=50&lod=2.2"]
            coming += [
                f"/collections/sample/items/{self.name_of('sample')}?crs={uri}"
                for uri in (CRS84, RD)
            ]
        seen = set(coming)
        while coming:
            path = coming.pop()
            for link in links_of(self.server.ask(path)):
                there = self.path_of(link)
                if there in seen:
                    continue
                seen.add(there)
                coming.append(there)
                answer = self.server.ask(there, Accept="*/*" if "f=" in there else link["type"])
                self.assertEqual(answer.status, 200, (path, link, answer.body))
                self.assertEqual(
                    answer.headers["Content-Type"].replace("; charset=utf-8", ""),
                    link["type"],
                    link,
                )
        self.assertGreater(len(seen), 60)

    def name_of(self, collection):
        told = self.server.ask(f"/collections/{collection}/items?limit=1&crs={RD}").json()
        return quote(told["features"][0]["id"], safe="")

    def test_a_document_leads_to_itself(self):
        for path in (
            f"/collections/sample/items?limit=3&crs={RD}&{IN_RD}",
            "/collections/town/items?ids=house-1,house-2",
            f"/collections/sample/items/{self.name_of('sample')}?crs={RD}",
            "/collections/town/items?f=city-json-seq&limit=1",
            "/collections/town/items/house-1?f=city-json",
        ):
            answer = self.server.ask(path)
            (own,) = (link for link in links_of(answer) if link["rel"] == "self")
            again = self.server.ask(self.path_of(own))
            self.assertEqual(
                re.sub(rb'"timeStamp":"[^"]*"', b"", again.body),
                re.sub(rb'"timeStamp":"[^"]*"', b"", answer.body),
            )
            self.assertEqual(again.headers["Content-Crs"], answer.headers["Content-Crs"])

    def test_each_answer_has_the_links_that_are_required(self):
        items, one = "/collections/town/items", "/collections/town/items/house-1"
        for path, wanted in (
            ("/", ["alternate", "conformance", "data", "self", "service-desc", "service-doc"]),
            ("/conformance", ["alternate", "self"]),
            ("/collections/town", ["alternate", QUERYABLES, "items", "items", "items", "self"]),
            (f"{items}?limit=1", ["alternate", "alternate", "collection", "next", "self"]),
            (items, ["alternate", "alternate", "collection", "self"]),
            (
                f"{items}?f=city-json-seq&limit=1",
                ["alternate", "alternate", "collection", "next", "self"],
            ),
            (one, ["alternate", "alternate", "alternate", "collection", "self"]),
            (f"{one}?f=city-json", ["alternate", "alternate", "alternate", "collection", "self"]),
            (
                f"{one}?f=city-json-seq",
                ["alternate", "alternate", "alternate", "collection", "self"],
            ),
        ):
            self.assertEqual(rels_of(self.server.ask(path)), wanted, path)

    def test_long_links_leave_only_the_next_page(self):
        """A proxy may refuse a long head."""
        names = ",".join(["same", *(f"none-{number}" for number in range(500))])
        answer = self.server.ask(f"/collections/equal/items?f=city-json-seq&limit=1&ids={names}")
        self.assertEqual(rels_of(answer), ["next"])

    def test_the_next_page_is_in_the_head_too(self):
        """Of each format, as the body of GeoJSON has it."""
        for form in ("geojson", "city-json-seq"):
            answer = self.server.ask(f"/collections/equal/items?limit=30&f={form}")
            found = re.search(r'<([^>]*)>; rel="next"', answer.headers["Link"])
            self.assertIn("after=30&", found.group(1), form)
        told = self.server.ask("/collections/equal/items?limit=30&f=geojson").json()
        self.assertIn(
            self.server.ask("/collections/equal/items?limit=30")
            .headers["Link"]
            .partition(">")[0][1:],
            [link["href"] for link in told["links"]],
        )
        self.assertIsNone(
            self.server.ask("/collections/equal/items?limit=57&f=geojson").headers["Link"]
        )

    def test_pages_have_all_links(self):
        for path in (*GETS, "/collections/town/items?limit=1&type=Road,Building"):
            form = "openapi" if path == "/api" else "geojson" if "items" in path else "json"
            sign = "&" if "?" in path else "?"
            told = self.server.ask(f"{path}{sign}f={form}").json()
            page = self.server.ask(f"{path}{sign}f=html").body.decode()
            there = {html.unescape(href) for href in re.findall(r'<a [^>]*href="([^"]*)"', page)}
            for link in told.get("links", []):
                wanted = (
                    re.sub("f=geojson", "f=html", link["href"])
                    if link["rel"] == "next"
                    else link["href"]
                )
                wanted = wanted.replace("limit=1000&", "limit=50&")  # a page has fewer
                self.assertIn(wanted, there, path)
        page = html.unescape(self.server.ask("/collections?f=html").body.decode())
        for link in self.server.ask("/collections/town").json()["links"]:
            if link["rel"] == "items":
                self.assertIn(f'href="{link["href"]}"', page)

    def test_names_with_commas_stay_whole_from_page_to_page(self):
        path = self.folder / "commas.city.jsonl"
        names = ["a,b", "a", "b", "a,b", "&limit=9", "a,b", "a+b c"]
        path.write_bytes(HEADER + b"".join(map(feature, names)))
        command("index", "--output", str(self.folder / "commas.gpkg"), str(path))
        with Serving(self.folder / "commas.gpkg") as server:
            for asked, wanted in (
                ("a%2Cb", ["a,b"] * 3),
                ("a%2Cb,a", ["a,b", "a", "a,b", "a,b"]),
                ("a,b", ["a", "b"]),
                ("%26limit=9,a%2Bb+c", ["&limit=9", "a+b c"]),
            ):
                for form in ("geojson", "city-json-seq"):
                    found, following = [], f"/collections/commas/items?limit=1&f={form}&ids={asked}"
                    while following:
                        answer = server.ask(following)
                        told = (
                            answer.json()["features"] if form == "geojson" else answer.lines()[1:]
                        )
                        found += [each["id"] for each in told]
                        links = [link["href"] for link in links_of(answer) if link["rel"] == "next"]
                        following = links[0][len(server.url) - 1 :] if links else ""
                    self.assertEqual(found, wanted, (asked, form))

    def test_names_that_no_url_can_have(self):
        path = self.folder / "dots.city.jsonl"
        path.write_bytes(HEADER + b"".join(map(feature, (".", "..", "...", "a/.."))))
        command("index", "--output", str(self.folder / "dots.gpkg"), str(path))
        with Serving(self.folder / "dots.gpkg") as server:
            told = server.ask("/collections/dots/items").json()["features"]
            self.assertEqual([each["id"] for each in told], [".", "..", "...", "a/.."])
            page = server.ask("/collections/dots/items?f=html").body.decode()
            there = re.findall(r'<a href="[^"]*/items/([^"?]*)\?', page)
            self.assertEqual(sorted(set(there)), ["...", "a%2F.."])
            self.assertEqual(page.count("<rect"), 4)
            for name in ("...", "a%2F.."):
                self.assertEqual(server.ask(f"/collections/dots/items/{name}").status, 200)


@unittest.skipIf(MISSING, MISSING)
class Requests(Served):
    def test_a_parameter_that_is_not_known(self):
        for path in GETS:
            for query in ("nothing=1", "F=json", "f=json&f=json", "%ff=1"):
                answer = self.server.ask(f"{path}?{query}")
                self.assertEqual(
                    (answer.status, answer.headers["Content-Type"]),
                    (400, "application/problem+json"),
                    path,
                )

    def test_more_than_the_most_features_is_no_mistake(self):
        """The standard: a limit above the maximum is the maximum."""
        for limit in ("100001", "9" * 15, "9" * 16, "9" * 400, "0" * 400 + "1"):
            self.assertEqual(
                self.server.ask(f"/collections/equal/items?limit={limit}").status, 200, limit
            )
        for limit in ("0" * 400, "-" + "9" * 400, "9" * 400 + "x", "%D9%A1" * 40):
            self.assertEqual(
                self.server.ask(f"/collections/equal/items?limit={limit}").status, 400, limit
            )

    def test_times(self):
        items = "/collections/town/items"
        for time in (
            "2020-02-29",
            "2020-01-01T00:00:00Z",
            "2020-01-01t00:00:00.5z",
            "2016-12-31T23:59:60Z",
            "../2020-01-01",
            "2020-01-01T00:00:00%2B01:00/..",
            "2020-01-01/",
            "2020-01-01/2021-01-01",
        ):
            self.assertEqual(
                self.server.ask(f"{items}?datetime={time}").json()["numberReturned"], 4, time
            )
        for time in (
            "2021-02-29",
            "2020-13-01",
            "2020-01-01T24:00:00Z",
            "2020-01-01T00:61:00Z",
            "2020-01-01T00:00:61Z",
            "2020-01-01T00:00:00",
            "2020-01-01T00:00:00%2B25:00",
            "..",
            "",
            "2020",
            "2020-01-01/2020-99-99",
        ):
            self.assertEqual(self.server.ask(f"{items}?datetime={time}").status, 400, time)

    def test_each_method_at_each_path(self):
        for path in (*GETS, "/static/page.css"):
            whole, head = self.server.ask(path), self.server.ask(path, "HEAD")
            self.assertEqual((head.status, head.body), (200, b""), path)
            for name in ("Content-Type", "Content-Length", "Content-Crs", "Link"):
                self.assertEqual(head.headers[name], whole.headers[name], (path, name))
            for method in ("POST", "PUT", "PATCH", "DELETE", "OPTIONS"):
                answer = self.server.ask(path, method)
                self.assertEqual(
                    (answer.status, answer.headers["Content-Type"]),
                    (405, "application/problem+json"),
                    path,
                )
                self.assertIn("GET", answer.headers["Allow"])
        for path in ("/check", "/filter"):
            for method in ("GET", "HEAD", "PUT"):
                answer = self.server.ask(path, method)
                self.assertEqual((answer.status, answer.headers["Allow"]), (405, "POST"))

    def test_a_client_accepts_in_several_lines(self):
        connection = self.server.connect()
        try:
            connection.putrequest("GET", "/collections/town/items")
            for line in ("image/png", "text/html;q=0.4", "application/city+json-seq;q=0.5"):
                connection.putheader("Accept", line)
            connection.endheaders()
            answer = connection.getresponse()
            answer.read()
            self.assertEqual(answer.headers["Content-Type"], "application/city+json-seq")
        finally:
            connection.close()

    def test_formats_by_name(self):
        for path, name, wanted in (
            ("/api", "json", "application/vnd.oai.openapi+json;version=3.0"),
            ("/", "json", "application/json"),
            ("/collections/town/items", "json", "application/geo+json"),
            ("/collections/town/items/house-1", "cityjson", "application/city+json"),
        ):
            self.assertEqual(
                self.server.ask(f"{path}?f={name}", Accept="text/html").headers["Content-Type"],
                wanted,
            )
        for path, name in (
            ("/", "geojson"),
            ("/api", "city-json"),
            ("/collections/town/items", "city-json"),
            ("/api", "x"),
        ):
            self.assertEqual(self.server.ask(f"{path}?f={name}").status, 400, (path, name))


@unittest.skipIf(MISSING, MISSING)
class Definition(Served):
    """The definition of the API says what the server does."""

    def operations(self):
        told = self.server.ask("/api").json()
        for path, methods in told["paths"].items():
            for method, operation in methods.items():
                given = [
                    told["components"]["parameters"][each["$ref"].rsplit("/", 1)[1]]
                    if "$ref" in each
                    else each
                    for each in operation["parameters"]
                ]
                place = path.replace("{collectionId}", "town").replace("{featureId}", "house-1")
                yield place, method, operation, {
                    each["name"]: each for each in given if each["in"] == "query"
                }

    def test_parameters(self):
        judging = {"keep_going", "tree", "extensions", "line_limit", "depth", "max_reports"}
        wanted = {
            "/collections/town/items": {
                "bbox",
                "bbox-crs",
                "datetime",
                "ids",
                "type",
                "lod",
                "filter",
                "filter-lang",
                "filter-crs",
                "crs",
                "limit",
                "after",
                "mark",
                "f",
            },
            "/collections/town/items/house-1": {"f", "crs"},
            "/check": {*judging, "summary"},
            "/filter": {*judging, "exclude", "id", "type", "lod", "bbox", "verdict"},
        }
        for place, _, _, given in self.operations():
            self.assertEqual(set(given), wanted.get(place, {"f"}), place)

    def test_values_of_parameters(self):
        for place, method, _, given in self.operations():
            for name, each in given.items():
                schema = each["schema"]
                values = schema.get(
                    "enum",
                    [schema[edge] for edge in ("default", "minimum", "maximum") if edge in schema],
                )
                for value in values:
                    text = str(value).lower() if isinstance(value, bool) else value
                    body = HEADER + feature("a") if method == "post" else None
                    answer = self.server.ask(f"{place}?{name}={text}", method.upper(), body)
                    is_small = (
                        name in ("line_limit", "depth") and value == 1
                    )  # the stream has longer lines
                    self.assertIn(
                        answer.status,
                        (200, 422) if is_small else (200,),
                        (place, name, value, answer.body),
                    )
                if schema["type"] == "integer" and name != "limit":
                    for value in (schema["minimum"] - 1, schema.get("maximum", 1 << 70) + 1):
                        answer = self.server.ask(
                            f"{place}?{name}={value}",
                            method.upper(),
                            HEADER if method == "post" else None,
                        )
                        self.assertEqual(answer.status, 400, (place, name, value))

    def test_media_types(self):
        for place, method, operation, _ in self.operations():
            if method == "get":
                for wanted in operation["responses"]["200"]["content"]:
                    answer = self.server.ask(place, Accept=wanted)
                    self.assertEqual(
                        answer.headers["Content-Type"].replace("; charset=utf-8", ""), wanted, place
                    )


@unittest.skipIf(MISSING, MISSING)
class Coordinates(Served):
    def test_the_system_of_each_answer(self):
        for path, wanted in (
            (f"items?crs={RD}", RD),
            ("items?f=city-json-seq", RD),
            (f"items?f=city-json-seq&crs={RD}", RD),
            ("items?f=html", RD),
            *([("items", CRS84), (f"items?crs={CRS84}", CRS84)] if HAS_PYPROJ else []),
        ):
            self.assertEqual(
                self.server.ask(f"/collections/sample/{path}").headers["Content-Crs"],
                f"<{wanted}>",
                path,
            )
        for form in ("geojson", "city-json-seq", "city-json", "html"):
            answer = self.server.ask(f"/collections/town/items/house-1?f={form}")
            self.assertEqual((answer.status, answer.headers["Content-Crs"]), (200, None), form)

    @unittest.skipIf(not HAS_PYPROJ, "pyproj is not there")
    def test_only_what_reaches_into_a_box_of_degrees(self):
        """Around it there is a larger box in the coordinates of the stream."""
        told = self.server.ask("/collections/sample/items?limit=120").json()["features"]
        rings = {each["properties"]["line"]: each["geometry"]["coordinates"][0] for each in told}
        west, south, east, north = self.server.ask("/collections/sample").json()["extent"][
            "spatial"
        ]["bbox"][0]
        chance, count = random.Random(84), 0
        for _ in range(60):
            (left, right), (low, high) = (
                sorted(chance.uniform(*edges) for _ in range(2))
                for edges in ((west, east), (south, north))
            )
            answer = self.server.ask(
                f"/collections/sample/items?limit=120&bbox={left!r},{low!r},{right!r},{high!r}"
            ).json()
            found = {each["properties"]["line"] for each in answer["features"]}
            for line, ring in rings.items():
                (x, y), (_, _), (last_x, last_y), _, _ = ring
                if line in found:
                    self.assertTrue(
                        x <= right and last_x >= left and y <= high and last_y >= low, (line, ring)
                    )
                else:
                    self.assertFalse(
                        left <= (x + last_x) / 2 <= right and low <= (y + last_y) / 2 <= high,
                        (line, ring),
                    )
            count += len(found)
        self.assertGreater(count, 500)

    @unittest.skipIf(not HAS_PYPROJ, "pyproj is not there")
    def test_axes_have_the_order_of_the_system(self):
        """A stream has east first. In this system north is first, and so it is in answers and in boxes."""
        path = self.folder / "north.city.jsonl"
        header = HEADER.replace(
            b'"CityObjects"',
            b'"metadata":{"referenceSystem":"%b"},"CityObjects"'
            % SWEDEN.replace("http:", "https:").encode(),
            1,
        ).replace(b"[10,20,0]", b"[674000,6580000,0]")
        path.write_bytes(header + feature("a") + feature("b", x=100_000_000))
        command("index", "--output", str(self.folder / "north.gpkg"), str(path))
        with Serving(self.folder / "north.gpkg") as server:
            items = "/collections/north/items"
            ring = server.ask(f"{items}?ids=a&crs={SWEDEN}").json()["features"][0]["geometry"][
                "coordinates"
            ][0]
            self.assertEqual(
                ([min(axis) for axis in zip(*ring)], [max(axis) for axis in zip(*ring)]),
                ([6580000, 674000], [6580001, 674001]),
            )
            for box in (
                f"bbox=6579999,673999,6580002,674002&bbox-crs={SWEDEN}",
                "bbox=673999,6579999,674002,6580002",
            ):
                self.assertEqual(
                    [each["id"] for each in server.ask(f"{items}?{box}").json()["features"]],
                    ["a", "b"],
                    box,
                )
            for box in (
                f"bbox=6579999,700000,6580002,900000&bbox-crs={SWEDEN}",
                "bbox=700000,6579999,900000,6580002",
            ):
                self.assertEqual(
                    [each["id"] for each in server.ask(f"{items}?{box}").json()["features"]],
                    ["b"],
                    box,
                )
            self.assertEqual(
                server.ask(f"{items}?bbox=673999,6579999,674002,6580002&bbox-crs={SWEDEN}").json()[
                    "features"
                ],
                [],
            )
            west, south, east, north = server.ask("/collections/north").json()["extent"]["spatial"][
                "bbox"
            ][0]
            self.assertTrue(17 < west < 19 and 58 < south < 60, (west, south))
            page = server.ask(f"{items}?f=html").body.decode()
            self.assertIn("miny,minx,maxy,maxx", page)
            self.assertIn('placeholder="6580000,674000,', page)
            self.assertIn(
                "<code>6580000, 674000, 6580001, 674001</code>",
                server.ask(f"{items}/a?f=html").body.decode(),
            )


@unittest.skipIf(MISSING, MISSING)
class Conformance(Served):
    def test_all_classes(self):
        told = self.server.ask("/conformance").json()["conformsTo"]
        first, second, third = (
            f"http://www.opengis.net/spec/ogcapi-features-{part}/1.0/conf/" for part in (1, 2, 3)
        )
        language = "http://www.opengis.net/spec/cql2/1.0/conf/"
        wanted = [
            f"{first}core",
            f"{first}geojson",
            f"{first}html",
            f"{first}oas30",
            f"{second}crs",
            f"{third}queryables",
            f"{third}queryables-query-parameters",
        ]
        if find_spec("lark") is not None:
            wanted += [f"{third}features-filter", f"{third}filter"]
            wanted += [
                f"{language}{each}"
                for each in ("advanced-comparison-operators", "basic-cql2", "cql2-text")
            ]
        self.assertEqual(told, sorted(wanted) if HAS_PYPROJ else [])

    def test_none_without_longitude_and_latitude(self):
        other = self.folder / "without"
        other.mkdir()
        (other / "pyproj.py").write_text("raise ImportError('none')")
        with Serving(self.folder / "all.gpkg", first_path=other) as without:
            self.assertEqual(without.ask("/conformance").json()["conformsTo"], [])
            self.assertIn("for want of pyproj", without.ask("/conformance?f=html").body.decode())
