"""The server: answers as browsers and caches take them."""
import gzip
import html
import http.client
import re
import unittest
from decimal import Decimal

import cityseq
from cityseq.coordinates import edges, short

from .serving import MISSING, RD, Served, Serving
from .support import HEADER, command, feature

ITEMS = "/collections/sample/items"
BROWSER = "text/html,application/xhtml+xml,application/xml;q=0.9,image/webp,*/*;q=0.8"


@unittest.skipIf(MISSING, MISSING)
class Answers(Served):
    def test_errors_are_pages_for_browsers(self):
        for path, status in (
            ("/none", 404),
            (f"{ITEMS}?f=html&bbox=<b>x</b>,1,2,3", 400),
            (f"{ITEMS}/<script>alert(1)<%2Fscript>", 404),
        ):
            answer = self.server.ask(path, Accept=BROWSER)
            page = answer.body.decode()
            self.assertEqual(
                (answer.status, answer.headers["Content-Type"]),
                (status, "text/html; charset=utf-8"),
            )
            self.assertIn("frame-ancestors 'none'", answer.headers["Content-Security-Policy"])
            self.assertNotRegex(page, "<b>|<script>")
            self.assertIn(
                html.escape(self.server.ask(path).json()["detail"]).replace("&#x27;", "&#39;"),
                page.replace("&#34;", "&quot;"),
            )
            for href in re.findall(r'href="([^"]*)"', page):
                self.assertTrue(href.startswith(("/", "#")), href)
        for accept in ("*/*", "application/json, text/html;q=0.5", "image/png"):
            self.assertEqual(
                self.server.ask("/none", Accept=accept).headers["Content-Type"],
                "application/problem+json",
                accept,
            )
        self.assertEqual(self.server.ask("/", Host="evil.example", Accept=BROWSER).status, 421)
        self.assertNotIn(
            'href="//evil', self.server.ask("/", Host="evil.example", Accept=BROWSER).body.decode()
        )

    def test_downloads_have_a_name(self):
        for path, wanted in (
            (f"{ITEMS}?f=city-json-seq", 'attachment; filename="sample.city.jsonl"'),
            (f"{ITEMS}?crs={RD}", 'inline; filename="sample.geojson"'),
            (
                "/collections/town/items/house-1?f=city-json",
                'attachment; filename="house-1.city.json"',
            ),
            (
                "/collections/hostile/items/'%22&?f=city-json-seq",
                'attachment; filename="stream.city.jsonl"',
            ),
            (
                "/collections/hostile/items/a%2Fb%3Fc%23d%20e?f=city-json-seq",
                'attachment; filename="a-b-c-d-e.city.jsonl"',
            ),
        ):
            self.assertEqual(self.server.ask(path).headers["Content-Disposition"], wanted, path)
        self.assertLess(
            len(
                self.server.ask("/collections/hostile/items?f=city-json-seq").headers[
                    "Content-Disposition"
                ]
            ),
            200,
        )

    def test_answers_are_packed_for_clients_that_take_it(self):
        for path in (
            "/api",
            "/static/page.css",
            f"{ITEMS}?f=city-json-seq",
            f"{ITEMS}?limit=50&crs={RD}",
            f"{ITEMS}?f=html",
        ):
            plain = self.server.ask(path)
            for accept in ("gzip", "deflate, gzip;q=0.5, br", "*"):
                packed = self.server.ask(path, Accept_Encoding=accept)
                self.assertEqual(packed.headers["Content-Encoding"], "gzip")
                self.assertEqual(int(packed.headers["Content-Length"]), len(packed.body))
                self.assertLess(len(packed.body), len(plain.body) / 2)
                self.assertEqual(gzip.decompress(packed.body), plain.body)
            for accept in ("identity", "gzip;q=0", "br", ""):
                self.assertIsNone(
                    self.server.ask(path, Accept_Encoding=accept).headers["Content-Encoding"]
                )
            self.assertIn("Accept-Encoding", plain.headers["Vary"])
        self.assertIsNone(
            self.server.ask("/none", Accept_Encoding="gzip").headers["Content-Encoding"]
        )

    def test_long_answers_are_packed_as_they_are_made(self):
        path = self.folder / "long.city.jsonl"
        path.write_bytes(HEADER + b"".join(feature(f"name-{number:06}") for number in range(9_000)))
        command("index", "--output", str(self.folder / "long.gpkg"), str(path))
        with Serving(self.folder / "long.gpkg") as server:
            answer = server.ask("/collections/long/items?f=city-json-seq", Accept_Encoding="gzip")
            self.assertEqual(answer.headers["Transfer-Encoding"], "chunked")
            self.assertEqual(gzip.decompress(answer.body), path.read_bytes())

    def test_an_answer_that_the_client_has_is_not_sent(self):
        for path in (
            "/",
            "/api?f=html",
            f"{ITEMS}?limit=5&crs={RD}",
            f"{ITEMS}?f=city-json-seq",
            "/collections/town/items/house-1",
            "/static/map.js",
        ):
            first = self.server.ask(path)
            mark = first.headers["ETag"]
            self.assertRegex(mark, r'\AW/"[0-9a-f]{32}"\Z')
            for known, encoding in (
                (mark, "gzip"),
                (f'"x", {mark}', "identity"),
                ("*", "identity"),
                (mark[2:], "gzip"),
            ):
                again = self.server.ask(path, If_None_Match=known, Accept_Encoding=encoding)
                self.assertEqual(
                    (again.status, again.body, again.headers["ETag"]),
                    (304, b"", mark),
                    (path, known),
                )
            self.assertEqual(self.server.ask(path, If_None_Match='W/"other"').body, first.body)
        self.assertNotEqual(
            self.server.ask("/").headers["ETag"], self.server.ask("/?f=html").headers["ETag"]
        )
        answer = self.server.ask("/check", "POST", HEADER, If_None_Match="*")
        self.assertEqual((answer.status, answer.headers["ETag"]), (200, None))

    def test_a_connection_goes_on_after_an_answer_without_a_body(self):
        connection = http.client.HTTPConnection(self.server.host, self.server.port, timeout=30)
        try:
            mark = None
            for method, status in (("GET", 200), ("HEAD", 304), ("GET", 304), ("GET", 304)):
                connection.request(
                    method, "/conformance", headers={"If-None-Match": mark} if mark else {}
                )
                answer = connection.getresponse()
                answer.read()
                self.assertEqual(answer.status, status)
                mark = answer.headers["ETag"]
        finally:
            connection.close()

    def test_numbers_have_the_digits_of_the_stream(self):
        told = self.server.ask(f"{ITEMS}?limit=120&crs={RD}").json()["features"]
        for each, found in zip(told, cityseq.features(self.folder / "sample.city.jsonl")):
            (west, east), (south, north), (low, high) = found.extent
            ring, facts = each["geometry"]["coordinates"][0], each["properties"]
            self.assertEqual(
                [Decimal(repr(edge)) for edge in (*ring[0], *ring[2])], [west, south, east, north]
            )
            self.assertEqual([Decimal(repr(facts[name])) for name in ("zmin", "zmax")], [low, high])
        self.assertEqual((short(20.863000000000003), short(None)), (20.863, None))
        self.assertEqual(
            edges((4.12345678912, -5.1, 4.12345678999, -5.00000000001), True),
            [4.123456789, -5.1, 4.12345679, -5.0],
        )

    def test_a_usual_page_is_long_for_programs_and_short_for_people(self):
        schema = self.server.ask("/api").json()["components"]["parameters"]["limit"]["schema"]
        self.assertEqual((schema["default"], schema["maximum"]), (1_000, 100_000))
        self.assertEqual(self.server.ask(f"{ITEMS}?crs={RD}").json()["numberReturned"], 120)
        self.assertIn(
            "<caption>50 features, and there are more</caption>",
            self.server.ask(f"{ITEMS}?f=html").body.decode(),
        )
        with Serving("--max-features", "5", self.folder / "all.gpkg") as small:
            schema = small.ask("/api").json()["components"]["parameters"]["limit"]["schema"]
            self.assertEqual((schema["default"], schema["maximum"]), (5, 5))

    def test_a_filter_can_be_emptied(self):
        page = self.server.ask(f"{ITEMS}?f=html&bbox=&limit=5&bbox-crs={RD}")
        self.assertEqual(page.status, 200)
        self.assertIn("<caption>5 features, and there are more</caption>", page.body.decode())
        self.assertNotIn("required", page.body.decode())
        self.assertNotRegex(page.body.decode(), r"[?&;]bbox=(?:&|\")")
        self.assertEqual(self.server.ask(f"{ITEMS}?bbox=").status, 400)
        self.assertIn('max="1000"', page.body.decode())

    def test_a_map_is_one_stop_of_the_tab_key(self):
        page = self.server.ask(f"{ITEMS}?f=html&limit=50").body.decode()
        drawing = page[page.index("<svg") : page.index("</svg>")]
        self.assertEqual(
            (drawing.count("<a "), drawing.count('tabindex="0"'), drawing.count('tabindex="-1"')),
            (50, 1, 49),
        )
        self.assertNotIn('role="img"', drawing)

    def test_an_id_that_no_query_can_have_is_no_link(self):
        path = self.folder / "lines.city.jsonl"
        path.write_bytes(HEADER + feature("x\\ny") + feature("x\\ty"))
        command("index", "--output", str(self.folder / "lines.gpkg"), str(path))
        with Serving(self.folder / "lines.gpkg") as server:
            page = server.ask("/collections/lines/items?f=html").body.decode()
            found = set(re.findall(r'href="[^"]*(/collections/lines/items/[^"]*)"', page))
            self.assertEqual(found, {"/collections/lines/items/x%09y?f=html"})
            self.assertEqual(server.ask(found.pop()).status, 200)
