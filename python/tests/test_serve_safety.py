"""The server: what it refuses, how it ends, and its parts one by one."""
import asyncio
import gzip
import json
import os
import pathlib
import re
import shutil
import signal
import socket
import subprocess
import sys
import threading
import time
import unittest
from contextlib import contextmanager
from http.server import ThreadingHTTPServer
from unittest import mock

import cityseq.serve

from .serving import MISSING, RD, Client, Served, Serving
from .support import HEADER, ROOT, command, feature
from .test_web import NGINX, Handler

GUNICORN = shutil.which("gunicorn")
MODULE = pathlib.Path("/usr/lib/nginx/modules/ngx_stream_module.so")

if not MISSING:
    import aiohttp.web

    from cityseq.coordinates import System
    from cityseq.serve.answers import CITY_JSON_SEQ, GEOJSON, HTML, Problem, choose, is_known
    from cityseq.serve.items import whole
    from cityseq.serve.parameters import STRING, Parameter, Query
    from cityseq.serve.process import _quoted
    from cityseq.serve.settings import Limits, Settings


def soon(is_so):
    """Whether something becomes so within half a minute."""
    end = time.monotonic() + 30
    while not is_so() and time.monotonic() < end:
        time.sleep(0.05)
    return is_so()


def accepts(server):
    """Whether a server takes connections."""
    try:
        socket.create_connection((server.host, server.port), 5).close()
        return True
    except OSError:
        return False


def free_port():
    with socket.socket() as found:
        found.bind(("127.0.0.1", 0))
        return found.getsockname()[1]


@contextmanager
def web_server(folder):
    """A web server of the files of a folder, by ranges: its URL, and the server itself."""
    web = ThreadingHTTPServer(("127.0.0.1", 0), Handler)
    web.mode, web.folder, web.ranges = "", str(folder), []
    web.connections, web.seen = 0, []
    web.handle_error = lambda *_: None  # a client may go away
    thread = threading.Thread(target=web.serve_forever, args=(0.01,))
    thread.start()
    try:
        yield f"http://127.0.0.1:{web.server_address[1]}", web
    finally:
        web.shutdown()
        thread.join()
        web.server_close()


@unittest.skipIf(MISSING, MISSING)
class Safety(Served):
    def test_hosts(self):
        for host, wanted in (
            ("localhost:8080", True),
            ("127.0.0.1", True),
            ("[::1]:80", True),
            ("10.1.2.3:9", True),
            ("a.localhost", True),
            ("evil.example", False),
            ("", False),
            ("localhost.evil.example", False),
            ("user@localhost", False),
            ("localhost/x", False),
            ("localhost:x", False),
            ("[::1", False),
            ("[fe80::1%a>b]", False),
            ("[FE80::1]", True),
            ("localhost:65536", False),
            ("127.1", False),
            ("localhost\t", False),
            ("local\u212ahost", False),
            ("127.0.0.1.evil.example", False),
        ):
            self.assertEqual(is_known(host, Settings()), wanted, host)
        settings = Settings(url="https://city.example.org/cities", names=("models.example",))
        self.assertTrue(
            is_known("city.example.org", settings) and is_known("models.example:80", settings)
        )
        self.assertEqual(self.server.ask("/", Host="evil.example").status, 421)

    def test_links_begin_with_the_url_that_is_set(self):
        with Serving("--url", "https://city.example.org/cities/", self.folder / "all.gpkg") as far:
            told = far.ask("/collections", Host="city.example.org").json()
            for link in told["links"] + [
                link for each in told["collections"] for link in each["links"]
            ]:
                self.assertTrue(
                    link["href"].startswith("https://city.example.org/cities/collections"), link
                )

    def test_settings_are_checked(self):
        packed = self.folder / "packed.city.jsonl.gz"
        packed.write_bytes(gzip.compress(HEADER + feature("a")))
        command("index", "--output", str(self.folder / "packed.gpkg"), str(packed))
        for words in (
            ("--base", "http://127.0.0.1:9/", str(self.folder / "packed.gpkg")),
            ("--url", "ftp://x"),
            ("--url", "https://x/?a=b"),
            ("--cors", "https://x/y"),
            ("--cors", "x"),
            ("--port", "65536"),
            ("--max-requests", "0"),
            ("--base", "x", str(self.folder / "all.gpkg")),
        ):
            _, said, status = command("serve", *words)
            self.assertEqual(status, 2, (words, said))
        for words in (
            (str(self.folder / "none.gpkg"),),
            (str(self.folder / "town.city.jsonl"),),
            ("--host", "192.0.2.1"),
        ):
            _, said, status = command("serve", "--port", "0", *words)
            self.assertEqual((status, said.count("\n")), (3, 1), said)

    def test_pages_elsewhere(self):
        self.assertEqual(
            self.server.ask("/check", "POST", HEADER, Origin="https://evil.example").status, 403
        )
        self.assertEqual(
            self.server.ask(
                "/check", "POST", HEADER, Origin=f"http://{self.server.host}:{self.server.port}"
            ).status,
            200,
        )
        self.assertEqual(self.server.ask("/check", "OPTIONS").status, 405)
        with Serving("--cors", "https://maps.example", self.folder / "all.gpkg") as open_server:
            answer = open_server.ask("/", Origin="https://maps.example")
            self.assertEqual(answer.headers["Access-Control-Allow-Origin"], "https://maps.example")
            self.assertEqual(open_server.ask("/check", "OPTIONS").status, 204)
            self.assertEqual(
                open_server.ask("/check", "POST", HEADER, Origin="https://maps.example").status, 200
            )
            self.assertEqual(
                open_server.ask("/check", "POST", HEADER, Origin="https://evil.example").status, 403
            )

    def test_log_lines(self):
        self.server.ask('/collections/x%0ay"\\?a', User_Agent='x"\\y\x1b[31m')
        wanted = re.compile(
            r'[0-9a-f.:]+ - - \[\d\d/[A-Z][a-z]{2}/\d{4}:\d\d:\d\d:\d\d \+0000\] "(?:[^"\\]|\\.)*" \d{3} \d+'
            r' "(?:[^"\\]|\\.)*" "(?:[^"\\]|\\.)*"\n\Z'
        )
        time.sleep(0.3)
        self.assertTrue(self.server.log)
        for line in list(self.server.log):
            self.assertRegex(line, wanted)
            self.assertTrue(line[:-1].isprintable(), line)
        self.assertEqual(
            _quoted('a"b\\c\r\n\x1b\u202e'), '"a\\"b\\\\c\\u000d\\u000a\\u001b\\u202e"'
        )

    def test_log_lines_have_the_bytes_of_bodies(self):
        body = HEADER + feature("b") * 9_000
        for path, method, sent in (
            ("/conformance?f=json", "GET", None),
            ("/conformance?f=html", "HEAD", None),
            ("/none?sized", "GET", None),
            ("/filter?keep_going", "POST", body),
            ("/check?summary", "POST", body),
        ):
            answer = self.server.ask(path, method, sent)
            ending = f'"{method} {path} HTTP/1.1" {answer.status} {len(answer.body)} '
            self.assertTrue(
                soon(lambda: any(ending in line for line in self.server.log)),
                (ending, self.server.log[-1]),
            )

    def test_a_stop_ends_open_answers(self):
        with Serving("--stop-seconds", "1", self.folder / "all.gpkg") as ending:
            with socket.create_connection((ending.host, ending.port), 30) as connection:
                connection.sendall(
                    b"POST /check HTTP/1.1\r\nHost: localhost\r\nContent-Length: 100\r\n\r\n"
                )
                time.sleep(1)
                begin = time.monotonic()
                self.assertEqual(ending.stop(), 0)
                self.assertLess(time.monotonic() - begin, 20)  # of --max-seconds there are 3,600
                try:
                    self.assertEqual(connection.recv(100), b"")
                except ConnectionError:
                    pass

    def test_a_stop_waits_for_open_answers(self):
        with Serving(self.folder / "all.gpkg") as ending:
            with socket.create_connection((ending.host, ending.port), 30) as connection:
                connection.sendall(
                    b"POST /check HTTP/1.1\r\nHost: localhost\r\nContent-Length: %d\r\n\r\n"
                    % len(HEADER)
                )
                time.sleep(1)
                ending.process.terminate()
                self.assertTrue(soon(lambda: not accepts(ending)))
                connection.sendall(HEADER)
                answer = b"".join(iter(lambda: connection.recv(4096), b""))
                self.assertIn(b'"verdict": "valid"', answer)
            self.assertEqual(ending.stop(), 0)

    @unittest.skipIf(GUNICORN is None, "gunicorn is not there")
    def test_processes_of_gunicorn(self):
        """Two processes answer, and one that ends is replaced. A body is unpacked within its limit."""
        port = free_port()
        words = [
            GUNICORN,
            "--bind",
            f"127.0.0.1:{port}",
            "--workers",
            "2",
            "--graceful-timeout",
            "2",
            "--worker-class",
            "aiohttp.GunicornWebWorker",
            f"cityseq.serve:runner({str(self.folder / 'all.gpkg')!r}, jobs=1)",
        ]
        many = Client()
        many.host, many.port = "127.0.0.1", port
        with subprocess.Popen(
            words,
            env={**os.environ, "PYTHONPATH": os.path.join(ROOT, "python")},
            stdout=subprocess.PIPE,
            stderr=subprocess.DEVNULL,
        ) as process:
            try:
                children = pathlib.Path(f"/proc/{process.pid}/task/{process.pid}/children")
                self.assertTrue(soon(lambda: accepts(many)))
                for _ in range(2):
                    for _ in range(10):
                        self.assertEqual(many.ask("/collections/town/items").status, 200)
                    body = gzip.compress(HEADER + feature("a"))
                    self.assertEqual(
                        many.ask("/check", "POST", body, Content_Encoding="gzip").lines()[-1][
                            "features"
                        ],
                        1,
                    )
                    os.kill(int(children.read_text().split()[0]), signal.SIGKILL)
                    self.assertTrue(soon(lambda: len(children.read_text().split()) == 2))
                    self.assertTrue(soon(lambda: accepts(many)))
            finally:
                process.terminate()
                log, _ = process.communicate(timeout=60)
            self.assertEqual(process.returncode, 0)
            self.assertRegex(log.decode(), r'"GET /collections/town/items HTTP/1\.1" 200 ')

    def test_what_gunicorn_runs_is_checked_at_once(self):
        for indexes, options, fault in (
            ((self.folder / "none.gpkg",), {}, cityseq.ReadFault),
            ((), {"url": "ftp://x"}, cityseq.RequestError),
        ):
            with self.assertRaises(fault):
                cityseq.serve.runner(*indexes, **options)

    def test_processes_are_the_work_of_gunicorn(self):
        _, said, status = command("serve", "--processes", "4")
        self.assertEqual(status, 2)
        self.assertIn("there is no --processes: gunicorn runs many processes", said)
        self.assertIn("aiohttp.GunicornWebWorker", said)

    def test_streams_on_a_web_server(self):
        with web_server(self.folder) as (url, state):
            with Serving("--base", url, self.folder / "all.gpkg") as far:
                path = "/collections/town/items?f=city-json-seq&type=Road"
                self.assertEqual(far.ask(path).body, self.filtered("town", "--type", "Road"))
                state.mode = "missing"
                self.assertEqual(far.ask(path).status, 502)
                state.mode = ""
                text = (self.folder / "town.city.jsonl").read_bytes()
                changed = self.folder / "town.city.jsonl"
                changed.write_bytes(text + b"\n")
                answer = far.ask(path)
                changed.write_bytes(text)
                self.assertEqual(
                    (answer.status, answer.headers["Content-Type"]),
                    (502, "application/problem+json"),
                )
                self.assertIn("out of date", answer.json()["detail"])

    @unittest.skipIf(
        NGINX is None or not MODULE.exists(), "nginx, or its module for streams, is not there"
    )
    def test_the_example_of_nginx(self):
        """Two servers behind nginx, and a store of streams, on ports that are free. A body for `/filter` is longer than
        what all sockets on its way hold, so that its answer comes only if nginx passes bytes on both ways at once.
        """
        text = (pathlib.Path(ROOT) / "examples" / "serve" / "nginx.conf").read_text("utf-8")
        names = {name: free_port() for name in ("8080", "8081", "8082", "8083", "8090")}
        for name, port in names.items():
            self.assertIn(f"127.0.0.1:{name}", text)
            text = re.sub(rf"(127\.0\.0\.1|\$host):{name}\b", rf"\1:{port}", text)
        if os.getuid() == 0:
            text = f"user root;\n{text}"  # else its processes may not read this folder
        place = self.folder / "nginx"
        (place / "streams").mkdir(parents=True)
        (place / "temporary").mkdir()
        (place / "nginx.conf").write_text(text, "utf-8")
        shutil.copy(self.folder / "town.city.jsonl", place / "streams")
        index = place / "streams" / "all.gpkg"
        command("index", "--output", str(index), str(place / "streams" / "town.city.jsonl"))
        web = subprocess.Popen(
            [NGINX, "-p", str(place), "-c", "nginx.conf"], stderr=subprocess.DEVNULL
        )
        try:
            store = f"http://127.0.0.1:{names['8090']}/"
            with Serving("--port", names["8081"], "--base", store, index) as one, Serving(
                "--port", names["8082"], "--base", store, index
            ) as other:
                one.port = names["8080"]
                wanted, begin = self.filtered("town", "--type", "Road"), time.monotonic()
                for _ in range(20):
                    self.assertEqual(
                        one.ask("/collections/town/items?f=city-json-seq&type=Road").body, wanted
                    )
                seconds = time.monotonic() - begin  # nginx gives an answer again for a second
                asked = sum("town/items" in line for line in one.log + other.log)
                self.assertLess(asked, min(20, 5 + 2 * seconds))
                chunks = b'POST /check HTTP/1.1\r\nHost: localhost\r\nTransfer-Encoding: chunked\r\n\r\n7\r\n{"a":1}XX0\r\n\r\n'
                self.assertTrue(one.raw(chunks).startswith(b"HTTP/1.1 400 "))
                spaces = (
                    b"GET  /conformance  HTTP/1.1\r\nHost: localhost\r\nConnection: close\r\n\r\n"
                )
                self.assertTrue(one.raw(spaces).startswith(b"HTTP/1.1 200 "))
                self.assertTrue(
                    soon(
                        lambda: any(
                            '"GET /conformance HTTP/1.1" 200 ' in line
                            for line in one.log + other.log
                        )
                    )
                )
                link = one.ask("/", Host="localhost:80").json()["links"][0]["href"]
                self.assertTrue(link.startswith("http://localhost:80/"), link)
                body = HEADER + feature("b") * 150_000
                self.assertEqual(one.ask("/check", "POST", body).lines()[-1]["features"], 150_000)
                moved = one.ask("/filter?tree=true", "POST", HEADER)
                self.assertEqual(
                    (moved.status, moved.headers["Location"]),
                    (307, f"http://127.0.0.1:{names['8083']}/filter?tree=true"),
                )
                one.port = names["8083"]
                self.assertTrue(one.exchange("/filter", body).body == body)
                time.sleep(0.2)
                self.assertTrue(one.log and other.log)
        finally:
            web.terminate()
            web.wait(10)

    def test_what_is_missing_is_said(self):
        for text, wanted in (
            (
                "raise ImportError('none')",
                "there is no aiohttp for Python: install python3-aiohttp",
            ),
            ("web = None", "this version of aiohttp cannot be used: "),
        ):
            (self.folder / "aiohttp.py").write_text(text)
            code = f"import sys; sys.path.insert(0, {str(self.folder)!r}); from cityseq.cli import main; sys.exit(main(['serve']))"
            ran = subprocess.run(
                [sys.executable, "-c", code],
                stderr=subprocess.PIPE,
                timeout=30,
                env={**os.environ, "PYTHONPATH": os.path.join(ROOT, "python")},
            )
            (self.folder / "aiohttp.py").unlink()
            self.assertEqual(ran.returncode, 2)
            self.assertRegex(ran.stderr.decode(), rf"\A{wanted}.*\n\Z")


@unittest.skipIf(MISSING, MISSING)
class Parts(Served):
    def test_queries(self):
        known = [Parameter(name, "", STRING) for name in "abc"]
        query = Query("a=x%2Cy,z&b=1+2&c", known)
        self.assertEqual(
            (query.texts("a"), query.text("b"), query.flag("c")), (["x,y", "z"], "1 2", True)
        )
        for raw in ("d=1", "a=1&a=2", "a%ff=1"):
            with self.assertRaises(Problem):
                Query(raw, known[:1])

    def test_formats(self):
        formats = (GEOJSON, CITY_JSON_SEQ, HTML)
        for accept, wanted in (
            ("", GEOJSON),
            ("*/*", GEOJSON),
            ("text/html;q=0.5, application/geo+json;q=0.4", HTML),
            ("application/*", GEOJSON),
            ("application/city+json-seq, */*;q=0.1", CITY_JSON_SEQ),
            ("text/html, */*;q=0.9", HTML),
            ("application/json;q=x, text/html", HTML),
        ):
            self.assertEqual(choose(formats, None, accept), wanted, accept)

    def test_a_feature_as_cityjson_keeps_each_number(self):
        header = HEADER.replace(b"0.001", b"1.0e-3")
        line = (
            feature("b")
            .replace(b"[0,0,0]", b"[0 , 0,-0]")
            .replace(
                b'"type":"CityJSONFeature",',
                b'"type":"CityJSONFeature","x":1e400,"appearance" : {"a":1.10},',
            )
        )
        text = whole(header, line)
        for piece in (b'"scale":[1.0e-3,1.0e-3,1.0e-3]', b"[0 , 0,-0]", b'"appearance":{"a":1.10}'):
            self.assertIn(piece, text)
        self.assertNotIn(b"1e400", text)
        self.assertEqual(json.loads(text)["type"], "CityJSON")

    def test_without_pyproj(self):
        with mock.patch("cityseq.coordinates.has_pyproj", return_value=False):
            system = System("https://www.opengis.net/def/crs/EPSG/0/7415")
            self.assertEqual(system.listed(), [RD])
            self.assertEqual(system.asked(RD, "crs"), RD)
            with self.assertRaisesRegex(cityseq.RequestError, "for want of pyproj"):
                system.asked(None, "crs")
        other = self.folder / "without"
        other.mkdir()
        (other / "pyproj.py").write_text("raise ImportError('none')")
        path = "/collections/sample/items"
        with Serving(self.folder / "all.gpkg", first_path=other) as without:
            for query in ("", "?bbox=4,52,5,53", f"?crs={RD}&bbox=4,52,5,53"):
                answer = without.ask(path + query)
                self.assertEqual(answer.status, 400)
                self.assertIn("for want of pyproj", answer.json()["detail"])
            for query in (
                f"?crs={RD}",
                f"?crs={RD}&bbox-crs={RD}&bbox=84700,447450,84800,447550",
                "?f=city-json-seq",
                "?f=html",
            ):
                self.assertEqual(without.ask(path + query).status, 200, query)
            self.assertEqual(without.ask("/collections/town/items").status, 200)
            self.assertEqual(without.ask("/collections/sample").json()["crs"], [RD])

    def test_an_application_for_another_server(self):
        async def run():
            outer = aiohttp.web.Application()
            outer.add_subapp(
                "/cities",
                cityseq.serve.app(
                    self.folder / "all.gpkg",
                    url="https://example.org/cities",
                    limits=Limits(features=3),
                ),
            )
            runner = aiohttp.web.AppRunner(outer)
            await runner.setup()
            site = aiohttp.web.TCPSite(runner, "127.0.0.1", 0)
            await site.start()
            port = runner.addresses[0][1]
            base = f"http://127.0.0.1:{port}/cities"
            async with aiohttp.ClientSession() as session:
                async with session.get(
                    f"{base}/collections/sample/items?f=city-json-seq&limit=9"
                ) as answer:
                    lines, link = (await answer.read()).splitlines(), answer.headers["Link"]
                async with session.post(f"{base}/check", data=HEADER) as answer:
                    told = json.loads(await answer.read())
                async with session.get(f"{base}/none") as answer:
                    problem = await answer.json(content_type="application/problem+json")
            await runner.cleanup()
            return len(lines), link.partition("?")[0], told["verdict"], problem["status"]

        self.assertEqual(
            asyncio.run(run()),
            (4, "<https://example.org/cities/collections/sample/items", "valid", 404),
        )
