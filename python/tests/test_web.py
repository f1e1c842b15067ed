"""Cuts of streams that lie on a web server, also on one that answers as it should not."""
import io
import json
import os
import re
import shutil
import subprocess
import sys
import threading
import time
import unittest
from contextlib import contextmanager
from http.server import BaseHTTPRequestHandler, ThreadingHTTPServer
from importlib.util import find_spec
from unittest import mock
from urllib.parse import unquote, urlsplit

import cityseq
from cityseq.indexes import web as web_client

from .support import HEADER, InFolder, command, feature

NGINX = shutil.which("nginx") or shutil.which("nginx", path="/usr/sbin")


class Server(ThreadingHTTPServer):
    """A server that says nothing of clients that go away."""

    def handle_error(self, *_):
        pass


class Handler(BaseHTTPRequestHandler):
    """Serves the files of a folder by ranges, or as the server's `mode` says."""

    protocol_version = "HTTP/1.1"

    def log_message(self, *_):
        pass

    def setup(self):
        super().setup()
        self.server.connections += 1

    def _drip(self, piece):
        """Sends a piece over and over, until the client is gone."""
        self.close_connection = True
        while True:
            self.wfile.write(piece)
            time.sleep(0.01)

    def _send(self, status, headers, body=b"", cut=None):
        self.send_response(status)
        for name, value in headers.items():
            self.send_header(name, value)
        self.send_header("Content-Length", str(len(body)))
        self.end_headers()
        self.wfile.write(body if cut is None else body[:cut])

    def do_GET(self):
        server, mode = self.server, self.server.mode
        begin, last = map(int, re.fullmatch(r"bytes=(\d+)-(\d+)", self.headers["Range"]).groups())
        server.ranges.append((begin, last + 1))
        server.seen.append((self.path, dict(self.headers)))
        if mode == "drips its head":
            self._drip(b"H")
        if mode == "drips redirections":
            self.wfile.write(f"HTTP/1.1 302 Found\r\nLocation: {self.path}\r\n".encode())
            self._drip(b"X: y\r\n")
        if mode == "continues":
            self._drip(b"HTTP/1.1 100 Continue\r\n\r\n")
        if mode == "no HTTP":
            self.close_connection = True
            return self.wfile.write(b"SSH-2.0-x\r\n")
        if mode == "elsewhere":
            return self._send(302, {"Location": server.elsewhere + self.path})
        if mode == "asks who":
            return self._send(401, {"WWW-Authenticate": 'Basic realm="x"'})
        if self.path.startswith("/moved/"):
            return self._send(302, {"Location": self.path[len("/moved") :]})
        if mode == "around":
            return self._send(302, {"Location": self.path})
        if mode == "away":
            return self._send(302, {"Location": "file:///etc/passwd"})
        # to a proxy the whole URL is the path
        path = os.path.join(server.folder, unquote(urlsplit(self.path).path).lstrip("/"))
        if mode == "missing" or not os.path.isfile(path):
            return self._send(404, {})
        with open(path, "rb") as file:
            text = file.read()
        if mode == "no ranges":
            return self._send(200, {}, text)
        if mode == "slow" and begin:
            time.sleep(0.5)
        if last >= len(text):
            return self._send(416, {"Content-Range": f"bytes */{len(text)}"})
        tag = f'"{len(server.ranges)}"' if mode == "changes" else '"a"'
        shift = 1 if mode == "another range" and begin else 0
        told = {"Content-Range": f"bytes {begin + shift}-{last + shift}/{len(text)}", "ETag": tag}
        if mode == "drips its body":
            self.send_response(206)
            for name, value in {**told, "Content-Length": str(last + 1 - begin)}.items():
                self.send_header(name, value)
            self.end_headers()
            self._drip(b"{")
        if mode == "packs":
            told["Content-Encoding"] = "gzip"
        self.close_connection = mode == "closes" or (mode in ("breaks", "resets") and begin > 0)
        if mode == "resets" and begin:
            return self.connection.close()
        return self._send(
            206, told, text[begin : last + 1], 5 if mode == "breaks" and begin else None
        )


class Served(InFolder):
    """An index and a server of its stream, which has two groups of lines far from each other."""

    def setUp(self):
        super().setUp()
        # 700 KB between the first roads and the last ones
        lines = [
            feature(f"b{i}", "Road" if i % 10 == 0 and (i < 100 or i > 2_890) else "Building")
            for i in range(3_000)
        ]
        self.text = HEADER + b"".join(lines)
        (self.folder / "served").mkdir()
        self.path = self.file(self.text, "served/a b.city.jsonl")
        self.index = self.folder / "it.gpkg"
        cityseq.index(self.path, self.index)
        self.wanted = io.BytesIO()
        cityseq.filter(self.text, self.wanted, types="Road")

    @contextmanager
    def served(self, mode=None):
        server = Server(("127.0.0.1", 0), Handler)
        server.mode, server.folder, server.ranges = mode, str(self.folder), []
        server.connections, server.seen = 0, []
        thread = threading.Thread(target=server.serve_forever, args=(0.01,))
        thread.start()
        try:
            yield server, f"http://127.0.0.1:{server.server_address[1]}"
        finally:
            server.shutdown()
            thread.join()
            server.server_close()

    def cut(self, base, **query):
        output = io.BytesIO()
        with cityseq.Index(self.index, base=base) as index:
            index.filter(output, **(query or {"types": "Road"}))
        return output.getvalue()


class Web(Served):
    """What a cut reads and writes, and what it says of servers that answer otherwise."""

    def test_it_reads_the_ranges_that_it_needs(self):
        with self.served() as (server, base):
            self.assertEqual(self.cut(base), self.wanted.getvalue())
        first, *others = server.ranges  # the first has the header, and what is near it
        self.assertEqual((first, len(others)), ((0, 1 << 16), 1))
        self.assertLess(sum(end - begin for begin, end in others), len(self.text) // 10)

    def test_all_ways_to_the_same(self):
        for mode in (None, "closes"):
            with self.served(mode) as (_, base):
                for each in (base, base + "/", base + "/moved", base + "/?key=1"):
                    self.assertEqual(self.cut(each), self.wanted.getvalue())
                self.assertEqual(self.cut(base, ids="b2999")[len(HEADER) :], feature("b2999"))
                with cityseq.Index(self.index, base=base) as index:
                    with index.select(ids=["b3", "b2999"]) as features:
                        self.assertEqual([each.line for each in features], [5, 3_001])

    def test_the_command(self):
        with self.served() as (_, base):
            found = command("filter", "--index", str(self.index), "--base", base, "--type", "Road")
            self.assertEqual(found, (self.wanted.getvalue(), "", 0))

    def refused(self, mode, words, kind=cityseq.ReadFault, base=""):
        with self.served(mode) as (_, url):
            with self.subTest(mode=mode):
                with self.assertRaises(kind) as caught:
                    self.cut(url + base)
                self.assertIn(words, str(caught.exception))
                self.assertEqual(caught.exception.status, 3)
                words = (
                    "filter",
                    "--index",
                    str(self.index),
                    "--base",
                    url + base,
                    "--type",
                    "Road",
                )
                for more in ((), ("--output", str(self.folder / "out"))):
                    output, said, status = command(*words, *more)
                    self.assertEqual((output, status, said.count("\n")), (b"", 3, 1))
                self.assertEqual(sorted(os.listdir(self.folder)), ["it.gpkg", "served"])

    def test_servers_that_answer_otherwise(self):
        self.refused("no ranges", "the server has no ranges")
        self.refused("missing", "the server answers 404 Not Found")
        self.refused("breaks", "the connection broke")
        self.refused("resets", "read fault: ")
        self.refused("changes", "the stream changed while it was read")
        self.refused("another range", "the server answers with another range")
        self.refused("packs", "the server answers with another range")
        self.refused("no HTTP", "read fault: the server answers with what is not HTTP")
        self.refused("around", "the server leads elsewhere more than 5 times")
        self.refused("away", "the server leads to what is no URL of http")
        self.refused(None, "404", base="/no/folder")

    def test_a_stream_that_changed(self):
        for text, words in (
            (self.text + b"\n", "the stream is longer"),
            (self.text[:-1], "the stream is shorter"),
            (self.text[:100], "the stream is shorter"),
            (self.text.replace(b"[10,20,0]", b"[10,20,1]", 1), "the stream has another header"),
            (self.text.replace(b'"id":"b10"', b'"id":b10" ', 1), "the stream has other lines"),
            (self.text.replace(b"\n", b" "), "the stream has another header"),
            (HEADER + self.text[len(HEADER) :].replace(b"\n", b" "), "the stream has other lines"),
        ):
            self.path.write_bytes(text)
            self.refused(None, words, cityseq.OutOfDate)

    def test_no_server(self):
        with self.served() as (_, base):
            pass
        with self.assertRaises(cityseq.ReadFault) as caught:
            self.cut(base)
        self.assertIn("Connection refused", str(caught.exception))

    def test_a_server_that_does_not_answer(self):
        with self.served("slow") as (_, base), mock.patch.object(web_client, "PATIENCE", 0.1):
            with self.assertRaises(cityseq.ReadFault) as caught:
                self.cut(base)
        self.assertRegex(str(caught.exception), "timed out|too slowly")

    def test_a_base_that_is_no_url(self):
        for base in (
            "",
            "x",
            "http://",
            "ftp://host",
            "http://host:x/",
            "http://a b/",
            "https://host/\n",
            "//host",
        ):
            with self.assertRaises(cityseq.RequestError):
                cityseq.Index(self.index, base=base)

    def test_packed_streams_have_no_ranges(self):
        path = self.file(self.text, "served/it.city.jsonl.gz")
        cityseq.index(path, self.index)
        with self.served() as (_, base):
            with self.assertRaises(cityseq.RequestError) as caught:
                self.cut(base)
        self.assertIn("serve it unpacked", str(caught.exception))


@unittest.skipUnless(find_spec("lark"), "lark is not there")
class Where(Served):
    """Cuts by attributes of a stream that lies on a server."""

    YEARS = {2: 1989, 3: 1990, 4: 1991, 2_998: 2020, 2_999: None}  # of some features
    NEW = "year > 1990"

    def setUp(self):
        super().setUp()
        lines = self.text.splitlines(keepends=True)
        for number, year in self.YEARS.items():
            told = b'"attributes":{"year":%s},' % json.dumps(year).encode()
            lines[number + 1] = lines[number + 1].replace(b'"geometry"', told + b'"geometry"')
        self.text, self.lines = b"".join(lines), lines
        self.path.write_bytes(self.text)
        cityseq.index(self.path, self.index, attributes=["year"])

    def of(self, *numbers):
        """The header, and the features of these numbers."""
        return HEADER + b"".join(self.lines[number + 1] for number in numbers)

    def test_it_reads_the_ranges_that_it_needs(self):
        with self.served() as (server, base):
            self.assertEqual(self.cut(base, where=self.NEW), self.of(4, 2_998))
        first, *others = server.ranges
        self.assertEqual((first, len(others)), ((0, 1 << 16), 1))
        self.assertLess(sum(end - begin for begin, end in others), len(self.text) // 10)

    def test_the_same_as_of_files(self):
        with self.served() as (_, base):
            for query, numbers in (
                ({"where": "year <= 1990"}, (2, 3)),
                ({"where": "year IN (1989, 2020)"}, (2, 2_998)),
                ({"where": self.NEW, "ids": ["b4", "b5"]}, (4,)),
                ({"where": self.NEW, "types": "Road"}, ()),
                ({"where": f"{self.NEW} OR year = 1989", "types": "Building"}, (2, 4, 2_998)),
                ({"where": self.NEW, "box": "500,0,600,1"}, ()),
                ({"where": "year = 1992"}, ()),
            ):
                with self.subTest(query):
                    self.assertEqual(self.cut(base, **query), self.of(*numbers))
                    self.assertEqual(self.cut(None, **query), self.of(*numbers))
            with cityseq.Index(self.index, base=base) as index:
                with index.select(where="year IS NOT NULL") as features:
                    self.assertEqual([each.line for each in features], [4, 5, 6, 3_000])

    def test_the_command(self):
        words = ["filter", "--index", str(self.index), "--where", self.NEW]
        output = self.folder / "new.city.jsonl"
        with self.served() as (server, base):
            self.assertEqual(command(*words, "--base", base), (self.of(4, 2_998), "", 0))
            told = command(*words, "--base", base, "--output", str(output), "--limit", "1")
            self.assertEqual((told, output.read_bytes()), ((b"", "", 0), self.of(4)))
            asked = len(server.ranges)
            wrong = [*words[:-1], "month = 1", "--base", base]
            _, said, status = command(*wrong)
            self.assertEqual((status, len(server.ranges)), (2, asked))
            self.assertIn('"month"', said)
        told, status = command(*words, "--base", base)[1:]  # there is no server any more
        self.assertEqual((status, "Connection refused" in told), (3, True))

    def test_a_stream_that_changed(self):
        for text in (self.text + b"\n", self.text.replace(b'"year":1991', b'"year":199,')):
            self.path.write_bytes(text)
            with self.served() as (_, base), self.assertRaises(cityseq.OutOfDate):
                self.cut(base, where=self.NEW)

    def test_a_change_that_goes_unnoticed(self):
        """The guide says so: a server tells the length of a stream, and no index has its text."""
        before, after = self.lines[5], self.lines[5].replace(b"1991", b"1989")
        self.path.write_bytes(self.text.replace(before, after))
        with self.served() as (_, base):
            found = self.cut(base, where=self.NEW)
        self.assertEqual(found, self.of(4, 2_998).replace(before, after))


class Client(Served):
    """What the client sends, and how it ends."""

    def test_connections_are_kept(self):
        with self.served() as (server, base):
            for _ in range(3):
                self.assertEqual(self.cut(base), self.wanted.getvalue())
        self.assertEqual((len(server.ranges), server.connections), (6, 1))

    def test_servers_that_never_end(self):
        """Each byte comes in time. A thread that watches closes the connection."""
        for mode in ("drips its head", "drips its body", "continues", "drips redirections"):
            patience = mock.patch.object(web_client, "PATIENCE", 0.1)
            with self.served(mode) as (server, base), patience:
                begin = time.monotonic()
                with self.subTest(mode=mode), self.assertRaises(cityseq.ReadFault) as caught:
                    self.cut(base)
                self.assertIn("too slowly, below 4,096 bytes a second", str(caught.exception))
                self.assertLess(time.monotonic() - begin, 5)
                self.assertEqual(len(server.ranges), 1)
        self.assertNotIn("watch", [thread.name for thread in threading.enumerate()])

    def test_a_connection_that_is_not_made_in_time(self):
        """What watches has nothing to close then, and does not fail."""
        patience = mock.patch.object(web_client, "PATIENCE", 0.01)
        with patience, mock.patch.object(threading, "excepthook") as failed:
            with web_client.AnswerWatch() as watch:
                while not watch.is_late:
                    time.sleep(0.01)
        failed.assert_not_called()

    def test_lines_that_lie_close_are_one_request(self):
        with self.served() as (server, base):
            # 120 KB between each two, and the first 240 KB after the header
            found = self.cut(base, ids=["b1000", "b1500", "b2000"])
        self.assertEqual(found.count(b"\n"), 4)
        self.assertEqual(len(server.ranges), 2)

    def test_only_streams_with_candidates_are_asked(self):
        others = [self.file(HEADER + feature(f"o{n}"), f"served/{n}.jsonl") for n in range(5)]
        cityseq.index([*others, self.path], self.index)
        with self.served() as (server, base):
            self.assertEqual(self.cut(base, ids="o3"), HEADER + feature("o3"))
            self.assertEqual([path for path, _ in server.seen], ["/served/3.jsonl"])
            self.assertEqual(self.cut(base, ids="none"), HEADER)
            self.assertEqual([path for path, _ in server.seen[1:]], ["/served/0.jsonl"])

    def test_credentials(self):
        with self.served() as (server, base), self.served("elsewhere") as (first, other):
            first.elsewhere = base
            signed = base.replace("//", "//me:s%40cret@")
            self.assertEqual(self.cut(signed), self.wanted.getvalue())
            told = {headers.get("Authorization") for _, headers in server.seen}
            self.assertEqual(told, {"Basic bWU6c0BjcmV0"})  # me:s@cret
            server.seen.clear()
            signed = other.replace("//", "//me:s%40cret@")
            self.assertEqual(self.cut(signed), self.wanted.getvalue())
            told = {headers.get("Authorization") for _, headers in server.seen}
            self.assertEqual(told, {None})  # another server does not get them
        with self.served("asks who") as (_, base):
            signed = base.replace("//", "//me:s%40cret@") + "/?key=s%40cret"
            words = ("filter", "--index", str(self.index), "--base", signed)
            output, said, status = command(*words)
            self.assertEqual((output, status), (b"", 3))
            self.assertIn("the server answers 401", said)
            self.assertNotIn("cret", said)

    def test_a_proxy(self):
        with self.served() as (server, proxy), self.served() as (other, base):
            signed = proxy.replace("//", "//me:it@")
            with mock.patch.dict(os.environ, {"http_proxy": signed, "no_proxy": ""}):
                self.assertEqual(self.cut("http://example.org"), self.wanted.getvalue())
            with mock.patch.dict(os.environ, {"http_proxy": signed, "no_proxy": "127.0.0.1"}):
                self.assertEqual(self.cut(base), self.wanted.getvalue())
            self.assertEqual((len(server.ranges), len(other.ranges)), (2, 2))
            path, headers = server.seen[0]
            self.assertEqual(path, "http://example.org/served/a%20b.city.jsonl")
            self.assertEqual(headers["Proxy-Authorization"], "Basic bWU6aXQ=")  # me:it
            with mock.patch.dict(os.environ, {"http_proxy": "socks5://x", "no_proxy": ""}):
                with self.assertRaises(cityseq.ReadFault) as caught:
                    self.cut(base)
            self.assertIn("no URL of http", str(caught.exception))

    def test_no_urllib3(self):
        with mock.patch.dict(sys.modules, {"urllib3": None, "cityseq.indexes.web": None}):
            del sys.modules["cityseq.indexes.web"]
            with self.assertRaises(cityseq.CityseqError) as caught:
                cityseq.Index(self.index, base="http://example.org")
        self.assertIn("python3-urllib3", str(caught.exception))


@unittest.skipIf(NGINX is None, "nginx is not there")
class Nginx(Web):
    """The same cut of a stream that nginx serves on loopback."""

    @contextmanager
    def served(self, mode=None):
        if mode is not None:
            self.skipTest("nginx answers as it should")
        port = 20_000 + os.getpid() % 20_000
        folder, settings = str(self.folder), self.folder / "settings"
        kinds = ("client_body", "proxy", "fastcgi", "uwsgi", "scgi")
        paths = " ".join(f"{kind}_temp_path {folder};" for kind in kinds)
        settings.write_text(
            f"daemon off; master_process off; pid {folder}/pid; error_log {folder}/errors;\n"
            f"events {{}}\nhttp {{ access_log off; {paths}\n"
            f"server {{ listen 127.0.0.1:{port}; root {folder}; }} }}\n"
        )
        child = subprocess.Popen(
            [NGINX, "-c", str(settings), "-e", f"{folder}/errors"], stderr=subprocess.DEVNULL
        )
        try:
            yield None, f"http://127.0.0.1:{port}"
        finally:
            child.terminate()
            child.wait()

    def tries(self, call):
        for _ in range(200):
            try:
                return call()
            except cityseq.ReadFault as fault:
                if "refused" not in str(fault):
                    raise
                time.sleep(0.02)
        return self.fail("nginx does not answer")

    def test_it_reads_the_ranges_that_it_needs(self):
        with self.served() as (_, base):
            self.assertEqual(self.tries(lambda: self.cut(base)), self.wanted.getvalue())

    test_all_ways_to_the_same = test_the_command = test_servers_that_answer_otherwise = None
    test_a_server_that_does_not_answer = (
        test_a_base_that_is_no_url
    ) = test_packed_streams_have_no_ranges = None
    test_no_server = None

    def test_a_stream_that_changed(self):
        with self.served() as (_, base):
            self.tries(lambda: self.cut(base))
            self.path.write_bytes(self.text + b"\n")
            with self.assertRaises(cityseq.OutOfDate):
                self.cut(base)


if __name__ == "__main__":
    unittest.main()
