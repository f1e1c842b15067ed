"""A server that tests ask, in a process of its own."""
import asyncio
import http.client
import json
import os
import pathlib
import resource
import shutil
import signal
import socket
import subprocess
import sys
import tempfile
import threading
import unittest
from functools import partial
from importlib.util import find_spec

from .support import HEADER, ROOT, command, feature

# why the tests of the server are left out, if they are
MISSING = ", ".join(
    f"{name} is not there" for name in ("aiohttp", "jinja2") if find_spec(name) is None
)
EXAMPLES = pathlib.Path(ROOT) / "examples"
RD = "http://www.opengis.net/def/crs/EPSG/0/7415"
HOSTILE = (
    "<script>alert(1)</script>",
    "]]>",
    "\u202eeman",
    "'\"&",
    "a/b?c#d e",
    "%41",
    "å\u0000b",
    "\ud800",
    "x" * 100_000,
)


class Answer:
    """What a server answered."""

    def __init__(self, answer):
        self.status, self.headers = answer.status, answer.headers
        self.body = answer.read()

    def json(self):
        return json.loads(self.body)

    def lines(self):
        return [json.loads(line) for line in self.body.splitlines()]


def rest_of(connection):
    """What comes until a connection ends."""
    found = [b" "]
    try:
        while found[-1]:
            found.append(connection.recv(1 << 16))
    except ConnectionError:
        pass
    return b"".join(found[1:])


class Client:
    """A server that listens at `host` and `port`."""

    def __enter__(self):
        return self

    def __exit__(self, *_):
        self.stop()

    def socket(self, small=False):
        """A connection. A small one has a small buffer for what comes."""
        found = socket.socket()
        if small:
            found.setsockopt(socket.SOL_SOCKET, socket.SO_RCVBUF, 1 << 15)
        found.settimeout(30)
        found.connect((self.host, self.port))
        return found

    def raw(self, *pieces):
        """What comes back for some bytes until the connection ends."""
        with self.socket() as connection:
            for piece in pieces:
                connection.sendall(piece)
            return rest_of(connection)

    def connect(self):
        return http.client.HTTPConnection(self.host, self.port, timeout=120)

    def ask(self, path, method="GET", body=None, **headers):
        """The answer to a request."""
        connection = self.connect()
        try:
            named = {name.replace("_", "-"): value for name, value in headers.items()}
            connection.request(
                method,
                path,
                body,
                named,
                encode_chunked=named.get("Transfer-Encoding") == "chunked",
            )
            return Answer(connection.getresponse())
        finally:
            connection.close()

    def exchange(self, path, body):
        """The answer to a body. The client reads while it sends, as `/filter` asks of it."""
        connection = self.connect()
        connection.putrequest("POST", path)
        connection.putheader("Content-Length", str(len(body)))
        connection.endheaders()
        sender = threading.Thread(target=connection.send, args=(body,), daemon=True)
        sender.start()
        try:
            return Answer(connection.getresponse())
        finally:
            connection.close()
            sender.join(5)


class Serving(Client):
    """The command `serve`, over some indexes."""

    def __init__(self, *words, first_path="", descriptors=None):
        """Starts it with these words, and with at most so many descriptors. A folder that is given is
        where Python looks first for modules."""
        most = (descriptors, descriptors)
        port = () if "--port" in words else ("--port", "0")
        environment = {
            **os.environ,
            "PYTHONPATH": os.pathsep.join(
                filter(None, (str(first_path), os.path.join(ROOT, "python")))
            ),
        }
        self.process = subprocess.Popen(
            [sys.executable, "-W", "ignore", "-m", "cityseq", "serve", *port, *map(str, words)],
            stdout=subprocess.PIPE,
            stderr=subprocess.PIPE,
            env=environment,
            preexec_fn=descriptors and partial(resource.setrlimit, resource.RLIMIT_NOFILE, most),
        )
        first = self.process.stderr.readline().decode()
        if not first.startswith("http://"):
            self.process.kill()
            raise AssertionError(f"the server did not start: {first}")
        self.url = first.split(" ")[0]
        self.host, _, port = self.url.split("/")[2].rpartition(":")
        self.port = int(port)
        self.log, self.said = [], [first]
        self._readers = [
            self._read(self.process.stdout, self.log),
            self._read(self.process.stderr, self.said),
        ]

    @staticmethod
    def _read(source, lines):
        reader = threading.Thread(
            target=lambda: lines.extend(line.decode() for line in source), daemon=True
        )
        reader.start()
        return reader

    def stop(self, number=signal.SIGTERM):
        """Ends the server, and returns its status."""
        if self.process.poll() is None:
            self.process.send_signal(number)
        status = self.process.wait(60)
        for reader in self._readers:
            reader.join(5)
        self.process.stdout.close()
        self.process.stderr.close()
        return status


class Within(Client):
    """A server in a thread of this process, over some indexes and with any limits."""

    host = "127.0.0.1"

    def __init__(self, *indexes, **limits):
        from cityseq.serve.application import Server
        from cityseq.serve.process import Process
        from cityseq.serve.settings import Limits, Settings

        async def begin():
            process = Process(
                Server(Settings(tuple(map(str, indexes)), jobs=1, limits=Limits(**limits))), True
            )
            self._listening = await process.listen(self.host, 0)
            return process

        self._loop = asyncio.new_event_loop()
        self._thread = threading.Thread(target=self._loop.run_forever)
        self._thread.start()
        self.process = self._wait(begin())
        self.port = self.process.sockets[0].getsockname()[1]
        self.url = f"http://{self.host}:{self.port}/"

    def _wait(self, coroutine):
        return asyncio.run_coroutine_threadsafe(coroutine, self._loop).result(30)

    async def _end(self):
        self._listening.close()
        await self.process.close()
        tasks = asyncio.all_tasks() - {asyncio.current_task()}
        for each in tasks:
            each.cancel()
        await asyncio.gather(*tasks, return_exceptions=True)

    def stop(self):
        """Ends the server."""
        self._wait(self._end())
        self._loop.call_soon_threadsafe(self._loop.stop)
        self._thread.join()
        self._loop.close()


def hostile_stream():
    """Features whose ids are hostile, and that are equal in all else."""
    lines = [
        feature("b").replace(b'"id":"b"', b'"id":%b' % spelled).replace(b'{"b":', b"{%b:" % spelled)
        for spelled in (json.dumps(name).encode() for name in HOSTILE)
    ]
    return HEADER + b"".join(lines)


class Served(unittest.TestCase):
    """Tests that ask one server over four streams."""

    @classmethod
    def setUpClass(cls):
        holder = tempfile.TemporaryDirectory()
        cls.addClassCleanup(holder.cleanup)
        cls.folder = pathlib.Path(holder.name)
        for name in ("sample", "town"):
            shutil.copy(EXAMPLES / f"{name}.city.jsonl", cls.folder)
        (cls.folder / "hostile.city.jsonl").write_bytes(hostile_stream())
        (cls.folder / "equal.city.jsonl").write_bytes(HEADER + feature("same") * 57)
        paths = [
            str(cls.folder / f"{name}.city.jsonl")
            for name in ("sample", "town", "hostile", "equal")
        ]
        _, said, status = command("index", "--output", str(cls.folder / "all.gpkg"), *paths)
        if status:
            raise AssertionError(said)
        cls.server = Serving(cls.folder / "all.gpkg")
        cls.addClassCleanup(cls._end)

    @classmethod
    def _end(cls):
        status = cls.server.stop()
        if status != 0 or any("Traceback" in line for line in cls.server.said):
            raise AssertionError(f"the server ended with {status}: {cls.server.said}")

    def filtered(self, name, *words):
        """What the command `filter` writes of a stream."""
        output, said, status = command("filter", *words, str(self.folder / f"{name}.city.jsonl"))
        self.assertEqual(status, 0, said)
        return output
