"""The server: clients that send or read in unusual ways, and what one client leaves for others."""
import asyncio
import errno
import gc
import os
import socket
import struct
import time
import unittest
from contextlib import ExitStack, suppress
from http.client import HTTPException

from cityseq.engine import read_fault

from .serving import MISSING, Served, Serving, Within, rest_of
from .support import HEADER, command, feature

if not MISSING:
    from cityseq.serve.answers import Problem, problem_of
    from cityseq.serve.bodies import Body, Fed, Judgement
    from cityseq.serve.sending import Pace, Places
    from cityseq.serve.settings import Limits

PATH = "/collections/sample/items?f=city-json-seq"
GOOD = b"GET /conformance HTTP/1.1\r\nHost: localhost\r\nConnection: close\r\n\r\n"
POST = b"POST /%b HTTP/1.1\r\nHost: localhost\r\nContent-Length: %d\r\n\r\n"
RESET = struct.pack("ii", 1, 0)  # a connection is reset where it is closed


def soon(is_so):
    """Whether something becomes so within ten seconds."""
    end = time.monotonic() + 10
    while not is_so() and time.monotonic() < end:
        time.sleep(0.01)
    return is_so()


@unittest.skipIf(MISSING, MISSING)
class Bounds(unittest.TestCase):
    def test_places(self):
        places = Places(2, "bodies")
        with places.one(), places.one():
            with self.assertRaisesRegex(Problem, "the server has 2 bodies already"):
                with places.one():
                    pass
        with places.one():
            self.assertEqual(places.taken, 1)

    def pace(self, pause, sizes, **limits):
        """How long a client was waited for that pauses before so many bytes each time, and why it was not longer."""

        async def run():
            pace = Pace(Limits(**limits))
            begin, detail = time.monotonic(), ""
            try:
                for size in sizes:
                    await pace.wait(asyncio.sleep(pause))
                    pace.size += size
            except Problem as problem:
                detail = f"{problem.status} {problem.detail}"
            return time.monotonic() - begin, detail

        return asyncio.run(run())

    def test_a_client_that_is_silent(self):
        waited, detail = self.pace(9, [1], idle=0.05)
        self.assertLess(waited, 5)
        self.assertEqual(detail, "408 nothing came for 0.05 seconds")

    def test_a_client_that_is_slow(self):
        """A byte in 0.02 seconds is less than 1,000 in a second."""
        waited, detail = self.pace(0.02, [1] * 400, idle=0.5, rate=1_000)
        self.assertLess(waited, 5)
        self.assertEqual(detail, "408 fewer than 1000 bytes a second came")
        self.assertEqual(self.pace(0.02, [30] * 20, idle=5, rate=1_000)[1], "")

    def test_a_request_that_takes_too_long(self):
        waited, detail = self.pace(0.02, [1_000] * 400, idle=5, seconds=0.2)
        self.assertLess(waited, 5)
        self.assertEqual(detail, "503 the request took longer than 0.2 seconds")


@unittest.skipIf(MISSING, MISSING)
class Slow(Served):
    """Clients that are slow, and a server that waits little for them."""

    @classmethod
    def setUpClass(cls):
        super().setUpClass()
        path = cls.folder / "long.city.jsonl"
        path.write_bytes(
            HEADER + b"".join(feature(f"name-{number:06}") for number in range(20_000))
        )
        command("index", "--output", str(cls.folder / "long.gpkg"), str(path))

    def near(self, **limits):
        return Within(self.folder / "all.gpkg", self.folder / "long.gpkg", **limits)

    def test_bodies_leave_other_requests_alone(self):
        with self.near(requests=2, bodies=3) as server, ExitStack() as stack:
            for _ in range(8):
                stack.enter_context(server.socket()).sendall(POST % (b"check", 1_000) + b"{")
            self.assertTrue(soon(lambda: server.process.server.busy == 3))
            for _ in range(4):
                self.assertEqual(server.ask("/conformance").status, 200)
            answer = server.ask("/check", "POST", HEADER)
            self.assertEqual((answer.status, answer.headers["Retry-After"]), (503, "1"))
            self.assertIn("3 bodies already", answer.json()["detail"])

    def test_a_body_byte_by_byte_is_ended(self):
        with self.near(idle=0.8, rate=100) as server, server.socket() as connection:
            connection.sendall(POST % (b"check", 1_000))
            begin = time.monotonic()
            while server.process.server.busy or time.monotonic() < begin + 0.1:
                connection.sendall(b" ")
                time.sleep(0.05)
                self.assertLess(time.monotonic() - begin, 20)
            self.assertIn(b"fewer than 100 bytes a second came", rest_of(connection))

    def test_a_body_that_stops_is_ended(self):
        """Also after a part of the answer was written, while the next bytes of the body are waited for."""
        with self.near(idle=0.8) as server:
            for size in (0, 8 << 10):
                with server.socket() as connection:
                    begin = time.monotonic()
                    connection.sendall(
                        POST % (b"filter", 99_999_999) + HEADER + feature("b") * size
                    )
                    found = rest_of(connection) if size else connection.recv(1 << 16)
                self.assertLess(time.monotonic() - begin, 20)
                self.assertTrue(
                    found.startswith(b"HTTP/1.1 200 " if size else b"HTTP/1.1 408 "), found[:200]
                )
                self.assertNotIn(b"\r\n0\r\n", found)

    def test_a_client_that_reads_no_answer_is_dropped(self):
        """One long answer, and short ones that wait in the connection."""
        request = b"GET %b HTTP/1.1\r\nHost: localhost\r\n\r\n"
        for sent in (
            request % b"/collections/long/items?f=city-json-seq",
            request % PATH.encode() * 30,
        ):
            with self.near(idle=0.2) as server, server.socket(small=True) as connection:
                connection.sendall(sent)
                self.assertTrue(soon(lambda: server.process.server.busy))
                self.assertTrue(soon(lambda: not server.process.server.busy))
                found = rest_of(connection)
                self.assertNotIn(b"\r\n0\r\n\r\n", found)
                self.assertLess(found.count(b"HTTP/1.1 200 "), 30)
                self.assertTrue(soon(lambda: is_served(server)))

    def test_a_client_that_reads_slowly_is_served(self):
        """What it takes is seen, also if the system could hold the whole for it."""
        with self.near(idle=1) as server, server.socket(small=True) as connection:
            connection.sendall(
                b"GET /collections/long/items?f=city-json-seq HTTP/1.1\r\nHost: localhost\r\nConnection: close\r\n\r\n"
            )
            pieces, begin = [b" "], time.monotonic()
            while pieces[-1]:
                pieces.append(connection.recv(1 << 15))
                time.sleep(0.05 if time.monotonic() - begin < 2 else 0)
        self.assertTrue(b"".join(pieces).endswith(b"\r\n0\r\n\r\n"))

    def test_requests_wait_in_the_system_while_one_is_answered(self):
        """A client that reads nothing cannot fill the memory of the server with requests."""
        with self.near(idle=0.3) as server, server.socket(small=True) as connection:
            request = b"GET %b HTTP/1.1\r\nHost: localhost\r\n\r\n" % PATH.encode()
            connection.settimeout(5)
            sent = 0
            with suppress(OSError):
                while sent < 200 << 20:
                    sent += connection.send(request * 10_000)
            self.assertLess(sent, 20 << 20)

    def test_one_connection_too_many_is_ended(self):
        with self.near(connections=4) as server, ExitStack() as stack:
            for _ in range(4):
                stack.enter_context(server.socket()).sendall(b"GET / HTTP/1.1\r\n")
            self.assertTrue(soon(lambda: rest_of_new(server) == b""))
            stack.close()
            self.assertTrue(soon(lambda: rest_of_new(server).startswith(b"HTTP/1.1 200 ")))

    def test_few_descriptors(self):
        """Connections that are too many are ended, without a line in the log for each attempt."""
        request = b"GET %b HTTP/1.1\r\nHost: localhost\r\nConnection: close\r\n\r\n"
        with Serving(self.folder / "all.gpkg", descriptors=40) as server, ExitStack() as stack:
            begun = [stack.enter_context(server.socket()) for _ in range(40)]
            for each in begun:
                with suppress(ConnectionError):
                    each.sendall(request % PATH.encode())
            statuses = [rest_of(each)[9:12] for each in begun]
            self.assertLessEqual(set(statuses), {b"", b"200", b"503"})
            self.assertGreaterEqual(statuses.count(b"200"), 1)
            self.assertEqual(server.ask(PATH).status, 200)
            self.assertLess(len(server.said), 10, server.said[:10])

    def test_no_descriptor(self):
        """Any call of the system may miss it, and it is no fault of the server's code."""
        none = OSError(errno.EMFILE, "x")
        for fault in (none, read_fault(none, "x")):
            self.assertEqual(problem_of(fault).status, 503)
        self.assertEqual(problem_of(OSError(errno.EIO, "x")).status, 500)

    def test_aborted_uploads_are_freed(self):
        """The client resets the connection in the middle of a body, before and after the answer has begun."""
        body = HEADER + feature("b" * 100_000) * 20
        gc.collect()
        gc.disable()  # what is not freed by itself may wait for long
        self.addCleanup(gc.enable)
        with self.near() as server:
            for path in (b"check", b"filter", b"check?keep_going", b"filter?verdict=last") * 3:
                with server.socket() as connection:
                    connection.sendall(POST % (path, 99_999_999) + body)
                    self.assertTrue(soon(lambda: server.process.server.busy))
                    connection.setsockopt(socket.SOL_SOCKET, socket.SO_LINGER, RESET)
                self.assertTrue(soon(lambda: not server.process.server.busy))
            self.assertTrue(
                soon(
                    lambda: not [
                        each
                        for each in gc.get_objects()
                        if isinstance(each, (Body, Fed, Judgement))
                    ]
                )
            )


def is_served(server):
    """Whether a server answers. On a busy machine it may find even this client slow."""
    with suppress(HTTPException, OSError):
        return server.ask("/").status == 200
    return False


def rest_of_new(server):
    """What a new connection answers to a good request."""
    with suppress(ConnectionError):
        return server.raw(GOOD)
    return b""


@unittest.skipIf(MISSING, MISSING)
class Reading(Served):
    def test_a_body_is_never_read_as_a_request(self):
        """Also not if the same head was answered a moment ago, with its body still to come."""
        body = b"GET /smuggled HTTP/1.1\r\nHost: localhost\r\n\r\n"
        for path, more in (
            ("/conformance", b"Content-Length: %d" % len(body)),
            ("/collections", b"Transfer-Encoding: chunked"),
        ):
            head = b"GET %b HTTP/1.1\r\nHost: localhost\r\n%b\r\n\r\n" % (path.encode(), more)
            sent = body if b"Length" in more else b"%x\r\n%b\r\n0\r\n\r\n" % (len(body), body)
            with self.server.socket() as connection:
                connection.sendall(head)
                time.sleep(0.1)
                connection.sendall(sent)
                connection.sendall(
                    b"GET /last HTTP/1.1\r\nHost: localhost\r\nConnection: close\r\n\r\n"
                )
                answer = rest_of(connection)
            self.assertEqual(answer.count(b"HTTP/1.1 200 "), 1, answer)
            self.assertEqual(answer.count(b"HTTP/1.1 404 "), 1, answer)
        self.assertFalse([line for line in self.server.log if "smuggled" in line])

    def test_a_client_that_hangs_up_is_no_fault_of_the_server(self):
        with self.server.socket() as connection:
            connection.sendall(POST % (b"check?line_limit=999", 1_000) + HEADER)
            time.sleep(0.1)
            connection.setsockopt(socket.SOL_SOCKET, socket.SO_LINGER, RESET)
        self.assertTrue(
            soon(
                lambda: any(
                    '"POST /check?line_limit=999 HTTP/1.1" 499 ' in line for line in self.server.log
                )
            ),
            self.server.log[-1:],
        )

    def test_a_broken_answer_is_seen_as_broken(self):
        """By HTTP/1.1 it has no last chunk. By HTTP/1.0 the connection is reset."""
        path = self.folder / "long.city.jsonl"
        lines = [feature(f"name-{number:06}") for number in range(20_000)]
        path.write_bytes(HEADER + b"".join(lines))
        command("index", "--output", str(self.folder / "long.gpkg"), str(path))
        about = os.stat(path)
        with open(path, "r+b") as file:
            file.seek(-len(lines[-1]), os.SEEK_END)
            file.write(b"{")
            file.write(b" " * (len(lines[-1]) - 3) + b"}\n")
        os.utime(path, ns=(about.st_atime_ns, about.st_mtime_ns))
        with Serving(self.folder / "long.gpkg") as server:
            for form in ("city-json-seq", "geojson&limit=20000"):
                request = (
                    f"GET /collections/long/items?f={form} HTTP/1.1\r\nHost: localhost\r\n\r\n"
                )
                answer = server.raw(request.encode())
                self.assertTrue(answer.startswith(b"HTTP/1.1 200 "), answer[:200])
                self.assertGreater(len(answer), 1 << 20)
                self.assertNotIn(b"\r\n0\r\n", answer[-20:])
                with server.socket() as connection, self.assertRaises(ConnectionResetError):
                    connection.sendall(request.replace("HTTP/1.1", "HTTP/1.0").encode())
                    while connection.recv(1 << 16):
                        pass
            self.assertTrue(any("out of date" in line for line in server.said[1:]), server.said)
