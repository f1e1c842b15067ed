#!/usr/bin/env python3
"""Sends bad requests to a server of its own, and looks at each answer and at the next good one.

    tests/faults/serve_attack.py [--connections N] [--time] [PYTHON]

PYTHON runs the server, /usr/bin/python3 if left out. N connections send nothing (500). --time
prints how long each test case took. Each answer has to be a JSON problem (RFC 9457) with the status
that the case names, or a text if aiohttp could not read the request. The server may say nothing
with a traceback, and has to end well at the end. Slow heads and more connections are left to the
web server in front. The last line is 'N passed, M failed', and the status is 0 if none failed.
"""
import argparse
import contextlib
import gzip
import json
import os
import pathlib
import resource
import select
import signal
import socket
import subprocess
import sys
import tempfile
import threading
import time
from concurrent.futures import ThreadPoolExecutor

ROOT = pathlib.Path(__file__).resolve().parent.parent.parent
IDLE = 2  # seconds, of the server
MOST_BODY = 30_000_000
MOST_REQUESTS = 8
MOST_BODIES = 4
TIMEOUT = 20.0
UNREAD = 400  # the status of a request that is not HTTP
GOOD = b"GET /conformance HTTP/1.1\r\nHost: localhost\r\nConnection: close\r\n\r\n"
HEADER = (
    b'{"type":"CityJSON","version":"2.0","transform":{"scale":[1,1,1],"translate":[0,0,0]},'
    b'"CityObjects":{},"vertices":[]}\n'
)
FEATURE = (
    b'{"type":"CityJSONFeature","id":"b","CityObjects":{"b":{"type":"Building"}},'
    b'"vertices":[]}\n'
)


class Server:
    """A server over the example, with small limits."""

    def __init__(self, python, folder):
        self._python = [python, "-m", "cityseq"]
        self._settings = {**os.environ, "PYTHONPATH": str(ROOT / "python")}
        index = folder / "sample.gpkg"
        stream = ROOT / "examples" / "sample.city.jsonl"
        subprocess.run(
            [*self._python, "index", "--quiet", "--output", str(index), str(stream)],
            env=self._settings,
            check=True,
        )
        self.log = folder / "log"
        with open(self.log, "wb") as log:
            self.process = subprocess.Popen(
                [
                    *self._python,
                    "serve",
                    "--port",
                    "0",
                    "--idle-seconds",
                    str(IDLE),
                    "--max-body",
                    str(MOST_BODY),
                    "--max-requests",
                    str(MOST_REQUESTS),
                    "--max-bodies",
                    str(MOST_BODIES),
                    "--stop-seconds",
                    "3",
                    str(index),
                ],
                stdout=log,
                stderr=subprocess.PIPE,
                env=self._settings,
            )
        first = self.process.stderr.readline().decode()
        if not first.startswith("http://"):
            sys.exit(f"the server did not start: {first}")
        self.port = int(first.split("/")[2].rpartition(":")[2])
        self.said = []
        self._reader = threading.Thread(target=self._read, daemon=True)
        self._reader.start()

    def _read(self):
        self.said.extend(line.decode("utf-8", "replace") for line in self.process.stderr)

    def connect(self):
        return socket.create_connection(("127.0.0.1", self.port), TIMEOUT)

    def stop(self):
        """Ends it, and returns its status."""
        self.process.send_signal(signal.SIGTERM)
        try:
            status = self.process.wait(15)
        except subprocess.TimeoutExpired:
            self.process.kill()
            status = None
        self._reader.join(5)
        return status


def read_all(connection):
    """What comes until the connection ends."""
    found = b""
    with contextlib.suppress(OSError):
        while True:
            piece = connection.recv(1 << 16)
            if not piece:
                break
            found += piece
    return found


def parted(answer):
    """The status, the headers and the body of the last of some answers."""
    head, _, body = answer.partition(b"\r\n\r\n")
    if head.startswith(b"HTTP/1.1 100"):
        return parted(body)
    lines = head.decode("latin-1").split("\r\n")
    status = int(lines[0].split()[1]) if lines[0].startswith("HTTP/") else 0
    return (
        status,
        {
            name.lower(): value.strip()
            for name, _, value in (line.partition(":") for line in lines[1:])
        },
        body,
    )


def exchange(server, *pieces):
    """Sends some bytes, and returns what is answered."""
    with server.connect() as connection:
        for piece in pieces:
            with contextlib.suppress(OSError):
                connection.sendall(piece)
        return read_all(connection)


def mistake(answer, *wanted):
    """What is wrong with an answer that should be a problem; nothing if all is right."""
    if not answer:
        return "no answer"
    status, headers, body = parted(answer)
    if status not in wanted:
        return f"status {status}, and not {wanted}: {body[:200]}"
    if any(text in body for text in (b"Traceback", b'File "', str(ROOT).encode())):
        return f"it tells too much: {body[:300]}"
    if status == UNREAD and headers.get("content-type") == "text/plain; charset=utf-8":
        return ""
    if headers.get("content-type") != "application/problem+json":
        return f"no problem: {headers.get('content-type')}"
    try:
        told = json.loads(body)
    except ValueError:
        return f"no JSON: {body[:200]}"
    if told.get("status") != status or not all(
        isinstance(told.get(name), str) and told[name] for name in ("type", "title", "detail")
    ):
        return f"no whole problem: {told}"
    return ""


def get(path, *headers):
    lines = [f"GET {path} HTTP/1.1", "Host: localhost", "Connection: close", *headers, "", ""]
    return "\r\n".join(lines).encode("utf-8", "surrogateescape")


def post(path, *headers):
    return get(path, *headers).replace(b"GET", b"POST", 1)


def sized(path, body, *headers):
    return post(path, f"Content-Length: {len(body)}", *headers) + body


def raw(request, *wanted):
    """A test case that sends bytes and looks at the answer."""
    return lambda server: mistake(exchange(server, request), *wanted)


# ---- test cases: each is given the server, and returns what is wrong

LONG = "x" * (1 << 20)
ITEMS = "/collections/sample/items"
NOT_HTTP = {
    "a hello of TLS": (b"\x16\x03\x01\x02\0\x01\0\x01\xfc\x03\x03" + bytes(64) + b"\r\n\r\n", 400),
    "no HTTP": (b"hello\r\n\r\n", 400),
    "zeros": (bytes(4096), 400),
    "a version that there is not": (GOOD.replace(b"1.1", b"9.9"), 400, 505),
    "a method that there is not": (GOOD.replace(b"GET", b"BREW"), 400, 405),
    "a method that no resource has": (GOOD.replace(b"GET", b"DELETE"), 405),
    "a header without a colon": (GOOD.replace(b"Connection:", b"Connection"), 400),
    "a name of a header with a space": (GOOD.replace(b"Connection:", b"Conn ection:"), 400),
    "a NUL in a header": (GOOD.replace(b"close", b"cl\0se"), 400),
    "two lengths that differ": (sized("/check", HEADER, "Content-Length: 3"), 400),
    "two equal lengths": (sized("/check", HEADER, f"Content-Length: {len(HEADER)}"), 400),
    "a length and chunks": (sized("/check", HEADER, "Transfer-Encoding: chunked"), 400),
    "a length below 0": (post("/check", "Content-Length: -1"), 400),
    "a length that is none": (post("/check", "Content-Length: many"), 400),
    "a length of 2^70": (post("/check", f"Content-Length: {1 << 70}"), 400, 413),
    "no length of a chunk": (post("/check", "Transfer-Encoding: chunked") + b"zz\r\n", 400),
    "no host": (b"GET / HTTP/1.1\r\nConnection: close\r\n\r\n", 400),
    "two hosts": (get("/", "Host: localhost"), 400),
    "a host of others": (get("/").replace(b"localhost", b"evil.example"), 421),
    "a host that is none": (get("/").replace(b"localhost", b"a b"), 400, 421),
    "a host with a user": (get("/").replace(b"localhost", b"me@localhost"), 400, 421),
    "a host with a path": (get("/").replace(b"localhost", b"localhost/x"), 400, 421),
    "an expectation": (post("/check", "Expect: wonders", "Content-Length: 0"), 417),
    "a path of 1 MB": (get("/" + LONG), 400),
    "a header of 1 MB": (get("/", f"X: {LONG}"), 400),
    "10,000 headers": (get("/", *(f"X{number}: {number}" for number in range(10_000))), 400, 431),
    "200 headers": (get("/", *(f"X{number}: {number}" for number in range(200))), 400, 431),
}
QUERIES = {
    "bbox": (
        "5000,0,1000,1",
        "NaN,0,1,1",
        "0,0,1e400,1",
        "inf,0,1,1",
        "0,0,2,1,1,1",
        "0,5,1,1",
        "",
        "1,2,3",
        "1,2,3,4,",
        "a,b,c,d",
        "0x1,0,1,1",
        "1_0,0,20,1",
        "0,0,1;1,1",
        "84000,447000,1e99,448000",
        "%00,0,1,1",
        "0,0,1,%ff",
        "1" * 200 + ",0,1,1",
        "%D9%A1,0,5,5",
        "181,0,182,1,",
        "1e99999999999999999999,0,1,1",
        "0e-99999999999999999999,0,1,1",
    ),
    "limit": ("0", "-1", "x", "1e3", "", "1.5", "%00"),
    "after": ("-1", "x", "9" * 40),
    "crs": ("EPSG:7415", "http://www.opengis.net/def/crs/EPSG/0/25832", "", "%00", "file:///etc"),
    "bbox-crs": ("EPSG:7415", "http://www.opengis.net/def/crs/EPSG/0/1", "x"),
    "f": ("xml", "", "%00", "../html"),
    "type": ("Shed", "", "Building%00", "Building%0ARoad"),
    "lod": ("%ff", "2%0A1"),
    "ids": ("%ff", "a%0Ab", "%ed%a0%80"),
    "datetime": ("yesterday", "2020-01-01/x", "a/b/c", "2020-13-01", "2020-01-01T25:00:00Z"),
    "nothing": ("1",),
}
PATHS = {
    "/nothing": (404,),
    "/collections/none": (404,),
    "/collections/none/items": (404,),
    "/collections/%00": (404,),
    f"{ITEMS}/none": (404,),
    f"{ITEMS}/%00": (404,),
    f"{ITEMS}/a%0Ab": (404,),
    f"{ITEMS}/%2e%2e%2f%2e%2e": (404,),
    f"{ITEMS}/%ff": (400,),
    f"{ITEMS}/{'y' * 8000}": (404,),
    f"{ITEMS}/{LONG}": (400,),
    "/../../etc/passwd": (404,),
    "/%2e%2e/%2e%2e/etc/passwd": (404,),
    "/static/../page.js": (404,),
    "/static/nothing": (404,),
    "/static/%2e%2e%2fhtml.py": (404,),
    "/static/page.js%00": (404,),
    "//static/page.js": (404,),
    "/check": (405,),
    "/filter": (405,),
    f"{ITEMS}?limit=1&limit=2": (400,),
    f"{ITEMS}?f=city-json-seq&crs=http://www.opengis.net/def/crs/OGC/1.3/CRS84": (400,),
}
BOMB = gzip.compress(HEADER + b" " * (200 << 20), 9)
BODIES = {
    "a body that is said to be too long": (post("/check", f"Content-Length: {MOST_BODY + 1}"), 413),
    "a body that is too long": (sized("/check", HEADER + FEATURE * 350_000), 413),
    "a gzip bomb": (sized("/check", BOMB), 413),
    "a gzip bomb to filter": (sized("/filter", BOMB), 413),
    "a gzip bomb in a gzip bomb": (sized("/check", gzip.compress(BOMB * 200, 1)), 413),
    "a broken archive": (sized("/check", gzip.compress(HEADER)[:10] + bytes(50)), 400),
    "an archive that is cut short": (sized("/check", gzip.compress(HEADER + FEATURE)[:-9]), 400),
    "a body that is no gzip": (sized("/check", HEADER, "Content-Encoding: gzip"), 400),
    "a body by br": (sized("/check", HEADER, "Content-Encoding: br"), 415),
    "a body by Zstandard": (sized("/check", b"\x28\xb5\x2f\xfd" + bytes(50)), 415),
    "a body from a page elsewhere": (sized("/check", HEADER, "Origin: https://evil.example"), 403),
    "a limit above the server's": (sized("/check?line_limit=1000000000", HEADER), 400),
    "a flag that is none": (sized("/check?keep_going=maybe", HEADER), 400),
    "a box that is none": (sized("/filter?bbox=1,2", HEADER), 400),
    "a type that is none": (sized("/filter?type=Shed", HEADER), 400),
    "a verdict that is none": (sized("/filter?verdict=first", HEADER), 400),
    "a parameter that is none": (sized("/check?bbox=1,2,3,4", HEADER), 400),
    "filter by HTTP/1.0": (sized("/filter", HEADER).replace(b"HTTP/1.1", b"HTTP/1.0"), 505),
}


IN_CHUNKS = post("/check", "Transfer-Encoding: chunked")


def chunked(text, size=1 << 16):
    for begin in range(0, len(text), size):
        piece = text[begin : begin + size]
        yield b"%x\r\n%b\r\n" % (len(piece), piece)


def request_in_a_body(server):
    """What follows the head of a `GET` is its body, also where the same head came a moment ago."""
    body = get("/nothing")
    head = get("/conformance", f"Content-Length: {len(body)}").replace(b"close", b"keep-alive")
    for _ in range(3):
        with server.connect() as connection:
            connection.sendall(head)
            time.sleep(0.1)
            connection.sendall(body + GOOD)
            answer = read_all(connection)
        if answer.count(b"HTTP/1.1 200 ") != 2 or b"HTTP/1.1 404 " in answer:
            return f"{answer[:200]}"
    return ""


def too_long_in_chunks(server):
    text = HEADER + FEATURE * 350_000
    return mistake(exchange(server, IN_CHUNKS, *chunked(text)), 413)


def no_chunk_in_the_middle(server):
    pieces = chunked(HEADER + FEATURE * 30_000)
    return mistake(exchange(server, IN_CHUNKS, *pieces, b"zz\r\n"), 400, 408)


def body_byte_by_byte(server):
    """A client that sends a byte now and then does not hold a place for ever."""
    with server.connect() as connection:
        end = time.monotonic() + IDLE + 6
        connection.sendall(post("/check", "Content-Length: 1000"))
        with contextlib.suppress(OSError):
            while time.monotonic() < end:
                connection.sendall(b" ")
                time.sleep(0.3)
                if select.select([connection], [], [], 0)[0]:
                    return mistake(read_all(connection), 408)
    return "it is still open"


def body_that_stops(server):
    return mistake(exchange(server, post("/check", "Content-Length: 100000"), HEADER), 408)


def client_that_goes_away(server):
    for count in (0, 10, len(HEADER), 200_000):
        body = (HEADER + FEATURE * 5_000)[:count]
        with server.connect() as connection:
            connection.sendall(post("/check", "Content-Length: 3000000") + body)
            connection.setsockopt(socket.SOL_SOCKET, socket.SO_LINGER, b"\1\0\0\0\0\0\0\0")
    return ""


def client_that_does_not_read(server):
    """The answer is broken off, and it has no last chunk."""
    with server.connect() as connection:
        connection.setsockopt(socket.SOL_SOCKET, socket.SO_RCVBUF, 1 << 16)
        connection.sendall(post("/filter", "Transfer-Encoding: chunked"))
        connection.settimeout(IDLE + 6)
        with contextlib.suppress(OSError):
            for piece in chunked(HEADER + FEATURE * 300_000):
                connection.sendall(piece)
            connection.sendall(b"0\r\n\r\n")
        time.sleep(IDLE + 3)
        connection.settimeout(TIMEOUT)
        answer = read_all(connection)
    return "the answer looks whole" if b"\r\n0\r\n" in answer else ""


def invalid_stream_to_filter(server):
    """What is kept before an invalid line is not taken for the whole."""
    text = HEADER + FEATURE * 100_000 + b"{}\n" + FEATURE * 9_000
    answer = exchange(server, sized("/filter", text))
    if not answer.startswith(b"HTTP/1.1 200"):
        return f"{answer[:100]}"
    return "the answer has its last chunk" if b"\r\n0\r\n" in answer[-3000:] else ""


def many_bodies_at_once(server):
    """With too many bodies one more is refused, and other requests are answered."""
    with contextlib.ExitStack() as stack:
        for _ in range(MOST_BODIES * 3):
            connection = stack.enter_context(server.connect())
            connection.sendall(post("/check", "Content-Length: 1000"))
        time.sleep(0.3)
        answer, other = exchange(server, sized("/check", HEADER)), exchange(server, GOOD)
    wrong = mistake(answer, 503)
    if parted(other)[0] != 200:
        return f"another request gets {other[:100]}"
    return wrong or ("" if "retry-after" in parted(answer)[1] else "no Retry-After")


def many_requests_at_once(server):
    """With too many open requests one more is refused."""
    with contextlib.ExitStack() as stack:
        for _ in range(MOST_REQUESTS):
            connection = stack.enter_context(server.connect())
            connection.setsockopt(socket.SOL_SOCKET, socket.SO_RCVBUF, 1 << 12)
            connection.sendall(get(f"{ITEMS}?f=city-json-seq").replace(b"close", b"keep-alive") * 9)
        time.sleep(0.5)
        answer = exchange(server, GOOD)
    wrong = mistake(answer, 503)
    return wrong or ("" if "retry-after" in parted(answer)[1] else "no Retry-After")


def answers_that_are_not_read(server):
    """A client that reads none of a few short answers is dropped."""
    with server.connect() as connection:
        connection.setsockopt(socket.SOL_SOCKET, socket.SO_RCVBUF, 1 << 16)
        request = get(f"{ITEMS}?f=city-json-seq").replace(b"close", b"keep-alive")
        connection.sendall(request * 30)
        time.sleep(IDLE + 4)
        answer = read_all(connection)
    return "all are answered" if answer.count(b"HTTP/1.1 200 ") == 30 else ""


def requests_without_reading(server):
    """A client that sends requests and reads no answer is not read on, and dropped."""
    with server.connect() as connection, contextlib.suppress(OSError):
        connection.settimeout(IDLE + 6)
        for _ in range(1_000):
            connection.sendall(get("/api").replace(b"Connection: close\r\n", b"") * 1_000)
        return "all are read"
    return ""


def another_protocol(server):
    """What follows a request for another protocol is not held, however much it is."""
    before = memory(server)
    with server.connect() as connection, contextlib.suppress(OSError):
        connection.settimeout(3)
        connection.sendall(
            get("/collections/sample/items?limit=100", "Upgrade: websocket").replace(
                b"Connection: close", b"Connection: Upgrade"
            )
        )
        for _ in range(1_000):
            connection.sendall(bytes(100_000))
    grown = memory(server) - before
    return f"it holds {grown >> 20} MB more" if grown > 32 << 20 else ""


def memory(server):
    """The resident memory of a server, in bytes."""
    text = pathlib.Path(f"/proc/{server.process.pid}/status").read_text(encoding="utf-8")
    return int(text.split("VmRSS:")[1].split()[0]) << 10


def silent_connections(count):
    """A case with so many connections that send nothing, as many as this process may open."""

    def case(server):
        soft, hard = resource.getrlimit(resource.RLIMIT_NOFILE)
        wanted = count + 100
        if soft < wanted:
            with contextlib.suppress(ValueError, OSError):
                resource.setrlimit(resource.RLIMIT_NOFILE, (wanted, max(wanted, hard)))
        with contextlib.ExitStack() as stack:
            for number in range(count):
                try:
                    stack.enter_context(server.connect())
                except OSError as fault:
                    return f"after {number} connections: {fault}"
                if number % 250 == 249:
                    status = parted(exchange(server, GOOD))[0]
                    if status != 200:
                        return f"beside {number + 1} connections: status {status}"
        return ""

    return case


# cases that wait, which are tried all at once
SLOW = {
    "a body that stops": body_that_stops,
    "a body byte by byte": body_byte_by_byte,
    "no length of a later chunk": no_chunk_in_the_middle,
    "a client that does not read": client_that_does_not_read,
    "answers that are not read": answers_that_are_not_read,
}


def cases(connections):
    """All test cases: a name, and what looks."""
    for name, (request, *wanted) in {**NOT_HTTP, **BODIES}.items():
        yield name, raw(request, *wanted)
    for name, texts in QUERIES.items():
        for text in texts:
            yield f"{name}={text[:60]}", raw(get(f"{ITEMS}?{name}={text}"), 400)
    for path, wanted in PATHS.items():
        yield f"the path {path[:60]}", raw(get(path), *wanted)
    yield "a body that is too long, in chunks", too_long_in_chunks
    yield "a request in a body", request_in_a_body
    yield "clients that go away", client_that_goes_away
    yield "an invalid stream to filter", invalid_stream_to_filter
    yield "many bodies at once", many_bodies_at_once
    yield "many requests at once", many_requests_at_once
    yield "requests without reading", requests_without_reading
    yield "another protocol", another_protocol
    yield f"{connections} connections that send nothing", silent_connections(connections)


def is_answered(server):
    """Whether the next good request is answered. After a case with many, some may still end."""
    end = time.monotonic() + IDLE + 5
    while time.monotonic() < end:
        with contextlib.suppress(OSError):
            if parted(exchange(server, GOOD))[0] == 200:
                return True
        time.sleep(0.2)
    return False


def end_of(server):
    """What is wrong with the end of the server, and with what it said and logged."""
    status = server.stop()
    if status != 0:
        yield f"the server ended with {status}"
    said = "".join(server.said)
    if "Traceback" in said or 'File "' in said:
        yield f"the server said: {said[-2000:]}"
    log = server.log.read_bytes()
    if any(sign < 32 and sign != 10 for sign in log) or 127 in log:
        yield "the log has control characters"
    if b"Traceback" in log or not log:
        yield "the log has a traceback, or nothing"


def tried(server, name, case):
    """The name of a test case, what is wrong, and how long it took."""
    begin = time.monotonic()
    try:
        wrong = case(server)
    except OSError as fault:
        wrong = str(fault)
    wrong = wrong or ("" if is_answered(server) else "the next request is not answered")
    return name, wrong, time.monotonic() - begin


def tried_all(server, connections):
    """What came of each test case."""
    with ThreadPoolExecutor(len(SLOW)) as pool:
        yield from pool.map(lambda item: tried(server, *item), SLOW.items())
    for name, case in cases(connections):
        yield tried(server, name, case)


def main():
    parser = argparse.ArgumentParser(description=__doc__.split("\n")[0])
    parser.add_argument("--connections", type=int, default=500)
    parser.add_argument("--time", action="store_true")
    parser.add_argument("python", nargs="?", default="/usr/bin/python3")
    given = parser.parse_args()
    passed = failed = 0
    with tempfile.TemporaryDirectory() as folder:
        server = Server(given.python, pathlib.Path(folder))
        for name, wrong, took in tried_all(server, given.connections):
            passed, failed = passed + (not wrong), failed + bool(wrong)
            if wrong:
                print(f"{name}: {wrong}")
            if given.time:
                print(f"{took:6.2f} s  {name}", flush=True)
        for wrong in end_of(server):
            failed += 1
            print(wrong)
    print(f"{passed} passed, {failed} failed")
    return int(failed > 0)


if __name__ == "__main__":
    sys.exit(main())
