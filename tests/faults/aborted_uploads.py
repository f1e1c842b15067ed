#!/usr/bin/env python3
"""Breaks off uploads to a server of its own, and sends others slowly: what does it keep, and whom
does it still answer?

    tests/run faults/aborted_uploads [--uploads N] [PYTHON]

N uploads are broken off (1000), of each kind in turn. After these the server may have 20 MB more
than after a few whole ones. Then 100 clients send a byte now and then. Meanwhile each other request
must be answered, and each slow client is ended. PYTHON runs the server, /usr/bin/python3 if left
out. The last line is 'N passed, M failed'."""
import argparse
import contextlib
import gzip
import http.client
import itertools
import os
import pathlib
import re
import socket
import struct
import subprocess
import sys
import tempfile
import threading
import time

ROOT = pathlib.Path(__file__).resolve().parent.parent.parent
IDLE, RATE = 4, 1_000  # seconds, and bytes a second, of the server
MORE = 20  # MB that it may have after the uploads
TOGETHER = 8  # uploads at once
SLOW = 100  # clients
RESET = struct.pack("ii", 1, 0)
HEADER = (
    b'{"type":"CityJSON","version":"2.0","transform":{"scale":[1,1,1],"translate":[0,0,0]},'
    b'"CityObjects":{},"vertices":[]}\n'
)
PATHS = ("check", "filter", "check?keep_going", "filter?verdict=last", "check?summary")


def line(size):
    """A feature of about so many bytes."""
    return (
        b'{"type":"CityJSONFeature","id":"b","CityObjects":{"b":{"type":"Building","attributes":'
        b'{"a":"%b"}}},"vertices":[]}\n' % (b"x" * size)
    )


TINY = HEADER + line(10) * 20_000
BODIES = {
    "a few bytes": HEADER[:40],
    "tiny lines": TINY,
    "lines of 4 KB": HEADER + line(4_000) * 600,
    "lines of 6 MB": HEADER + line(6_000_000) * 2 + line(6_000_000)[:-9],
    "lines of 6 MB, 30 MB": HEADER + line(6_000_000) * 5,
    "packed": gzip.compress(TINY)[:-9],
    "invalid lines": HEADER + b"{}\n" * 100_000,
}


class Server:
    """A server over the example."""

    def __init__(self, python, folder):
        settings = {**os.environ, "PYTHONPATH": str(ROOT / "python")}
        index, stream = folder / "sample.gpkg", ROOT / "examples" / "sample.city.jsonl"
        words = [python, "-m", "cityseq"]
        subprocess.run(
            [*words, "index", "--quiet", "--output", str(index), str(stream)],
            env=settings,
            check=True,
        )
        self.process = subprocess.Popen(
            [
                *words,
                "serve",
                "--port",
                "0",
                "--quiet",
                "--idle-seconds",
                str(IDLE),
                *(("--min-rate", str(RATE)) if "--min-rate" in help_of(words, settings) else ()),
                str(index),
            ],
            stderr=subprocess.PIPE,
            env=settings,
        )
        first = self.process.stderr.readline().decode()
        self.port = int(first.split("/")[2].rpartition(":")[2])
        self.said = []
        threading.Thread(target=lambda: self.said.extend(self.process.stderr), daemon=True).start()

    def memory(self):
        """The resident memory in MB."""
        text = pathlib.Path(f"/proc/{self.process.pid}/status").read_text(encoding="utf-8")
        return int(text.split("VmRSS:")[1].split()[0]) / 1024

    def connect(self):
        return socket.create_connection(("127.0.0.1", self.port), 60)

    def status(self, method, path, body=None):
        """The status of an answer that is read whole. 0 if there is none."""
        connection = http.client.HTTPConnection("127.0.0.1", self.port, timeout=60)
        try:
            connection.request(method, path, body)
            answer = connection.getresponse()
            answer.read()
            return answer.status
        except OSError:
            return 0
        finally:
            connection.close()


def help_of(words, settings):
    ran = subprocess.run([*words, "serve", "--help"], env=settings, stdout=subprocess.PIPE)
    return ran.stdout.decode()


def head(path, size):
    return f"POST /{path} HTTP/1.1\r\nHost: localhost\r\nContent-Length: {size}\r\n\r\n".encode()


def abort(server, number, path, body):
    """Breaks off an upload: by a reset, or by an end."""
    with contextlib.suppress(OSError), server.connect() as connection:
        connection.settimeout(5)
        connection.sendall(head(path, len(body) * 3) + body)
        if number % 2:
            connection.setsockopt(socket.SOL_SOCKET, socket.SO_LINGER, RESET)


def abort_all(server, count):
    """Breaks off so many uploads, some of them at once."""
    kinds = itertools.product(PATHS, BODIES.values())
    work = enumerate(itertools.islice(itertools.cycle(kinds), count))
    lock = threading.Lock()

    def run():
        while True:
            with lock:
                number, (path, body) = next(work, (None, (None, None)))
            if number is None:
                return
            abort(server, number, path, body)

    threads = [threading.Thread(target=run) for _ in range(TOGETHER)]
    for each in threads:
        each.start()
    for each in threads:
        each.join()


def slow_bodies(server):
    """How many clients that send a byte a second are left after a while, how many requests were
    answered meanwhile, and how many were not."""
    clients = [server.connect() for _ in range(SLOW)]
    for each in clients:
        each.sendall(head("check", 100_000))
        each.setblocking(False)
    answered = failed = 0
    end = time.monotonic() + 4 * IDLE
    while time.monotonic() < end:
        for each in list(clients):
            try:
                each.send(b" ")
                each.recv(1)  # of an answer, or none at the end
            except BlockingIOError:
                continue
            except OSError:
                pass
            clients.remove(each)
            each.close()
        for _ in range(10):
            is_answered = server.status("GET", "/conformance") == 200
            answered, failed = answered + is_answered, failed + (not is_answered)
            time.sleep(0.1)
    left = len(clients)
    for each in clients:
        each.close()
    return left, answered, failed


class Checks:
    """Counts what passed."""

    def __init__(self):
        self.passed = self.failed = 0

    def __call__(self, name, is_right, told):
        self.passed, self.failed = self.passed + bool(is_right), self.failed + (not is_right)
        print(f"{'ok' if is_right else 'WRONG'}: {name}: {told}", flush=True)


def main():
    parser = argparse.ArgumentParser(description=__doc__.split("\n")[0])
    parser.add_argument("--uploads", type=int, default=1_000)
    parser.add_argument("python", nargs="?", default="/usr/bin/python3")
    given = parser.parse_args()
    check = Checks()
    with tempfile.TemporaryDirectory() as folder:
        server = Server(given.python, pathlib.Path(folder))
        fresh = server.memory()
        whole = HEADER + line(6_000_000) * 5
        for path in PATHS:
            check(f"a whole upload to {path}", server.status("POST", f"/{path}", whole) == 200, "")
        before = server.memory()
        begin = time.monotonic()
        abort_all(server, given.uploads)
        took = time.monotonic() - begin
        time.sleep(2 * IDLE)
        after = server.memory()
        check(
            f"memory after {given.uploads} aborted uploads",
            after <= before + MORE,
            f"{after:.0f} MB; before {before:.0f} MB, fresh {fresh:.0f} MB; {took:.0f} s",
        )
        left, answered, failed = slow_bodies(server)
        check("requests beside slow bodies", not failed, f"{answered} answered, {failed} not")
        check("slow bodies are ended", not left, f"{left} of {SLOW} are left")
        check("the next upload", server.status("POST", "/check", TINY) == 200, "")
        check("memory at the end", server.memory() <= before + MORE, f"{server.memory():.0f} MB")
        server.process.terminate()
        check("the end", server.process.wait(30) == 0, "")
        said = b"".join(server.said).decode()
        check("nothing else is said", re.fullmatch(r"(?:stopped by .*\n)?", said), said[-500:])
    print(f"{check.passed} passed, {check.failed} failed")
    return int(check.failed > 0)


if __name__ == "__main__":
    sys.exit(main())
