#!/usr/bin/env python3
"""Cuts by an index from web servers that never end an answer, over a minute or two.

    tests/run faults/slow_servers

Each server sends some bytes a second, so that no single read takes long: of the head, of the body,
of redirections, or `100 Continue` without end, at once or one a second. Each cut must end within
the time that SECURITY.md names, with status 3 and one line. The last server is slow, but faster
than the least rate, and its cut must be right. It listens on loopback only. The last line is 'N passed,
M failed', and the status is 1 where one failed.
"""
import os
import re
import subprocess
import sys
import tempfile
import threading
import time
from concurrent.futures import ThreadPoolExecutor
from http.server import BaseHTTPRequestHandler, ThreadingHTTPServer
from pathlib import Path

ROOT = Path(__file__).resolve().parent.parent.parent
SIZE, RATE = 300_000, 20_000  # bytes of the stream, and a second of the slow server
HEADER = (
    b'{"type":"CityJSON","version":"2.0","transform":{"scale":[1,1,1],"translate":[0,0,0]},'
    b'"CityObjects":{},"vertices":[]}\n'
)
ENDLESS = ("head", "body", "status", "continue", "continue a second", "redirects", "silence")


class Handler(BaseHTTPRequestHandler):
    """Answers as the mode of the server says."""

    protocol_version = "HTTP/1.1"

    def log_message(self, *_):
        pass

    def drip(self, piece, pause):
        self.close_connection = True
        if hasattr(self, "_headers_buffer"):  # a head has begun
            self.flush_headers()
        while True:
            self.wfile.write(piece)
            time.sleep(pause)

    def do_GET(self):
        mode, text = self.server.mode, self.server.text
        begin, last = map(int, re.fullmatch(r"bytes=(\d+)-(\d+)", self.headers["Range"]).groups())
        if mode == "silence":
            time.sleep(1_000)
        if mode == "status":
            self.drip(b"H", 1)
        if mode.startswith("continue"):
            self.drip(b"HTTP/1.1 100 Continue\r\n\r\n", 1 if mode.endswith("second") else 0)
        if mode == "redirects":
            self.send_response(302)
            self.send_header("Location", self.path)
            self.drip(b"X: y\r\n", 1)
        self.send_response(206)
        self.send_header("Content-Range", f"bytes {begin}-{last}/{len(text)}")
        self.send_header("Content-Length", str(last + 1 - begin))
        if mode == "head":
            self.drip(b"X: y\r\n", 1)
        self.end_headers()
        if mode == "body":
            self.drip(b"{", 1)
        for place in range(begin, last + 1, RATE):
            self.wfile.write(text[place : min(place + RATE, last + 1)])
            time.sleep(1)


class Server(ThreadingHTTPServer):
    """A server that says nothing of clients that go away."""

    daemon_threads = True

    def handle_error(self, *_):
        pass


def feature(number):
    name = f"b{number}"
    return (
        f'{{"type":"CityJSONFeature","id":"{name}","CityObjects":{{"{name}":'
        f'{{"type":"Road"}}}},"vertices":[]}}\n'
    ).encode()


def run(*words):
    """Returns the output, the message, the status, and the seconds of a run of the command."""
    begin = time.monotonic()
    ran = subprocess.run(
        [sys.executable, "-m", "cityseq", *words],
        capture_output=True,
        env={**os.environ, "PYTHONPATH": str(ROOT / "python")},
    )
    return ran.stdout, ran.stderr.decode(), ran.returncode, time.monotonic() - begin


def fault_of(mode, index, text):
    """Returns what is wrong with the cut from a server of a mode; empty where nothing is."""
    server = Server(("127.0.0.1", 0), Handler)
    server.mode, server.text = mode, text
    threading.Thread(target=server.serve_forever, daemon=True).start()
    base = f"http://127.0.0.1:{server.server_address[1]}"
    output, said, status, seconds = run("filter", "--index", index, "--base", base)
    server.shutdown()
    if mode == "slow":
        is_right = (output, said, status) == (text, "", 0)
    else:
        is_right = (output, status, said.count("\n")) == (b"", 3, 1) and "read fault: " in said
    # the time of a whole answer, and that of a busy machine to start
    is_timely = seconds < SIZE / 4_096 + 60 + 20
    told = f"{mode}: {seconds:.0f} s, status {status}: {said.strip() or len(output)}"
    print(told, flush=True)
    return "" if is_right and is_timely else told


def main():
    lines, number = [HEADER], 0
    while sum(map(len, lines[-1:])) * number < SIZE:
        lines.append(feature(number))
        number += 1
    text = b"".join(lines)
    with tempfile.TemporaryDirectory() as folder:
        stream, index = Path(folder, "s.city.jsonl"), str(Path(folder, "s.gpkg"))
        stream.write_bytes(text)
        if run("index", "--output", index, str(stream))[2] != 0:
            sys.exit("the stream is not indexed")
        modes = [*ENDLESS, "slow"]
        with ThreadPoolExecutor(len(modes)) as pool:
            faults = list(pool.map(lambda mode: fault_of(mode, index, text), modes))
    failed = sum(map(bool, faults))
    print(f"{len(faults) - failed} passed, {failed} failed")
    return int(failed > 0)


if __name__ == "__main__":
    sys.exit(main())
