#!/usr/bin/env bash
# Measures the server, each case in one run:
#
#   tile    wrk with 64 connections asks for a box of 100 features, of PROCESSES processes of
#           gunicorn; then for the same bytes as a file of nginx: requests a second, their 50th and
#           99th percentile, and the memory of the server
#   boxes   the same of boxes by chance
#   one     one connection: the time of such an answer beyond that of the cut by `Index.filter`
#   check   POST /check of the whole stream by curl, as a ratio to `cityseq check` of the file
#   memory  64 clients send the stream slowly: the memory beyond that of the idle server
#
#   bench/serve.sh [CASE..]      (all)
#
# MEGABYTES is the size of the stream (1000), TIME how many seconds wrk runs (60), PROCESSES how many
# there are (4), and ROUNDS how often `one` and `check` are tried (5). It needs wrk, nginx, gunicorn and curl,
# the library python/cityseq/libcityseq.so and the built program, which PROGRAM may name. PYTHON may
# name python3.
set -euo pipefail
cd "$(dirname "$0")"
mkdir -p out/serve
export PYTHONPYCACHEPREFIX=$PWD/out/compiled PATH=$PATH:/usr/sbin
unset PYTHONDONTWRITEBYTECODE
[ $# -gt 0 ] || set -- tile boxes one check memory
megabytes=${MEGABYTES:-1000}
stream=out/serve/grid-$megabytes.city.jsonl
[ -s "$stream" ] || { ./make_stream.py grid "$megabytes" > "$stream.part" && mv "$stream.part" "$stream"; }
PYTHONPATH=../python "${PYTHON:-/usr/bin/python3}" - "$stream" \
  "$(realpath -m "${PROGRAM:-../crates/cityseq/out/cityseq}")" "${TIME:-60}" "${PROCESSES:-4}" \
  "${ROUNDS:-5}" "$@" <<'MEASURE'
import contextlib
import http.client
import io
import os
import re
import socket
import subprocess
import sys
import threading
import time
from pathlib import Path
from statistics import median

import cityseq

stream, program, seconds, processes, rounds, *cases = sys.argv[1:]
seconds, processes, rounds = int(seconds), int(processes), int(rounds)
folder = Path(stream).parent
index = folder / (Path(stream).name.split(".")[0] + ".gpkg")
name = Path(stream).name.split(".")[0]
CLIENTS = 64


def built_index():
    if not index.exists() or index.stat().st_mtime < Path(stream).stat().st_mtime:
        cityseq.index([stream], str(index))


def free_port():
    with socket.socket() as found:
        found.bind(("127.0.0.1", 0))
        return found.getsockname()[1]


def children(pid):
    """A process and those that it started."""
    found = [pid]
    with contextlib.suppress(OSError):
        for each in Path(f"/proc/{pid}/task").iterdir():
            for child in (each / "children").read_text().split():
                found += children(int(child))
    return found


def memory(pid, field="VmHWM"):
    """The resident memory of a process and its children in MB."""
    total = 0
    for each in children(pid):
        text = Path(f"/proc/{each}/status").read_text()
        total += int(re.search(rf"{field}:\s+(\d+)", text).group(1))
    return total / 1024


@contextlib.contextmanager
def served(*words):
    """The server, with its port and its process."""
    port = free_port()
    with running(port, [sys.executable, "-m", "cityseq", "serve", "--quiet", "--port", str(port), *words]) as found:
        yield found


def many():
    """As many processes of gunicorn as are asked for, with their port and the first process."""
    port = free_port()
    return running(port, ["gunicorn", "--bind", f"127.0.0.1:{port}", "--workers", str(processes), "--worker-class",
                          "aiohttp.GunicornWebWorker", f"cityseq.serve:runner({str(index)!r}, quiet=True, jobs=1)"])


@contextlib.contextmanager
def running(port, words):
    """A program that listens at a port, with the port and its process."""
    server = subprocess.Popen(words, stderr=subprocess.PIPE)
    server.stderr.readline()
    for _ in range(100):
        with contextlib.suppress(OSError), socket.create_connection(("127.0.0.1", port)):
            break
        time.sleep(0.05)
    threading.Thread(target=server.stderr.read, daemon=True).start()
    try:
        yield port, server.pid
    finally:
        server.terminate()
        server.wait(30)


@contextlib.contextmanager
def nginx():
    """nginx over the folder, with one process for each processor, as it is usual."""
    port = free_port()
    settings = folder / "nginx.conf"
    settings.write_text(f"""
worker_processes auto; pid {folder.resolve()}/nginx.pid; error_log stderr; daemon off;
events {{ worker_connections 1024; }}
http {{ access_log off; sendfile on; tcp_nopush on; keepalive_requests 1000000000;
  client_body_temp_path {folder.resolve()}/t1; proxy_temp_path {folder.resolve()}/t2;
  fastcgi_temp_path {folder.resolve()}/t3; uwsgi_temp_path {folder.resolve()}/t4; scgi_temp_path {folder.resolve()}/t5;
  server {{ listen 127.0.0.1:{port}; root {folder.resolve()}; }} }}
""")
    web = subprocess.Popen(["nginx", "-p", str(folder), "-c", str(settings.resolve())], stderr=subprocess.DEVNULL)
    time.sleep(1)
    try:
        yield port
    finally:
        web.terminate()
        web.wait(10)


def wrk(url, *script):
    """Requests a second, and the 50th and 99th percentile, as wrk has them."""
    ran = subprocess.run(["wrk", "-t2", f"-c{CLIENTS}", f"-d{seconds}s", "--latency", "--timeout", "30s", *script, url],
                         stdout=subprocess.PIPE, check=True)
    said = ran.stdout.decode()
    if "Non-2xx" in said or "Socket errors" in said:
        print(said)
    rate = float(re.search(r"Requests/sec:\s+([\d.]+)", said).group(1))
    return rate, *(re.search(rf"^ +{share}% +(\S+)", said, re.M).group(1) for share in (50, 99))


def corner():
    """The least x and y of the stream."""
    with cityseq.Index(index) as opened:
        return [float(edge) for edge in opened.streams[0].translate[1:-1].replace('"', "").split(",")[:2]]


def box():
    """A box of 100 features in the middle of the stream: ten in each of ten rows, of 10 m each."""
    rows = max(os.path.getsize(stream) // 2_000 // 1_000 // 2, 12)
    left, low = corner()
    low += (rows - 12) * 10
    return f"{left + 5000:.3f},{low:.3f},{left + 5099.5:.3f},{low + 99.5:.3f}"


def path_of(which):
    return f"/collections/{name}/items?f=city-json-seq&bbox={which}"


def got(port, path):
    connection = http.client.HTTPConnection("127.0.0.1", port)
    connection.request("GET", path)
    answer = connection.getresponse()
    text = answer.read()
    if answer.status != 200:
        sys.exit(f"{answer.status}: {text[:300]}")
    return text


def tile():
    which = box()
    with many() as (port, pid):
        text = got(port, path_of(which))
        (folder / "tile.city.jsonl").write_bytes(text)
        print(f"tile: {text.count(b'CityJSONFeature')} features, {len(text)} bytes")
        rate, *latency = wrk(f"http://127.0.0.1:{port}{path_of(which)}")
        print(f"tile: {processes} processes: {rate:.0f} requests/s, 50 % {latency[0]}, 99 % {latency[1]},"
              f" {memory(pid):.0f} MB in all")
    with nginx() as port:
        beside, *latency = wrk(f"http://127.0.0.1:{port}/tile.city.jsonl")
        print(f"tile: nginx, the same bytes as a file: {beside:.0f} requests/s, 50 % {latency[0]}, 99 % {latency[1]}")
    print(f"tile: {rate / beside:.3f} of nginx")


def boxes():
    """Boxes by chance."""
    rows = max(os.path.getsize(stream) // 2_000 // 1_000 - 12, 1)
    left, low = corner()
    script = folder / "boxes.lua"
    script.write_text(f"""
request = function()
  local x, y = {left} + math.random(0, 989) * 10, {low} + math.random(0, {rows}) * 10
  return wrk.format("GET", string.format("/collections/{name}/items?f=city-json-seq&bbox=%.3f,%.3f,%.3f,%.3f",
                                         x, y, x + 99.5, y + 99.5))
end
""")
    with many() as (port, pid):
        rate, *latency = wrk(f"http://127.0.0.1:{port}", "-s", str(script))
        print(f"boxes: {processes} processes: {rate:.0f} requests/s, 50 % {latency[0]}, 99 % {latency[1]},"
              f" {memory(pid):.0f} MB in all")


def one():
    which, cut, ask = box(), [], []
    with served(str(index)) as (port, _):
        connection = http.client.HTTPConnection("127.0.0.1", port)
        with cityseq.Index(index) as opened:
            for number in range(rounds * 20):
                begin = time.perf_counter()
                opened.filter(io.BytesIO(), box=which, jobs=1)
                cut.append(time.perf_counter() - begin)
                begin = time.perf_counter()
                connection.request("GET", f"{path_of(which)}&limit={1_000 + number}")
                connection.getresponse().read()
                ask.append(time.perf_counter() - begin)
    print(f"one: cut {median(cut) * 1e3:.2f} ms, answer {median(ask) * 1e3:.2f} ms,"
          f" beyond it {(median(ask) - median(cut)) * 1e3:.2f} ms")


def timed(words, **more):
    begin = time.perf_counter()
    subprocess.run(words, stdout=subprocess.DEVNULL, check=True, **more)
    return time.perf_counter() - begin


def check():
    ratios = []
    with served() as (port, _):
        for _ in range(rounds):
            with open(stream, "rb") as file:
                alone = timed([program, "check"], stdin=file)
            sent = timed(["curl", "-sS", "-T", stream, "-X", "POST", "-H", "Expect:",
                          f"http://127.0.0.1:{port}/check"])
            ratios.append(sent / alone)
            print(f"check: program {alone:.2f} s, server {sent:.2f} s, {sent / alone:.2f}", flush=True)
    print(f"check: least {min(ratios):.2f}, middle {median(ratios):.2f}")


def memory_of_many():
    """Each client sends a piece, and waits, until all has been sent or the time is over."""
    size = os.path.getsize(stream)
    end = time.monotonic() + seconds

    def send(port):
        with socket.create_connection(("127.0.0.1", port)) as connection, open(stream, "rb") as file:
            connection.sendall(b"POST /check HTTP/1.1\r\nHost: localhost\r\nContent-Length: %d\r\n\r\n" % size)
            while time.monotonic() < end:
                piece = file.read(100_000)
                if not piece:
                    break
                connection.sendall(piece)
                sent[0] += len(piece)
                time.sleep(0.2)

    sent = [0]
    with served() as (port, pid):
        got(port, "/")
        before = memory(pid, "VmRSS")
        threads = [threading.Thread(target=send, args=(port,)) for _ in range(CLIENTS)]
        for each in threads:
            each.start()
        for each in threads:
            each.join()
        after = memory(pid)
    print(f"memory: idle {before:.0f} MB, with {CLIENTS} slow clients {after:.0f} MB, {sent[0] / 1e6:.0f} MB sent in all")


built_index()
for case in cases:
    {"tile": tile, "boxes": boxes, "one": one, "check": check, "memory": memory_of_many}[case]()
MEASURE
