#!/usr/bin/env python3
"""Changes streams and indexes in place while a cut reads them.

    PYTHON=/usr/bin/python3 tests/run faults/changes_during_a_cut [--megabytes N] [--rounds N]

PYTHON needs what the server needs.
A cut has to end with status 3 and leave no output, or with status 0 and all lines of one state. A
request to the server must not be answered in full with lines of both states. The last line is
'N passed, M failed', and the status is 0 if none failed.
"""
import argparse
import contextlib
import http.client
import os
import pathlib
import random
import sqlite3
import sys
import tempfile
import threading
import time
import urllib.error
import urllib.request

from stream import Counts, begun, parts, ran, write

FAULTS = ("the answer breaks off", "status 502")
OLD, NEW = b'"x":"x', b'"x":"y'  # of an attribute, so that the lines stay valid


def swap(path, old, new):
    """Changes the features in the last third of a stream in place."""
    with open(path, "r+b") as file:
        file.seek(os.path.getsize(path) * 2 // 3)
        file.readline()
        place, rest = file.tell(), file.read()
        file.seek(place)
        file.write(rest.replace(old, new))


def is_of_one_state(text):
    """Whether a text has features of one state only."""
    return not (OLD in text and NEW in text)


def cut_while_it_changes(counts, folder, chance, output):
    """One cut, and a change after some milliseconds."""
    path, index = folder / "s.city.jsonl", folder / "s.gpkg"
    swap(path, NEW, OLD)
    ran("index", "--quiet", "--output", index, path)
    with contextlib.suppress(FileNotFoundError):
        output.unlink()
    run = begun("filter", "--quiet", "--index", index, "--type", "Building", "--output", output)
    for _ in range(2_000):
        if parts(folder) or run.poll() is not None:
            break
        time.sleep(0.002)
    time.sleep(chance.random() * 0.3)
    is_running = run.poll() is None
    swap(path, OLD, NEW)
    said = run.communicate()[1].decode()
    is_whole = run.returncode == 0 and is_of_one_state(output.read_bytes())
    is_refused = run.returncode == 3 and not output.exists() and "changed while it was" in said
    is_late = run.returncode == 3 and "the stream is newer" in said and not output.exists()
    counts.case(
        f"a cut, changed {'while it ran' if is_running else 'after it'}",
        (is_whole or is_refused or is_late) and not parts(folder),
        f"status {run.returncode} {said.strip()}",
    )


def answered(url):
    """Returns the text of an answer, and what became of it."""
    try:
        with urllib.request.urlopen(url) as answer:
            return answer.read(), "a whole answer"
    except urllib.error.HTTPError as fault:
        return b"", f"status {fault.code}"
    except (http.client.HTTPException, ConnectionError):
        return b"", "the answer breaks off"


def serve_while_it_changes(counts, folder, rounds):
    """Requests to a server of a stream that changes."""
    path, index = folder / "s.city.jsonl", folder / "s.gpkg"
    swap(path, NEW, OLD)
    ran("index", "--quiet", "--output", index, path)
    server = begun("serve", "--port", "0", index)
    line = server.stderr.readline().decode()
    if not line.startswith("http"):
        sys.exit(f"the server did not start: {line}")
    url = line.split()[0]
    threading.Thread(target=server.stderr.read, daemon=True).start()
    threading.Thread(target=server.stdout.read, daemon=True).start()
    try:
        for number in range(rounds):
            swap(path, NEW, OLD)
            ran("index", "--quiet", "--output", index, path)
            time.sleep(1.5)  # the server takes the new index
            timer = threading.Timer(0.05 * number, swap, (path, OLD, NEW))
            timer.start()
            text, told = answered(f"{url}collections/s/items?f=city-json-seq")
            timer.join()
            is_right = told == "a whole answer" and is_of_one_state(text) or told in FAULTS
            counts.case(f"a request, changed after {50 * number} ms", is_right, told)
    finally:
        server.terminate()
        server.wait()


def cut_while_the_index_changes(counts, folder, chance):
    """A cut of an index from which another program deletes rows."""
    path, index, output = folder / "s.city.jsonl", folder / "s.gpkg", folder / "index.out"
    ran("index", "--quiet", "--output", index, path)
    run = begun("filter", "--quiet", "--index", index, "--output", output)
    time.sleep(chance.random() * 0.6)
    with contextlib.closing(sqlite3.connect(index, timeout=60)) as base:
        base.execute("DELETE FROM features WHERE fid % 7 = 3")
        base.commit()
    said = run.communicate()[1].decode()
    is_whole = run.returncode == 0 and output.read_bytes() == path.read_bytes()
    is_refused = run.returncode == 3 and not output.exists()
    counts.case(
        "a cut of an index that changes",
        is_whole or is_refused,
        f"status {run.returncode} {said.strip()}",
    )
    with contextlib.suppress(FileNotFoundError):
        output.unlink()


def main():
    """Runs all test cases, and returns the status."""
    asked = argparse.ArgumentParser(description=__doc__.split("\n")[0])
    asked.add_argument("--megabytes", type=int, default=100)
    asked.add_argument("--rounds", type=int, default=8)
    wanted, chance, counts = asked.parse_args(), random.Random(80), Counts()
    with tempfile.TemporaryDirectory() as name:
        folder = pathlib.Path(name)
        write(folder / "s.city.jsonl", wanted.megabytes)
        for _ in range(wanted.rounds):
            cut_while_it_changes(counts, folder, chance, folder / "s.out")
        for _ in range(wanted.rounds):
            cut_while_the_index_changes(counts, folder, chance)
        serve_while_it_changes(counts, folder, wanted.rounds)
    return counts.end()


if __name__ == "__main__":
    sys.exit(main())
