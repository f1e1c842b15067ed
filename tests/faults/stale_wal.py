#!/usr/bin/env python3
"""Builds indexes again beside what an editor of the older index has left, or has open.

    tests/run faults/stale_wal

An editor is a process with SQLite, in each mode of its journal. It is killed, or it waits. Then the
index is built again from another stream. It has to be refused with a reason, or be right for each
reader. The last line is 'N passed, M failed', and the status is 0 if none failed.
"""
import os
import pathlib
import sqlite3
import subprocess
import sys
import tempfile

from stream import PYTHON, Counts, parts, ran, write

MODES = ("WAL", "DELETE", "TRUNCATE", "PERSIST")
EDITOR = """
import os, sqlite3, sys
path, mode, change, how = sys.argv[1:]
base = sqlite3.connect(path, isolation_level=None)
base.execute(f"PRAGMA journal_mode = {mode}")
base.execute("PRAGMA cache_size = 1")
base.execute("PRAGMA wal_autocheckpoint = 0")
if change == "read":
    rows = base.execute("SELECT * FROM features")
    rows.fetchone()
else:
    base.execute("BEGIN IMMEDIATE")
    base.execute("CREATE TABLE much AS WITH RECURSIVE n(i) AS (SELECT 1 UNION ALL SELECT i + 1"
                 " FROM n WHERE i < 500) SELECT randomblob(3000) FROM n")
    base.execute("DELETE FROM features WHERE fid % 2")
    if change == "committed":
        base.execute("COMMIT")
print("done", flush=True)
if how == "waits":
    sys.stdin.read()
os._exit(0)
"""


def edited(index, mode, change, how):
    """Begins an editor, and returns its process when it has changed the index."""
    editor = subprocess.Popen(
        [PYTHON, "-c", EDITOR, str(index), mode, change, how],
        stdin=subprocess.PIPE,
        stdout=subprocess.PIPE,
    )
    editor.stdout.readline()
    if how == "ends":
        editor.communicate()
    return editor


def test_case(counts, folder, mode, change, how):
    """Builds an index again beside an editor."""
    index, output = folder / "r.gpkg", folder / "out"
    for name in ("r.gpkg", "r.gpkg-wal", "r.gpkg-shm", "r.gpkg-journal", "out"):
        (folder / name).unlink(missing_ok=True)
    ran("index", "--quiet", "--output", index, folder / "old.city.jsonl")
    editor = edited(index, mode, change, how)
    status, said = ran("index", "--quiet", "--output", index, folder / "new.city.jsonl")
    is_refused = status == 4 and "another program" in said and how == "waits"
    name = f"{mode}, {change}, the editor {how}"
    if status == 0:
        found = ran("filter", "--index", index, "--type", "Tunnel", "--output", output)[0]
        is_right = found == 0 and output.read_bytes() == (folder / "new.city.jsonl").read_bytes()
        base = sqlite3.connect(index)
        is_right = is_right and base.execute("PRAGMA integrity_check").fetchall() == [("ok",)]
        base.close()
        counts.case(name, is_right, "built again")
    else:
        counts.case(name, is_refused, said.strip())
    if how == "waits":
        editor.communicate()
        status, said = ran("index", "--quiet", "--output", index, folder / "new.city.jsonl")
        found, _ = ran("filter", "--index", index, "--output", output)
        is_right = (status, found) == (0, 0)
        is_right = is_right and output.read_bytes() == (folder / "new.city.jsonl").read_bytes()
        counts.case(f"{mode}, {change}, the editor has ended", is_right, said.strip())
    counts.case(f"{name}: nothing is left", not parts(folder) and os.path.exists(index))


def main():
    """Runs all test cases, and returns the status."""
    counts = Counts()
    with tempfile.TemporaryDirectory() as name:
        folder = pathlib.Path(name)
        write(folder / "old.city.jsonl", 8)
        write(folder / "new.city.jsonl", 8, "Tunnel")
        for mode in MODES:
            for change in ("read", "open", "committed"):
                for how in ("ends", "waits"):
                    test_case(counts, folder, mode, change, how)
    return counts.end()


if __name__ == "__main__":
    sys.exit(main())
