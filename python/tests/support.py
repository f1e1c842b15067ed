"""What the tests share: the vectors with what has to come of them, small lines, and streams made by
chance."""
import contextlib
import gzip
import io
import os
import pathlib
import random
import signal
import struct
import subprocess
import sys
import tempfile
import time
import types
import unittest

ROOT = os.path.abspath(os.path.join(os.path.dirname(__file__), "..", ".."))
PROGRAM = os.path.join(ROOT, "crates", "cityseq", "out", "cityseq")
sys.path[:0] = [os.path.join(ROOT, "python"), os.path.join(ROOT, "vectors")]

import table  # noqa: E402
from cityseq.engine.judge import Limits, Options, Query, judge_lines, work_of  # noqa: E402

HEADER = (
    b'{"type":"CityJSON","version":"2.0",'
    b'"transform":{"scale":[0.001,0.001,0.001],"translate":[10,20,0]},'
    b'"CityObjects":{},"vertices":[]}\n'
)
PLAIN = (
    b'{"type":"CityJSONFeature","id":"b","CityObjects":{"b":{"type":"Building"}},"vertices":[]}\n'
)


def asked(kind, *, keep_going=False, tree=False, extensions=False, exact_lods=False, **more):
    """The work for these options, limits and conditions of a query."""
    names = {"line_limit": "line", "depth": "depth"}
    limits = Limits(**{names[name]: more.pop(name) for name in [*more] if name in names})
    options = Options(limits, keep_going, tree, extensions=extensions)
    return work_of(kind, options, Query(**more), exact_lods)


def feature(name, kind="Building", lod="2.2", last=3, x=0):
    """A feature of four vertices, whose last index is the one given."""
    return (
        f'{{"type":"CityJSONFeature","id":"{name}","CityObjects":{{"{name}":{{"type":"{kind}",'
        f'"geometry":[{{"type":"MultiSurface","lod":"{lod}","boundaries":[[[0,1,2,{last}]]]}}]}}}},'
        f'"vertices":[[{x},0,0],[1000,0,0],[1000,1000,0],[0,1000,5]]}}\n'
    ).encode()


def options_of(case):
    """The limits and the query of a vector, as the package takes them."""
    options = {"line_limit": int(case["line limit"]), "depth": int(case["depth"])}
    names = {"--id": "ids", "--type": "types", "--lod": "lods", "--bbox": "box"}
    words = [] if case["query"] == "-" else case["query"].replace("=", " ").split(" ")
    while words:
        word = words.pop(0)
        if word in ("--tree", "--extensions", "--exclude"):
            options[word[2:]] = True
        elif word == "--bbox":
            options["box"] = words.pop(0)
        else:
            options[names[word]] = words.pop(0).split(",")
    return options


def cases():
    """The vectors."""
    return list(table.cases())


def wanted_of(case):
    """What a filter has to write and to answer."""
    output, said, status = table.wanted_of(case)
    return output, said.decode().rstrip("\n"), status


def in_one(text, kind="filter", **options):
    """What comes of a stream that is given to the library whole."""
    end = text.find(b"\n") + 1 or len(text)
    answer = judge_lines(asked(kind, **options), "one", text[:end], bytearray(text[end:]), True)
    return types.SimpleNamespace(
        reports=list(answer.reports),
        end=answer.end,
        output=b"".join(answer.output),
        lines=answer.lines,
        kept=answer.kept,
        refused=answer.refused,
        peaks=answer.peaks,
        tally=answer.tally,
    )


def numbered(reports):
    """Reports as numbers alone."""
    return [(report.line, report.byte, report.code) for report in reports]


def box_of_polygon(geometry):
    """The least and greatest x and y of a polygon of a GeoPackage, without envelope and in
    little-endian order."""
    kind, rings, points = struct.unpack_from("<III", geometry, 9)
    if (geometry[:4], kind, rings, points) != (b"GP\0\1", 3, 1, 5):
        raise AssertionError(f"no polygon of five points: {geometry[:21].hex()}")
    numbers = struct.unpack_from("<10d", geometry, 21)
    return min(numbers[::2]), max(numbers[::2]), min(numbers[1::2]), max(numbers[1::2])


def lines_by_chance(chance, count):
    """Valid lines, some of them broken, and blank ones."""
    for number in range(count):
        kind, lod = chance.choice(("Building", "Road", "Bridge")), chance.choice(
            ("1", "2.2", "\\u0032.2")
        )
        line = feature(f"b{number}", kind, lod, x=chance.randrange(-9, 9))
        turn = chance.randrange(14)
        if turn == 0:
            line = feature(f"b{number}", last=4)
        elif turn == 1:
            line = line[: chance.randrange(len(line))].rstrip() + b"\n"
        elif turn == 2:
            line = chance.choice(
                (
                    b"\n",
                    b" \t\r\n",
                    b"[]\n",
                    b"\xff\n",
                    b"{}\n",
                    line.replace(b"Road", b"Shed"),
                    b"[" * 700 + b"\n",
                )
            )
        elif turn == 3:
            line = line[:-1] + b"\r\n"
        elif turn == 4:
            line = line[:-1] + b" " * chance.randrange(1_000) + b"\n"
        yield line


def stream_by_chance(seed):
    """A stream made by chance, the same for each seed. It may end without LF, and its header may be
    broken."""
    chance = random.Random(seed)
    others = (
        b"",
        b"\n",
        HEADER[:-1],
        HEADER[:-9] + b"\n",
        PLAIN,
        HEADER[:-2] + b" " * 900 + b"}\n",
    )
    header = HEADER if chance.randrange(10) else chance.choice(others)
    text = header + b"".join(lines_by_chance(chance, chance.randrange(25)))
    return text[:-1] if chance.randrange(3) == 0 else text


class Slow(io.RawIOBase):
    """A source that gives few bytes at a time, and fails after so many, where that is said."""

    def __init__(self, text, piece, fails_at=None):
        super().__init__()
        self._file, self._piece, self._left = io.BytesIO(text), piece, fails_at

    def read(self, most=-1):
        if self._left is not None and self._left <= 0:
            raise OSError(5, "Input/output error")
        most = min(most, self._piece, self._piece if self._left is None else self._left)
        piece = self._file.read(most)
        if self._left is not None:
            self._left -= len(piece)
        return piece


class InFolder(unittest.TestCase):
    """Tests that have a folder of their own."""

    def setUp(self):
        folder = tempfile.TemporaryDirectory()
        self.addCleanup(folder.cleanup)
        self.folder = pathlib.Path(folder.name)

    def file(self, text, name="stream.city.jsonl"):
        path = self.folder / name
        path.write_bytes(gzip.compress(text) if name.endswith(".gz") else text)
        return path


def seconds():
    """The seconds of the processor that this process has taken."""
    return time.process_time()


def unfinished(folder):
    """The names of files in a folder that are not whole."""
    return [name for name in os.listdir(folder) if name.endswith(".part")]


def heed_interrupts():
    """Heeds SIGINT in a process that is about to begin. A shell has it ignored by what runs behind
    `&`, and by all that this starts."""
    signal.signal(signal.SIGINT, signal.SIG_DFL)


def command(*words, given=b"", coding="utf-8", **more):
    """What the command writes, says and answers."""
    ran = subprocess.run(
        [sys.executable, "-m", "cityseq", *words],
        input=given,
        capture_output=True,
        timeout=60,
        env={**os.environ, "PYTHONPATH": os.path.join(ROOT, "python"), "PYTHONIOENCODING": coding},
        **more,
    )
    return ran.stdout, ran.stderr.decode("utf-8", "replace"), ran.returncode


def ran(*words):
    """What the command writes, says and answers if it runs in this process."""
    from cityseq.cli import main

    out, said = io.TextIOWrapper(io.BytesIO()), io.StringIO()
    with contextlib.redirect_stdout(out), contextlib.redirect_stderr(said):
        status = main(list(map(str, words)))
    out.flush()
    return out.buffer.getvalue(), said.getvalue(), status


def program(*words, given=b""):
    """The same of the program, where it is built."""
    return table.run([PROGRAM, *words], given)
