"""Standard output that does not block, or is full: all is written, or the status is 4."""
import fcntl
import io
import itertools
import json
import os
import resource
import select
import signal
import subprocess
import sys
import threading
import time
import unittest

import cityseq
from cityseq.sources import write_all

from . import support
from .support import HEADER, PLAIN, InFolder, feature
from .test_sources import GOOD
from .test_told import example

COMMANDS = (
    ("check",),
    ("check", "--json"),
    ("check", "--format", "sarif"),
    ("info",),
    ("info", "--json"),
    ("filter",),
)


def environment(is_unbuffered):
    """The environment of the command, where Python buffers its output or does not."""
    names = {name: value for name, value in os.environ.items() if name != "PYTHONUNBUFFERED"}
    more = {"PYTHONUNBUFFERED": "1"} if is_unbuffered else {}
    return {**names, **more, "PYTHONPATH": os.path.join(support.ROOT, "python")}


def unblocked_pipe():
    """A pipe whose writing end does not block."""
    reading, writing = os.pipe()
    flags = fcntl.fcntl(writing, fcntl.F_GETFL)
    fcntl.fcntl(writing, fcntl.F_SETFL, flags | os.O_NONBLOCK)
    return reading, writing


def read_slowly(reading):
    """All that comes by a pipe, read later and in pieces."""
    time.sleep(0.5)
    with open(reading, "rb", buffering=0) as file:
        return b"".join(iter(lambda: file.read(10_000), b""))


class Unblocked(InFolder):
    """A pipe that takes only a part of a write."""

    def test_kept_lines(self):
        path = self.file(HEADER + PLAIN * 30_000)
        for is_unbuffered in (True, False):
            for words in (("filter", path), ("filter", "--jobs", "1", "-")):
                reading, writing = unblocked_pipe()
                with open(path, "rb") as given:
                    ran = subprocess.Popen(
                        [sys.executable, "-m", "cityseq", *words],
                        stdin=given,
                        stdout=writing,
                        stderr=subprocess.PIPE,
                        env=environment(is_unbuffered),
                    )
                os.close(writing)
                text = read_slowly(reading)
                _, said = ran.communicate(timeout=60)
                self.assertEqual((ran.returncode, said, len(text)), (0, b"", path.stat().st_size))

    def test_reports(self):
        path = self.file(HEADER + feature("b", last=4) * 5_000)
        for is_unbuffered in (True, False):
            reading, writing = unblocked_pipe()
            ran = subprocess.Popen(
                [sys.executable, "-m", "cityseq", "check", "--json", "--keep-going", path],
                stdout=writing,
                stderr=subprocess.PIPE,
                env=environment(is_unbuffered),
            )
            os.close(writing)
            lines = read_slowly(reading).splitlines()
            self.assertEqual((ran.wait(60), ran.stderr.read(), len(lines)), (1, b"", 5_001))
            ran.stderr.close()
            self.assertEqual(json.loads(lines[-1])["refused"], 5_000)

    def test_reports_on_standard_error(self):
        path = self.file(HEADER + feature("b", last=4) * 5_000)
        reading, writing = unblocked_pipe()
        ran = subprocess.Popen(
            [sys.executable, "-m", "cityseq", "check", "--keep-going", path],
            stdout=subprocess.DEVNULL,
            stderr=writing,
            env=environment(True),
        )
        os.close(writing)
        self.assertEqual(read_slowly(reading).count(b"\n    Fix: "), 5_000)
        self.assertEqual(ran.wait(60), 1)

    def test_a_raw_file_in_python(self):
        for text in (HEADER + PLAIN * 10_000, HEADER):
            for buffering in (0, -1, 50_000):
                reading, writing = unblocked_pipe()
                found = []
                reader = threading.Thread(target=lambda: found.append(read_slowly(reading)))
                reader.start()
                with open(writing, "wb", buffering=buffering) as file:
                    result = cityseq.filter(text, file)
                reader.join()
                self.assertEqual((result.status, found[0] == text), (0, True), buffering)

    def test_a_file_that_returns_nothing_has_taken_all(self):
        class Kept:
            def __init__(self):
                self.texts = []

            def write(self, text):
                self.texts.append(bytes(text))

        kept = Kept()
        write_all(kept, b"abc")
        self.assertEqual(kept.texts, [b"abc"])

    def test_a_file_that_returns_what_is_no_count(self):
        """It gets all once, or the call ends. No line is written again for ever."""
        for returned, is_taken in ((True, True), (1.0, True), (0, False), (-1, False), (9, False)):
            kept = io.BytesIO()

            class Kept:
                def write(self, text):
                    kept.write(text)
                    return returned

            with self.subTest(returned=returned):
                if is_taken:
                    write_all(Kept(), b"abc")
                else:
                    with self.assertRaises(OSError):
                        write_all(Kept(), b"abc")
                self.assertEqual(kept.getvalue(), b"abc")

    def test_kept_lines_come_at_once_where_nothing_is_buffered(self):
        ran = subprocess.Popen(
            [sys.executable, "-m", "cityseq", "filter"],
            stdin=subprocess.PIPE,
            stdout=subprocess.PIPE,
            env=environment(True),
        )
        with ran:
            ran.stdin.write(HEADER + PLAIN)
            ran.stdin.flush()
            self.assertEqual([ran.stdout.readline(), ran.stdout.readline()], [HEADER, PLAIN])
            ran.stdin.close()
            self.assertEqual((ran.stdout.read(), ran.wait(60)), (b"", 0))

    def test_a_reader_that_goes_away(self):
        path = self.file(HEADER + PLAIN * 30_000)
        reading, writing = unblocked_pipe()
        ran = subprocess.Popen(
            [sys.executable, "-m", "cityseq", "filter", path],
            stdout=writing,
            stderr=subprocess.PIPE,
            env=environment(True),
        )
        os.close(writing)
        os.read(reading, 10)
        os.close(reading)
        _, said = ran.communicate(timeout=60)
        self.assertEqual((ran.returncode, said.count(b"write fault"), said.count(b"\n")), (4, 1, 1))

    def test_an_interrupt_while_it_waits(self):
        path = self.file(HEADER + PLAIN * 30_000)
        reading, writing = unblocked_pipe()
        ran = subprocess.Popen(
            [sys.executable, "-m", "cityseq", "filter", path],
            stdout=writing,
            stderr=subprocess.PIPE,
            env=environment(True),
            preexec_fn=support.heed_interrupts,
        )
        os.close(writing)
        self.assertEqual(select.select([reading], [], [], 60)[0], [reading])
        time.sleep(0.5)
        ran.send_signal(signal.SIGINT)
        _, said = ran.communicate(timeout=60)
        os.close(reading)
        self.assertEqual((ran.returncode, said), (130, b"interrupted\n"))


class Full(InFolder):
    """A file that may have no more bytes: a short write, and then a fault."""

    def ran(self, words, most, is_unbuffered):
        """The status of a run whose output may have so many bytes, and what it says."""

        def limit():
            signal.signal(signal.SIGXFSZ, signal.SIG_IGN)
            resource.setrlimit(resource.RLIMIT_FSIZE, (most, most))

        with open(self.folder / "out", "wb") as output:
            ran = subprocess.run(
                [sys.executable, "-B", "-m", "cityseq", *words],
                stdout=output,
                stderr=subprocess.PIPE,
                stdin=subprocess.DEVNULL,
                env=environment(is_unbuffered),
                preexec_fn=limit,
            )
        return ran.returncode, ran.stderr.decode()

    def test_the_last_write_is_short(self):
        index = self.folder / "it.gpkg"
        cityseq.index([example("town")], index)
        cases = [(*words, example("town")) for words in COMMANDS]
        cases += [("explain", "25"), ("--help",), ("filter", "--help"), ("-V",)]
        cases += [("index", "--show", index), ("report", "--json", example("town"))]
        for words in cases:
            self.assertEqual(self.ran(words, 1 << 30, True)[0], 0, words)
            size = os.path.getsize(self.folder / "out")
            is_timed = words[0] == "report"  # it has a time, which has more or fewer digits
            for is_unbuffered in (True, False):
                status, said = self.ran(words, size - (100 if is_timed else 3), is_unbuffered)
                self.assertEqual((status, "write fault" in said), (4, True), (words, said))
                enough = size + (100 if is_timed else 0)
                self.assertEqual(self.ran(words, enough, is_unbuffered), (0, ""), words)

    def test_a_full_device(self):
        cases = (("filter", "-"), ("filter",), ("check", "-"), ("check",), ("info",), ("--help",))
        for words, is_unbuffered in itertools.product(cases, (True, False)):
            with open("/dev/full", "wb") as full:
                ran = subprocess.run(
                    [sys.executable, "-m", "cityseq", *words],
                    input=GOOD,
                    stdout=full,
                    stderr=subprocess.PIPE,
                    env=environment(is_unbuffered),
                )
            self.assertEqual((ran.returncode, ran.stderr.count(b"write fault")), (4, 1))


if __name__ == "__main__":
    unittest.main()
