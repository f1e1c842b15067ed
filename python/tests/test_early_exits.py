"""Scripts that leave a run half way, and interrupts: nothing waits for ever, nothing is left."""
import os
import signal
import subprocess
import sys
import threading
import unittest
from unittest import mock

import cityseq
from cityseq.run.streams import Job, Pool
from cityseq.sources.packed import Unpacker

from . import support
from .support import HEADER, PLAIN, InFolder, feature

# Each leaves the run after its first result, where a name of the module holds the generator.
LEAVES = {
    "at the end": "",
    "sys.exit": "sys.exit(3)",
    "an exception": "raise KeyError",
    "an interrupt": "raise KeyboardInterrupt",
    "a loop": "for _ in results: break",
    "a close": "results.close()",
    "a name": "del results",
}
WAITS = {  # what is interrupted: it says when it has begun
    "check": "cityseq.check(source, jobs=JOBS, progress=said)",
    "check_files": "list(cityseq.check_files([source, source], jobs=JOBS, progress=said))",
    "filter": "cityseq.filter(source, 'out.jsonl', jobs=JOBS, progress=said)",
    "info": "cityseq.info(source, jobs=JOBS, progress=said)",
    "index": "cityseq.index(source, 'out.gpkg', jobs=JOBS, progress=said)",
}
SCRIPT = """
import sys, cityseq
source = sys.argv[1]
def said(_):
    sys.stdout.write("begun")
    sys.stdout.flush()
    said.__code__ = (lambda _: None).__code__
try:
    WAIT
except Exception as fault:
    print(repr(fault))
except KeyboardInterrupt:
    print(" interrupted")
"""


def environment():
    return {**os.environ, "PYTHONPATH": os.path.join(support.ROOT, "python")}


FORKED = """
import os, sys, cityseq
results = cityseq.check_files([sys.argv[1]] * 5, jobs=JOBS)
print(next(results).features, flush=True)
if os.fork() == 0:
    LEAVE
print(os.waitstatus_to_exitcode(os.wait()[1]))
print(sum(each.features for each in results))
"""


class Exits(InFolder):
    """`check_files` whose results nobody wants any more."""

    def test_processes_that_are_forked_during_a_run(self):
        """They have no thread that they could wait for."""
        path = self.file(HEADER + PLAIN * 20_000)
        for leave, wanted in (
            ("sys.exit(3)", 3),
            ("results.close(); sys.exit(3)", 3),
            ("raise KeyError", 1),
            ("next(results)", 1),
            ("sys.exit(cityseq.check(sys.argv[1]).features // 10_000)", 2),
        ):
            for jobs in (1, 4):
                script = FORKED.replace("JOBS", str(jobs)).replace("LEAVE", leave)
                with self.subTest(leave, jobs=jobs):
                    ran = subprocess.run(
                        [sys.executable, "-c", script, str(path)],
                        stdout=subprocess.PIPE,
                        stderr=subprocess.DEVNULL,
                        timeout=30,
                        env=environment(),
                    )
                    self.assertEqual(
                        (ran.stdout.split(), ran.returncode),
                        ([b"20000", str(wanted).encode(), b"80000"], 0),
                    )

    def test_scripts(self):
        plain = self.file(HEADER + PLAIN * 20_000)
        packed = self.file(HEADER + PLAIN * 20_000, "packed.gz")
        for name, leave in LEAVES.items():
            for path in (plain, packed):
                for jobs in (1, 4):
                    script = (
                        "import sys, cityseq\n"
                        f"results = cityseq.check_files([sys.argv[1]] * 5, jobs={jobs})\n"
                        f"print(next(results).features)\n{leave}"
                    )
                    with self.subTest(name, jobs=jobs, path=path):
                        ran = subprocess.run(
                            [sys.executable, "-c", script, str(path)],
                            stdout=subprocess.PIPE,
                            stderr=subprocess.DEVNULL,
                            timeout=30,
                            env=environment(),
                        )
                        wanted = {"sys.exit": 3, "an exception": 1, "an interrupt": -2}
                        self.assertEqual(
                            (ran.stdout, ran.returncode), (b"20000\n", wanted.get(name, 0))
                        )

    def test_an_output_that_is_left_half_way(self):
        script = (
            "import sys, cityseq\n"
            "from cityseq.engine.judge import Options, work_of\n"
            "from cityseq.sources.outputs import Writer\n"
            "from cityseq.run.streams import Stream, results\n"
            "streams = (Stream(sys.argv[1], work_of('filter', Options()), output=Writer(name))"
            " for name in ('a.jsonl', 'b.jsonl', 'c.jsonl'))\n"
            "found = results(streams, 4)\n"
            "print(next(found).features)\n"
            "sys.exit(0)"
        )
        path = self.file(HEADER + PLAIN * 200_000)
        ran = subprocess.run(
            [sys.executable, "-c", script, str(path)],
            stdout=subprocess.PIPE,
            timeout=30,
            cwd=self.folder,
            env=environment(),
        )
        self.assertEqual((ran.stdout, ran.returncode), (b"200000\n", 0))
        self.assertEqual(support.unfinished(self.folder), [])


class Interrupts(InFolder):
    """SIGINT, by any number of threads."""

    def interrupted(self, words, path):
        """What comes of a process that is interrupted when it has begun."""
        process = subprocess.Popen(
            [*words, str(path)],
            stdout=subprocess.PIPE,
            stderr=subprocess.PIPE,
            cwd=self.folder,
            env=environment(),
            preexec_fn=support.heed_interrupts,
        )
        begun = process.stdout.read(5)
        process.send_signal(signal.SIGINT)
        out, said = process.communicate(timeout=60)
        return begun + out, said, process.returncode

    def test_calls(self):
        path = self.file(HEADER + feature("b") * 400_000)
        for name, call in WAITS.items():
            for jobs in (1, 3):
                script = SCRIPT.replace("WAIT", call.replace("JOBS", str(jobs)))
                with self.subTest(name, jobs=jobs):
                    out, said, status = self.interrupted([sys.executable, "-c", script], path)
                    self.assertEqual((out, said, status), (b"begun interrupted\n", b"", 0))
                    self.assertEqual(os.listdir(self.folder), [path.name])

    def test_a_pipe_that_gives_nothing(self):
        """The thread that is interrupted reads it itself."""
        for jobs in ("1", "3"):
            process = subprocess.Popen(
                [sys.executable, "-m", "cityseq", "filter", "--jobs", jobs],
                stdin=subprocess.PIPE,
                stdout=subprocess.PIPE,
                stderr=subprocess.PIPE,
                env=environment(),
                preexec_fn=support.heed_interrupts,
            )
            process.stdin.write(HEADER + PLAIN)
            process.stdin.flush()
            kept = process.stdout.read(len(HEADER + PLAIN))
            process.send_signal(signal.SIGINT)
            self.assertEqual(process.wait(30), 130)
            said = process.stderr.read()
            for stream in (process.stdin, process.stdout, process.stderr):
                stream.close()
            self.assertEqual((kept, said), (HEADER + PLAIN, b"interrupted\n"))

    def test_a_thread_that_reads_a_packed_file(self):
        """The call that the interrupted thread awaits is still reading. It ends before the file is
        closed."""
        path = self.file(HEADER + PLAIN, "s.city.jsonl.gz")
        reads, goes_on = threading.Event(), threading.Event()
        read, result, submit = Unpacker.read, Job.result, Pool.submit

        def slow_read(unpacker, size):
            reads.set()
            goes_on.wait(10)
            return read(unpacker, size)

        def interrupt():
            self.assertTrue(reads.wait(10))
            threading.Timer(0.3, goes_on.set).start()
            raise KeyboardInterrupt

        def interrupted_result(job):
            return result(job) if goes_on.is_set() else interrupt()

        def interrupted_submit(pool, call):
            submit(pool, call)
            interrupt()

        slow = mock.patch.object(Unpacker, "read", slow_read)
        for of, name, call in (
            (Job, "result", interrupted_result),
            (Pool, "submit", interrupted_submit),
        ):
            reads.clear()
            goes_on.clear()
            patched = mock.patch.object(of, name, call)
            with self.subTest(name), slow, patched, self.assertRaises(KeyboardInterrupt):
                cityseq.check(path, jobs=1)


if __name__ == "__main__":
    unittest.main()
