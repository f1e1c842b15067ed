"""Threads: as many as there is work for, and fewer where the machine gives fewer."""
import _thread
import resource
import threading
import time
import unittest
from functools import partial
from unittest import mock

import cityseq
from cityseq.run import streams as pool_of
from cityseq.run.streams import STACK, Pool, in_thread

from . import support
from .support import HEADER, PLAIN

START = _thread.start_new_thread


def starting(most, silent=False):
    """Starts so many threads, and then none: by an error, or, as with little memory, so that they
    end before they begin."""
    started = []

    def start(call, given):
        started.append(call)
        if len(started) <= most:
            return START(call, given)
        if not silent:
            raise RuntimeError("can't start new thread")
        return 0

    return mock.patch("_thread.start_new_thread", start), started


class LittleMemory(support.InFolder):
    def test_a_stack_that_cannot_grow(self):
        """A run ends with a status, and the system does not kill it."""
        path = self.file(HEADER + PLAIN)
        for kilobytes in range(20_000, 24_001, 500):
            limit = partial(resource.setrlimit, resource.RLIMIT_AS, (kilobytes << 10,) * 2)
            *_, status = support.command("check", path, preexec_fn=limit)
            self.assertIn(status, (0, 5), kilobytes)


class Crews(unittest.TestCase):
    """What makes calls."""

    def test_calls_are_made_once_and_answered(self):
        for most in (1, 3):
            with Pool(most) as crew:
                jobs = [
                    crew.submit(lambda number=number: (number, threading.get_ident()))
                    for number in range(50)
                ]
                answers = [job.result() for job in jobs]
            self.assertEqual([number for number, _ in answers], list(range(50)))
            self.assertTrue(1 <= len({thread for _, thread in answers}) <= most)
            self.assertNotIn(threading.get_ident(), {thread for _, thread in answers})
            self.assertFalse(crew.has_threads())

    def test_what_a_call_raises_is_raised(self):
        with Pool(2) as crew:
            job = crew.submit(lambda: {}["x"])
            self.assertRaises(KeyError, job.result)
            self.assertRaises(KeyError, job.result)

    def test_an_interrupt_that_leaves_the_lock_taken(self):
        """As when it comes just after the lock was taken: who asks again is answered."""

        class Interrupted:
            def __init__(self, lock):
                self.lock, self.locked, self.release = lock, lock.locked, lock.release
                self.is_first = True

            def acquire(self, timeout):
                taken = self.lock.acquire(timeout=timeout)
                if self.is_first:
                    self.is_first = False
                    raise KeyboardInterrupt
                return taken

        goes_on = threading.Event()
        with Pool(1) as crew:
            job = crew.submit(lambda: goes_on.wait(10))
            job._open = Interrupted(job._open)
            threading.Timer(0.1, goes_on.set).start()
            self.assertRaises(KeyboardInterrupt, job.result)
            again = threading.Thread(target=job.result, daemon=True)
            again.start()
            again.join(5)
            self.assertFalse(again.is_alive())
            self.assertTrue(job.done())

    def test_never_more_threads_than_calls(self):
        patch, started = starting(99)
        with patch, Pool(64) as crew:
            for job in [crew.submit(lambda: None) for _ in range(3)]:
                job.result()
        self.assertEqual(len(started), 3)

    def test_a_call_that_is_cancelled_is_not_made(self):
        made = []
        with Pool(1) as crew:
            first = crew.submit(lambda: time.sleep(0.1))
            second = crew.submit(lambda: made.append(1))
            second.cancel()
            first.result()
        self.assertEqual(made, [])

    def test_fewer_threads(self):
        for most, silent in ((1, False), (0, False), (1, True), (0, True)):
            patch, _ = starting(most, silent)
            with self.subTest(most=most, silent=silent), patch, mock.patch(
                "cityseq.run.streams.PATIENCE", 0.05
            ):
                with Pool(4) as crew:
                    self.assertEqual(
                        [job.result() for job in [crew.submit(lambda n=n: n) for n in range(9)]],
                        list(range(9)),
                    )

    def test_a_thread_that_ends_early(self):
        with mock.patch("cityseq.run.streams.PATIENCE", 0.05), Pool(1) as crew:
            crew.submit(lambda: None).result()
            crew._calls.put(_thread.exit)
            self.assertEqual(crew.submit(lambda: 5).result(), 5)

    def test_an_interrupt_when_a_thread_was_just_started(self):
        """The crew does not know that thread, which takes the sign of the end before the other
        one."""
        started, ended = [], threading.Event()
        start = pool_of._start

        def interrupted(call, *given):
            start(call, *given)
            started.append(call)
            if len(started) == 2:
                raise KeyboardInterrupt

        def run():
            with self.assertRaises(KeyboardInterrupt), Pool(2) as crew:
                crew.submit(lambda: time.sleep(0.3))
                crew.submit(lambda: None)
            ended.set()

        with mock.patch("cityseq.run.streams._start", interrupted):
            START(run, ())
            self.assertTrue(ended.wait(10))

    def test_no_thread_and_a_short_stack(self):
        patch, _ = starting(0)
        with patch, mock.patch("resource.getrlimit", lambda _: (STACK - 1, STACK)):
            self.assertRaises(MemoryError, in_thread, lambda: 1)
            with self.assertRaises(MemoryError):
                cityseq.check(HEADER + PLAIN)

    def test_the_size_of_a_stack_is_that_of_the_process_again(self):
        before = threading.stack_size()
        self.assertEqual(in_thread(threading.stack_size), before)
        self.assertEqual(threading.stack_size(), before)

    def test_runs_with_fewer_threads(self):
        text = HEADER + PLAIN * 2_000 + b"{}\n"
        for most, silent in ((2, False), (0, False), (0, True)):
            patch, _ = starting(most, silent)
            with self.subTest(most=most, silent=silent), patch, mock.patch(
                "cityseq.run.streams.PATIENCE", 0.05
            ):
                self.assertEqual(
                    support.numbered(cityseq.check(text, jobs=4, part_size=1_000).reports),
                    [(2_002, 0, 10)],
                )


class Callbacks(unittest.TestCase):
    """What is called back is called by the thread that asked."""

    def test_reports_and_progress(self):
        threads = set()
        for jobs in (1, 3):
            cityseq.check(
                HEADER + b"[]\n" * 500,
                jobs=jobs,
                part_size=100,
                keep_going=True,
                on_report=lambda _: threads.add(threading.get_ident()),
                progress=lambda _: threads.add(threading.get_ident()),
            )
        self.assertEqual(threads, {threading.get_ident()})


if __name__ == "__main__":
    unittest.main()
