"""Clusters of Dask whose every port is on loopback. The tests of a module share one."""
import contextlib
import logging
import os
import tempfile
import unittest

from .support import ROOT, InFolder

try:
    import dask
    import distributed
except ImportError:
    distributed = None
else:  # on a machine with other work, half a minute is too short
    dask.config.set({"distributed.comm.timeouts.connect": "120s"})

HOST = "127.0.0.1"
# what each scheduler and worker is given, since the page of each is on all addresses otherwise
WORDS = ("--host", HOST, "--no-dashboard", "--dashboard-address", f"{HOST}:0")
WAIT = 1.0  # seconds for a client to end whose scheduler is gone
_shared = []


def quiet():
    """Lets Dask say nothing: that workers and schedulers end is what is tested."""
    # the import of Dask gives two of them a level, and Dask writes to that of asyncio too
    for name in ("distributed", "distributed.client", "asyncio"):
        logging.getLogger(name).setLevel(logging.CRITICAL)


def settings():
    """The settings of a process that finds this package."""
    return {**os.environ, "PYTHONPATH": os.path.join(ROOT, "python")}


def begun(workers, processes=True):
    """A cluster of workers of one thread, and a client of it. Each worker is a process of its own,
    or else a thread of this process, which begins at once."""
    os.environ.update(settings())
    quiet()
    room = tempfile.TemporaryDirectory()  # not the folder that all clusters of the machine share
    cluster = distributed.LocalCluster(
        n_workers=workers,
        threads_per_worker=1,
        processes=processes,
        protocol="tcp://",
        host=HOST,
        dashboard_address=f"{HOST}:0",
        worker_dashboard_address=f"{HOST}:0",
        silence_logs=logging.CRITICAL,
        local_directory=room.name,
    )
    cluster.room = room
    return cluster, distributed.Client(cluster)


def end(cluster, client):
    """Ends what `begun` has begun."""
    client.close()
    cluster.close()
    cluster.room.cleanup()


def leave(client):
    """Ends a client whose scheduler is gone, which would look for it for half a minute."""
    with contextlib.suppress(distributed.TimeoutError):
        client.close(WAIT)


def _end_shared():
    end(*_shared)
    _shared.clear()


@unittest.skipIf(distributed is None, "distributed is not there")
class WithCluster(InFolder):
    """Two workers of one thread, each a process of its own, in a folder of their own."""

    @classmethod
    def setUpClass(cls):
        if not _shared:
            _shared.extend(begun(2))
            unittest.addModuleCleanup(_end_shared)
        cls.cluster, cls.client = _shared

    def setUp(self):
        super().setUp()
        self.addCleanup(os.chdir, os.getcwd())


def listening(processes):
    """The addresses at which these processes of psutil listen."""
    import psutil

    return {
        each.laddr.ip
        for process in processes
        for each in process.connections("inet")
        if each.status == psutil.CONN_LISTEN
    }
