"""What workers of cluster.py load by --preload: a store of fsspec that loses reads after the first
4,096 bytes of a file, and a file that ends each worker."""
import os

from fsspec import register_implementation
from fsspec.implementations.local import LocalFileSystem

LOST = 4_096  # bytes that can be read


class Flaky(LocalFileSystem):
    """Files of this machine, of which only the beginnings can be read."""

    protocol = "flaky"

    def cat_file(self, path, start=None, end=None, **named):
        if (end or 0) > LOST:
            raise ConnectionError("the read was lost")
        return super().cat_file(path, start, end, **named)


def register():
    """Makes flaky:// known to fsspec."""
    register_implementation("flaky", Flaky, clobber=True)


def dask_setup(_):
    """Is called when a worker begins. It ends when it looks at a file with this name."""
    from cityseq.cluster import tasks

    usual = tasks.sight_of

    def sight_of(path):
        if os.path.basename(path) == "deadly":
            os._exit(1)
        return usual(path)

    register()
    tasks.sight_of = sight_of
