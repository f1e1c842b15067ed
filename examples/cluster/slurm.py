"""Checks files by jobs of SLURM, through dask-jobqueue. Not run: it is a text to begin with.

    python3 slurm.py FILE..

The files lie on storage that all nodes see, and so does the package."""
import sys

from dask_jobqueue import SLURMCluster
from distributed import Client

import cityseq.dask

if __name__ == "__main__":
    cluster = SLURMCluster(cores=1, processes=1, memory="2GB", walltime="01:00:00")
    cluster.adapt(minimum=0, maximum=40)
    with Client(cluster) as client:
        results = list(cityseq.dask.check(client, sys.argv[1:]))
    for result in results:
        print(result.file, result.status.verdict, result.features)
    sys.exit(max((int(result.status) for result in results), default=0))
