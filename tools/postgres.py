"""A server of PostgreSQL for tests and measurements: Debian's, in a folder of its own, reached by a
socket in it and by nothing else."""
import contextlib
import glob
import importlib.util
import os
import pwd
import shutil
import subprocess
import tempfile

USER = "postgres"  # who runs the server where this process is root's, which the server refuses


def _program(name):
    """The path of a program of the newest PostgreSQL, or None."""
    folders = glob.glob("/usr/lib/postgresql/*/bin")
    newest = max(folders, key=lambda folder: float(folder.split("/")[4]), default="")
    return shutil.which(name, path=newest) if newest else None


def missing():
    """What is missing to start a server and to reach it, in words, or None."""
    if _program("initdb") is None or _program("pg_ctl") is None:
        return "PostgreSQL is not there"
    if importlib.util.find_spec("psycopg2") is None:
        return "psycopg2 is not there"
    if os.geteuid() == 0:
        try:
            pwd.getpwnam(USER)
        except KeyError:
            return f"there is no user {USER}"
    return None


@contextlib.contextmanager
def server():
    """Runs a server, and answers how a client connects to it."""
    folder = tempfile.mkdtemp(prefix="pg")
    data = os.path.join(folder, "data")
    as_user = {"user": USER, "group": USER, "extra_groups": []} if os.geteuid() == 0 else {}
    if as_user:
        shutil.chown(folder, USER, USER)

    def run(name, *words):
        subprocess.run(
            [_program(name), *words],
            check=True,
            stdin=subprocess.DEVNULL,
            stdout=subprocess.DEVNULL,
            stderr=subprocess.DEVNULL,
            cwd=folder,
            **as_user,
        )

    try:
        run("initdb", "-D", data, "-U", USER, "-A", "trust", "-E", "UTF8", "--locale=C", "-N")
        options = f"-c listen_addresses= -c unix_socket_directories={folder} -c fsync=off"
        run("pg_ctl", "start", "-w", "-D", data, "-l", os.path.join(folder, "log"), "-o", options)
        try:
            yield f"host={folder} user={USER} dbname={USER}"
        finally:
            run("pg_ctl", "stop", "-w", "-m", "immediate", "-D", data)
    finally:
        shutil.rmtree(folder, ignore_errors=True)
