"""The file of an index, as an SQLite database: it is read, or replaced by a new one. It may come
from anywhere, so its tables and rows may have any values. A new index may replace an older one that
no other program has open."""
from __future__ import annotations

import errno
import json
import os
import re
import sqlite3
import stat
from collections.abc import Callable, Iterable, Iterator, Sequence
from contextlib import contextmanager
from math import inf
from time import monotonic
from typing import TYPE_CHECKING, AnyStr

from ..engine import (
    DEPTH_LIMITS,
    LINE_LIMITS,
    OutOfDate,
    ReadFault,
    RequestError,
    WriteFault,
    read_fault,
    write_fault,
)
from . import geopackage

if TYPE_CHECKING:
    from ..foreign import Cells

SECONDS = 60  # of a search
STEPS = 50_000  # of SQLite's machine, after which Python may run the handlers of signals
BESIDE = ("-wal", "-journal")  # what SQLite leaves next to a database that it has not finished
NO_INDEX = "read fault: it is no index of cityseq"
INDEX_CHANGED = "the index was changed"
UNFINISHED = "read fault: another program ended while it changed the index: build it again"
# words of SQLite
CANNOT_OPEN, NO_DATABASE = "unable to open database file", "file is not a database"
READ_ONLY, MALFORMED = "readonly database", "malformed"
R_TREE = re.compile(r"CREATE\s+VIRTUAL\s+TABLE\b.*\bUSING\s+rtree\s*\(", re.IGNORECASE | re.DOTALL)
TABLES = ("cityseq_index", "features", "streams", "reports")
LONGEST = 4_096  # bytes of a path that a system can open
FARTHEST = 1e37  # vertices, scales and translates are below 10^18, so no coordinate is greater
DECIMAL = re.compile(r"-?\d+(?:\.\d+)?(?:[eE][+-]?\d+)?")
SHA256, CONTENT = re.compile(r"[0-9a-f]{64}"), re.compile(r"[0-9a-f]{32}")
Test = Callable[[object], bool]
WAIT = 1.0  # seconds for a lock of another program
IN_USE = "write fault: another program has it open: close it there, and build the index again"


def is_index(base: sqlite3.Connection) -> bool:
    """Whether a database is an index of cityseq."""
    select = "SELECT 1 FROM sqlite_master WHERE type = 'table' AND name = 'cityseq_index'"
    return base.execute(select).fetchone() is not None


def is_beside(path: str) -> bool:
    """Whether a file lies next to a database that SQLite would read changes from."""
    return any(os.path.lexists(path + end) for end in BESIDE)


def _why(path: str, fault: sqlite3.Error) -> ReadFault:
    """Returns the fault of an index that cannot be opened."""
    if NO_DATABASE in str(fault):
        return ReadFault(NO_INDEX, None, path)
    if CANNOT_OPEN in str(fault) and not os.access(path, os.R_OK):
        return read_fault(OSError(errno.EACCES, os.strerror(errno.EACCES)), path)
    if READ_ONLY in str(fault) and is_beside(os.path.realpath(path)):
        return ReadFault(UNFINISHED, None, path)
    return read_fault(fault, path)


class Database:
    """The database of an index, opened for reading."""

    def __init__(self, path: str) -> None:
        """Opens it.

        Raises:
            ReadFault: It cannot be read, or it is no index.
        """
        self.path, self._file = path, os.path.realpath(path)
        self._stop: BaseException | None = None
        self._end: float | None = None  # of a search, by the clock
        self._state: tuple[int, ...] | None = None  # of a file that is read without locks
        self._is_counted = self._has_filters = False
        self.tables: set[str] = set()  # after `check_tables`
        try:
            state = os.stat(self._file)
        except OSError as fault:
            raise read_fault(fault, path) from fault
        if stat.S_ISDIR(state.st_mode):
            raise read_fault(OSError(errno.EISDIR, os.strerror(errno.EISDIR)), path)
        if not stat.S_ISREG(state.st_mode):
            raise ReadFault(NO_INDEX, None, path)
        self._base = self._opened()
        with self.reading():
            (page,) = self.execute("PRAGMA page_size").fetchone()
        if state.st_size % page:  # SQLite would read zeros there
            self.close()
            raise ReadFault("read fault: the file is cut short", None, path)

    def _opened(self) -> sqlite3.Connection:
        """Returns the database, of which something was read.

        SQLite locks a file to read it, and makes a file next to one that has been left for many
        readers and a writer. If it cannot make one, nobody else can change the database.
        """
        try:
            try:
                return self._tried("mode=ro")
            except sqlite3.OperationalError as fault:
                folder = os.path.dirname(self._file)
                can_change = os.access(folder, os.W_OK) or is_beside(self._file)
                if can_change or not any(why in str(fault) for why in (CANNOT_OPEN, READ_ONLY)):
                    raise
                self._state = self._state_now()
                return self._tried("mode=ro&immutable=1")
        except sqlite3.Error as fault:
            raise _why(self.path, fault) from fault

    def _tried(self, how: str) -> sqlite3.Connection:
        base = geopackage.connected(self._file, how)
        try:
            turns = self._turns()
            next(turns)
            base.set_progress_handler(turns.__next__, STEPS)
            if not is_index(base):
                raise ReadFault(NO_INDEX, None, self.path)
            return base
        except BaseException:
            base.close()
            raise

    def _turns(self) -> Iterator[int]:
        """Yields 0 at each turn of SQLite, so that it goes on. In a turn Python runs the handlers
        of signals. SQLite would lose what one of them raises, so it is kept for `reading`. This is
        a generator because it is in its `try` block already when a handler runs. A function would
        not be."""
        while True:
            try:
                while True:
                    self._look()
                    yield 0
            except GeneratorExit:
                raise
            except BaseException as stop:
                self._stop = stop
                yield 1

    def _look(self) -> None:
        """Raises `RequestError` if a search takes too long."""
        if self._end is not None and monotonic() > self._end:
            raise RequestError(f"the filter takes more than {SECONDS} seconds to find features")

    def know_filters(self) -> None:
        """Gives SQL the functions that filters call."""
        from ..attributes.cql2 import INSTANT, LIKE, instant, is_like  # few runs need it

        def is_like_soon(pattern: object, text: object) -> bool | None:
            try:
                return is_like(pattern, text, self._look)
            except BaseException as stop:
                self._stop = stop
                raise

        if not self._has_filters:
            self._base.create_function(LIKE, 2, is_like_soon, deterministic=True)
            self._base.create_function(INSTANT, 1, instant, deterministic=True)
        self._has_filters = True

    def search(self, select: str, given: Iterable[object] = ()) -> Iterator[Cells]:
        """Yields the rows of a query. The caller asks for them in a block of `reading`.

        Raises:
            RequestError: To find them takes too long, without the time that the caller takes.
        """
        rows: sqlite3.Cursor | None = None
        left = float(SECONDS)
        while True:
            begin = monotonic()
            self._end = begin + left
            try:
                rows = rows or self.execute(select, given)
                row = rows.fetchone()
            finally:
                self._end = None
            left -= monotonic() - begin
            if row is None:
                return
            yield row

    def _state_now(self) -> tuple[int, ...]:
        try:
            state = os.stat(self._file)
        except OSError as fault:
            raise read_fault(fault, self.path) from fault
        return state.st_dev, state.st_ino, state.st_size, state.st_mtime_ns

    def close(self) -> None:
        """Closes it."""
        self._base.close()

    @contextmanager
    def reading(self) -> Iterator[None]:
        """Turns an error of SQLite into a read fault. Raises what a signal has raised."""
        try:
            yield
        except sqlite3.Error as fault:
            stop, self._stop = self._stop, None
            if stop is not None:
                raise stop from None
            raise read_fault(fault, self.path) from fault

    def execute(self, select: str, given: Iterable[object] = ()) -> sqlite3.Cursor:
        """Begins a query. The caller does this in a block of `reading`."""
        return self._base.execute(select, tuple(given))

    def executemany(self, insert: str, rows: Iterable[Sequence[object]]) -> None:
        """Writes rows to a temporary table. The caller does this in a block of `reading`."""
        self._base.executemany(insert, rows)

    # ---- is it whole

    def check_tables(self) -> None:
        """Checks that tables and columns are those of an index, and no views.

        Raises:
            ReadFault: They are not.
        """
        with self.reading():
            found: dict[str, tuple[int, object]] = {
                name: (root, text)
                for name, root, text in self._base.execute(
                    "SELECT name, rootpage, sql FROM sqlite_master WHERE type = 'table'"
                )
            }
            shadows = [f"{geopackage.TREE}_{end}" for end in ("node", "rowid", "parent")]
            tables = [*TABLES, *shadows]
            is_whole = all(found.get(name, (0, ""))[0] for name in tables)
            tree = found.get(geopackage.TREE, (0, ""))[1]
            if not is_whole or not isinstance(tree, str) or not R_TREE.match(tree):
                raise ReadFault(NO_INDEX, None, self.path)
            self.tables = {name for name, (root, _) in found.items() if root}

    def columns(self, table: str) -> set[str]:
        """Returns the names of the columns of a table."""
        with self.reading():
            return {row[1] for row in self._base.execute(f"PRAGMA table_info({table})")}

    def is_changed(self) -> bool:
        """Whether another program has changed the index. If it is read without locks, its size and
        time show that.

        Raises:
            ReadFault: It cannot be read.
        """
        if self._state is not None and self._state_now() != self._state:
            return True
        with self.reading():
            marks = self._base.execute("SELECT changed FROM cityseq_index LIMIT 2").fetchall()
            return bool(marks != [(0,)])

    def check(self, total: int) -> None:
        """Checks that no other program has changed the index, as far as that is quickly known.

        Args:
            total: The features of all streams.

        Raises:
            OutOfDate: One has.
            ReadFault: It cannot be read.
        """
        with self.reading():
            triggers = self._base.execute("SELECT name FROM sqlite_master WHERE type = 'trigger'")
            names = {name for name, in triggers}
            (last,) = self._base.execute("SELECT max(fid) FROM features").fetchone()
        is_whole = names.issuperset(geopackage.guards(self.tables)) and (last or 0) == total
        if not is_whole or self.is_changed():
            raise OutOfDate.because(INDEX_CHANGED, self.path)

    def check_tree(self) -> None:
        """Checks that the spatial index has as many features as when it was built.

        Raises:
            OutOfDate: It has not.
            ReadFault: It cannot be read.
        """
        if self._is_counted:
            return
        tree = geopackage.TREE
        with self.reading():
            counts = [
                self._base.execute(select).fetchone()
                for select in (
                    "SELECT places FROM cityseq_index",
                    f"SELECT count(*) FROM {tree}_rowid",
                    f"SELECT substr(data, 3, 2) <> x'0000' FROM {tree}_node WHERE nodeno = 1",
                )
            ]
        (places,), (count,), root = counts
        if count != places or root is None or bool(root[0]) != (count > 0):
            raise OutOfDate.because(INDEX_CHANGED, self.path)
        self._is_counted = True


def _is_within(limits: tuple[int, float]) -> Test:
    return lambda value: type(value) is int and limits[0] <= value <= limits[1]


_is_count, _is_flag = _is_within((0, inf)), _is_within((0, 1))


def _is_text(value: object) -> bool:
    return isinstance(value, str)


def _is_path(kind: type[AnyStr], nul: AnyStr) -> Test:
    return lambda value: isinstance(value, kind) and 0 < len(value) <= LONGEST and nul not in value


def _is_coordinate(value: object) -> bool:
    return isinstance(value, (int, float)) and abs(value) <= FARTHEST


def _is_exact(value: object) -> bool:
    """Whether a value is a text in UTF-8, with half of a surrogate pair as three bytes."""
    try:
        return isinstance(value, bytes) and value.decode("utf-8", "surrogatepass") != ""
    except UnicodeDecodeError:
        return False


def _are_decimals(value: object) -> bool:
    """Whether a text is an array of three decimals, as JSON strings."""
    if not isinstance(value, str):
        return False
    try:
        found = json.loads(value)
    except (ValueError, RecursionError):
        return False
    return (
        isinstance(found, list)
        and len(found) == 3
        and all(isinstance(each, str) and DECIMAL.fullmatch(each) for each in found)
    )


def _or_null(test: Test) -> Test:
    return lambda value: value is None or test(value)


OPTIONS: dict[str, Test] = {
    "tree": _is_flag,
    "extensions": _is_flag,
    "keep_going": _is_flag,
    "line_limit": _is_within(LINE_LIMITS),
    "depth": _is_within(DEPTH_LIMITS),
}
STREAMS: dict[str, Test] = {
    "fid": _is_count,
    "path": _is_path(str, "\0"),
    "path_exact": _or_null(_is_path(bytes, b"\0")),
    "packing": _or_null(lambda value: value in ("gzip", "zstd")),
    "size": _is_count,
    "mtime_ns": lambda value: type(value) is int,
    "content": lambda value: isinstance(value, str) and bool(CONTENT.fullmatch(value)),
    "header_length": _is_within((1, LINE_LIMITS[1] + 1)),
    "header_sha256": lambda value: isinstance(value, str) and bool(SHA256.fullmatch(value)),
    "scale": _are_decimals,
    "translate": _are_decimals,
    "reference_system": _or_null(_is_text),
    "lines": _is_count,
    "features": _is_count,
    "refused": _is_count,
    "first_fid": _is_count,
    **{f"{axis}{edge}": _or_null(_is_coordinate) for axis in "xyz" for edge in ("min", "max")},
}
REPORTS: dict[str, Test] = {
    "stream": _is_count,
    "line": _is_count,
    "byte": _is_count,
    "code": _is_count,
    "text": _is_text,
    "id": _or_null(_is_text),
}
ATTRIBUTES: dict[str, Test] = {
    "name": _is_text,
    "name_exact": _or_null(_is_exact),
    "column_name": _is_text,
    "type": lambda value: value in ("INTEGER", "REAL", "TEXT"),
    "format": lambda value: value in (None, "boolean", "date", "date-time"),
    "first_fid": _or_null(_is_count),
}


def checked(table: str, tests: dict[str, Test], row: Cells, path: str) -> Cells:
    """Returns a row of a table, whose columns have the order of the tests.

    Raises:
        ReadFault: A value is none that cityseq writes.
    """
    for (column, test), value in zip(tests.items(), row):
        if not test(value):
            words = f"read fault: {column} of {table} has a value that no index has"
            raise ReadFault(words, None, path)
    return row


def _left(path: str) -> str | None:
    """Returns the end of a file's name that lies next to a path and has changes of a database. The
    first byte of a journal is 0 if its changes were finished."""
    wal, journal = BESIDE
    if os.path.lexists(path + wal):
        return wal
    try:
        with open(path + journal, "rb") as file:
            return journal if file.read(1) not in (b"", b"\0") else None
    except OSError:
        return None


def _refuse_left(name: str, path: str) -> None:
    """Refuses to put an index next to changes of another database. SQLite would read both."""
    end = _left(path)
    if end is not None:
        beside = f"{os.path.basename(path)}{end} of another program lies next to it"
        words = f"write fault: {beside}: close that program, or remove the file"
        raise WriteFault(words, None, name)


def _no_index(name: str) -> RequestError:
    words = "it is there, and no index of cityseq: remove it, or name another output"
    return RequestError(words, None, name)


def _hold(base: sqlite3.Connection, name: str) -> None:
    """Takes an older index, so that no other program can change it.

    A program that has changed it may have put finished changes into `NAME-wal`. To set the mode of
    its journal writes them into the index, which SQLite refuses while another program has it open
    in that way.
    """
    (mode,) = base.execute("PRAGMA journal_mode = DELETE").fetchone()
    if mode != "delete":
        raise WriteFault(IN_USE, None, name)
    base.execute("BEGIN IMMEDIATE")  # which SQLite refuses while another program changes it


def _held(name: str, path: str) -> sqlite3.Connection:
    """Opens an older index, and keeps other programs from changing it."""
    base = geopackage.connected(path, "mode=rw", WAIT)
    try:
        if not is_index(base):  # to read it undoes a change that was not finished
            raise _no_index(name)
        try:
            _hold(base, name)
        except sqlite3.OperationalError as fault:
            if READ_ONLY not in str(fault):  # a file that this user may not write to
                raise
        return base
    except BaseException as fault:
        base.close()
        words = str(fault) if isinstance(fault, sqlite3.Error) else ""
        if "locked" in words:
            raise WriteFault(IN_USE, None, name) from fault
        if words:
            _refuse_left(name, path)
        if NO_DATABASE in words or MALFORMED in words:
            raise _no_index(name) from fault
        raise


@contextmanager
def replaceable(name: str) -> Iterator[None]:
    """Holds the older index of a name in a `with` block, in which a new one may take its place.

    Raises:
        RequestError: A file has the name that is no index of cityseq, and is not empty.
        WriteFault: Another program has the older index open, or has left changes next to it.
    """
    path = os.path.realpath(name)
    base: sqlite3.Connection | None = None
    try:
        try:
            size = os.path.getsize(path) if os.path.lexists(path) else 0
            if size and not os.access(path, os.R_OK):
                raise PermissionError(errno.EACCES, os.strerror(errno.EACCES))
            base = _held(name, path) if size else None
        except (OSError, sqlite3.Error) as fault:
            raise write_fault(fault, name) from fault
        _refuse_left(name, path)
        yield
    finally:
        if base is not None:
            base.close()
