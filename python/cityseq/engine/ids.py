"""Queries for very many ids. The library prepares a query for each call. For a million ids this
takes longer than judging a part.

If the ids are many, parts become so long that preparing them takes little of the time. If such a
part would be too long, each part is judged with only the ids that may be in it. Python finds these:
it may find some that are not ids of features, but it misses none. The library then decides which
feature has which id."""
from __future__ import annotations

import ctypes
import io
import json
import re
import threading
from collections.abc import Callable, Iterable, Iterator
from functools import lru_cache
from operator import itemgetter, le
from typing import TypeVar

from . import Text
from .reports import UP_TO_ID

MANY = 2_000  # bytes of ids for which this is worthwhile
LONGER = 32  # if a part is this many times as long as the ids, they take little of the time
MOST = 16 << 20  # the most bytes of a part that is made longer for its ids
SPACE = rb"[ \t\r]*"
VALUE = SPACE + b":" + SPACE + rb'("(?:[^"\\\x00-\x1f]|\\.)*")'
ANYWHERE = re.compile(rb'"id"' + VALUE)
ESCAPED = re.compile(rb'"(?:i|\\u0069)(?:d|\\u0064)"' + VALUE)
BEGINNING = re.compile(UP_TO_ID + b'"')
UP_TO_QUOTE = re.compile(b"[\x00-!]")  # the signs that are less than a quote
MORE = 4  # times as many ids as lines are not too many for a part
FIRST = 20  # lines whose order is looked at before that of all
Made = TypeVar("Made")
_making = threading.Lock()


def part_size_for(ids: bytes) -> int:
    """Returns the least size of parts for a query with these ids, or 0."""
    size = 2 * LONGER * len(ids)
    return size if len(ids) >= MANY and size <= MOST else 0


@lru_cache(maxsize=2)
def _even(ids: bytes) -> int:
    """Returns the length of each id of a query with its LF. 0 if the lengths differ."""
    width, count = ids.find(b"\n") + 1, ids.count(b"\n") + 1
    is_even = len(ids) + 1 == count * width and ids[width - 1 :: width] == b"\n" * (count - 1)
    return width if is_even else 0


@lru_cache(maxsize=2)
def _lengths(ids: bytes) -> tuple[int, bool]:
    """Returns the length of the longest id of a query, and whether all have that length."""
    width = _even(ids)
    return (width or max(map(len, io.BytesIO(ids + b"\n")))) - 1, width > 0


def sort_texts(texts: bytearray, size: int) -> bool:
    """Sorts texts of this size by their bytes. Returns False if the C library has no call for
    that. It sorts a million ids in no order in 0.33 s of the processor, and Python in 1.4 s."""
    try:
        libc = ctypes.CDLL(None)
        sort, order = libc.qsort_r, libc.memcmp
    except (OSError, AttributeError, TypeError):
        return False
    first, length = ctypes.c_char.from_buffer(texts), ctypes.c_size_t(size)
    # `memcmp` gets the last argument as its third one: how many bytes it compares
    sort(ctypes.byref(first), ctypes.c_size_t(len(texts) // size), length, order, length)
    return True


@lru_cache(maxsize=2)
def _sorted(ids: bytes) -> bytes:
    """Returns the ids of a query in the order of their bytes, with an LF after each. They are given
    one a line."""
    width = _even(ids)
    if width:
        texts = bytearray(ids + b"\n")
        if sort_texts(texts, width):
            return bytes(texts)
    # a character for each byte: Python sorts such texts faster than bytes
    listed = sorted(ids.decode("latin-1").split("\n"))
    return ("\n".join(listed) + "\n").encode("latin-1")


@lru_cache(maxsize=2)
def _listed(ids: bytes) -> frozenset[bytes]:
    """Returns the ids of a query as a set. They are given one a line."""
    return frozenset(ids.split(b"\n"))


def _for_all(make: Callable[[bytes], Made], ids: bytes) -> Made:
    """Returns what one thread makes of the ids of a query, for all threads."""
    with _making:
        return make(ids)


def in_order(ids: bytes) -> bytes:
    """Returns the ids of a query, one a line. If each part gets all of many ids, these are sorted
    by their bytes: to prepare them then takes a fraction of the time."""
    return _sorted(ids)[:-1] if part_size_for(ids) else ids


def _thorough(part: bytes) -> Iterator[bytes]:
    """Yields the value of each member with the name `id`, anywhere in the part."""
    for found in (ESCAPED if b"\\u00" in part else ANYWHERE).finditer(part):
        spelling = found.group(1)
        if b"\\" not in spelling:
            yield spelling[1:-1]
            continue
        try:
            yield json.loads(spelling).encode("utf-8")
        except ValueError:
            pass  # not JSON, or a lone surrogate, which no query has


def _id_of(line: bytes, begin: int) -> bytes:
    """Returns the id of a line, as it is spelled from this byte on. A line that is cut short has
    all the rest."""
    end = line.find(b'"', begin)
    return line[begin:] if end < 0 else line[begin:end]


def _place_of(ids: bytes, least: bytes) -> int:
    """Returns where the first of sorted ids begins that is not less than a text. An LF follows each
    id."""
    low, high = 0, len(ids)
    while low < high:
        middle = (low + high) // 2
        begin, end = ids.rfind(b"\n", low, middle) + 1 or low, ids.find(b"\n", middle)
        if ids[begin:end] < least:
            low = end + 1
        else:
            high = begin
    return low


def _between(ids: bytes, lines: list[bytes], begin: int) -> bytes | None:
    """Returns the ids of a query that may be in lines that are sorted, begin alike up to their ids,
    and have no escape. None if they would be many more than the lines.

    An id with the quote after it is then not less than that of the first line, nor greater than
    that of the last one. So the id itself is not less than that of the first line up to a sign
    that is less than the quote."""
    wanted = _for_all(_sorted, ids)
    first, last = _id_of(lines[0], begin), _id_of(lines[-1], begin)
    left = _place_of(wanted, UP_TO_QUOTE.split(first, 1)[0])
    right = _place_of(wanted, last + b'"\0')
    found = wanted[left:right] if right - left <= MORE * len(lines) * (len(last) + 1) else None
    return found[:-1] if found and found != b"\n" else found


def _are_sorted(texts: list[bytes]) -> bool:
    """Returns whether texts are sorted. To sort them again is the fastest test if they are. If not,
    the first ones mostly tell."""
    return all(map(le, texts[:FIRST], texts[1:FIRST])) and texts == sorted(texts)


def _usual(ids: bytes, heads: list[bytes], begin: int) -> list[bytes]:
    """Returns the id of each line as it is spelled. Of an id that is longer than all ids of a query
    it returns some bytes, which may be one of these."""
    if _for_all(_lengths, ids)[1]:
        # no step of the interpreter for each line, because there are very many
        return list(map(itemgetter(slice(begin, None)), heads))
    return [head[begin:].partition(b'"')[0] for head in heads]


def _chosen(ids: bytes, found: Iterable[bytes]) -> bytes:
    """Returns the ids of a query that are among some texts, sorted: to prepare them takes the
    library a fourth of the time then, and to sort them takes less than that saves."""
    texts = sorted(_for_all(_listed, ids).intersection(found))
    return b"\n" * (texts[:1] == [b""]) + b"\n".join(texts)


def _ids_in(ids: bytes, text: bytes) -> bytes:
    """Returns the ids of a query that may be in a part."""
    first = BEGINNING.match(text)
    if first is None:
        return _chosen(ids, _thorough(text))
    begin, chosen = first.group(), None
    found: Iterable[bytes] | None = None
    most = len(begin) + _for_all(_lengths, ids)[0]  # each id of the query ends before this byte
    heads = list(map(itemgetter(slice(most)), io.BytesIO(text)))
    together = b"\n".join([b"", *heads])
    may_escape = b"\\" in together
    is_sorted = heads[-1].startswith(begin) and _are_sorted(heads)
    if is_sorted and not may_escape:
        chosen = _between(ids, heads, len(begin))
    if chosen is None:
        if is_sorted or together.count(b"\n" + begin) == len(heads):
            found = _usual(ids, heads, len(begin))
        if found is None or (may_escape and b"\\" in b"".join(found)):
            found = _thorough(text)
        chosen = _chosen(ids, found)
    return chosen


def are_read(ids: bytes) -> bool:
    """Returns whether Python reads the ids of usual parts for a query with these ids."""
    return len(ids) >= MANY and not part_size_for(ids)


def ids_for(ids: bytes, part: Text) -> bytes:
    """Returns the ids of a query that may be in a part. Returns all if they are few, or few
    compared with the part. A part that is no `bytes` is copied."""
    if len(ids) < MANY or len(part) >= LONGER * len(ids):
        return ids
    return _ids_in(ids, bytes(part)) if part else b""
