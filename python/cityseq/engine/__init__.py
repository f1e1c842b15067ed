"""The library `libcityseq.so`, called by `ctypes`: the structs, constants and functions of
`c/cityseq.h`. A call runs without the interpreter's lock.

Faults: what ends a run without a verdict, or without a valid stream. Each has the status that the
program `cityseq` ends with. Its text is made safe for a terminal: streams and names of files can
have characters that move the cursor or begin a new line."""
from __future__ import annotations

import ctypes
import enum
import json
import os
import resource
import threading
from collections.abc import Callable, Sequence
from ctypes import POINTER, c_bool, c_char_p, c_int32, c_int64, c_size_t, c_uint32, c_uint64
from typing import TYPE_CHECKING, TypeVar

if TYPE_CHECKING:
    from ..run import Result

Fault = TypeVar("Fault", bound="CityseqError")
READ_FAULTS = (OSError, EOFError, ValueError)  # what a read may raise
MOST_SHOWN = 200  # characters of a text that are shown
INTERFACE = 3
LINE_LIMITS, DEPTH_LIMITS = (1, 1_073_741_824), (1, 1_024)
USUAL_LINE, USUAL_DEPTH = 8_388_608, 64
TYPE_COUNTS = 34  # in a tally: of each type, and of all types of extensions
LOD_CLASSES = ("0", "1", "2", "3", "4", "other")
# Settings of `mallopt` in glibc (malloc.h). The first is how many free bytes make it return some
# to the system. The second is how many bytes make it ask the system for a block. The third is how
# many arenas there are. Each arena after the first reserves 64 MB of addresses, and has no room for
# a longer block, as for a line of 6 MB. Many threads need less memory if each has an arena.
_TRIM_THRESHOLD, _MMAP_THRESHOLD, _ARENA_MAX = -1, -3, -8


class Status(enum.IntEnum):
    """How a run ended. The number is the status that the program or the command ends with."""

    VALID = 0
    INVALID = 1
    BAD_REQUEST = 2
    READ_FAULT = 3
    WRITE_FAULT = 4
    NO_MEMORY = 5
    UNEXPECTED = 70

    __str__ = int.__repr__

    @property
    def verdict(self) -> str:
        """`valid`, `invalid` or `fault`."""
        return self.name.lower() if self <= Status.INVALID else "fault"


class CityseqError(Exception):
    """Any fault of this package. `words` say what it is, and `file` names its file, if there is
    one. `result` is the result for the stream up to the fault. `__cause__` is the system's error,
    if there is one."""

    status = Status.BAD_REQUEST

    def __init__(self, words: str, result: Result | None = None, file: str | None = None) -> None:
        super().__init__(words)
        self.words, self.result, self.file = words, result, file

    def __str__(self) -> str:
        return shown(self.words if self.file is None else f"{self.file}: {self.words}")

    def __reduce__(self) -> tuple[object, ...]:
        return type(self), (self.words, self.result, self.file), {"__cause__": self.__cause__}

    @classmethod
    def of(cls: type[Fault], what: str, cause: BaseException, file: str | None) -> Fault:
        """Returns the fault for an error of the system: what failed, and why."""
        fault = cls(f"{what}: {why(cause)}", None, file)
        fault.__cause__ = cause
        if isinstance(fault, OSError) and isinstance(cause, OSError):
            fault.errno, fault.strerror, fault.filename = cause.errno, cause.strerror, file
        return fault


class RequestError(CityseqError, ValueError):
    """A request that is not possible. Nothing was read."""


class LibraryMissing(CityseqError, ImportError):
    """`libcityseq.so` is missing, or is another library or version."""


class InvalidStream(CityseqError, ValueError):
    """A stream is invalid, so there is no whole output. If there is a `result`, its `end` is the
    report."""

    status = Status.INVALID


class ReadFault(CityseqError, OSError):
    """A source could not be opened, or a read failed."""

    status = Status.READ_FAULT


class MissingFile(ReadFault, FileNotFoundError):
    """There is no file of this name."""


class OutOfDate(ReadFault):
    """An index does not match the current state of a stream. It must be built again."""

    @classmethod
    def because(cls, why: str, file: str) -> OutOfDate:
        """Returns the fault with this reason, for this stream."""
        return cls(f"index is out of date: {why}, build it again", None, file)


class WriteFault(CityseqError, OSError):
    """An output could not be opened, or a write failed."""

    status = Status.WRITE_FAULT


class MemoryFault(CityseqError, MemoryError):
    """Memory was refused."""

    status = Status.NO_MEMORY


def why(fault: BaseException) -> str:
    """Returns the text of an error, in one line."""
    told = getattr(fault, "strerror", None) or str(fault) or type(fault).__name__
    return " ".join(str(told).split())


def read_fault(cause: BaseException, file: str | None) -> ReadFault:
    """Returns the fault of a read with this cause."""
    if isinstance(cause, ReadFault):
        return cause
    kind = MissingFile if isinstance(cause, FileNotFoundError) else ReadFault
    return kind.of("read fault", cause, file)


def write_fault(cause: BaseException, file: str | None) -> WriteFault:
    """Returns the fault of a write with this cause."""
    return cause if isinstance(cause, WriteFault) else WriteFault.of("write fault", cause, file)


def _escaped(sign: str) -> str:
    """Returns a character, escaped if it cannot be printed."""
    if sign.isprintable():
        return sign
    return sign.encode("unicode_escape").decode() if sign > "\uffff" else f"\\u{ord(sign):04x}"


def shown(text: str) -> str:
    """Returns a text with each character escaped that cannot be printed: controls, marks of
    direction, lone surrogates."""
    return text if text.isprintable() else "".join(map(_escaped, text))


def shortened(text: str, most: int) -> str:
    """Returns a text, or its first characters and an ellipsis if it has more than `most`."""
    return text if len(text) <= most else f"{text[:most]}\u2026"


def quoted(text: str) -> str:
    """Returns a text as a JSON string. Characters that can be printed are not escaped. A long text
    is cut after its beginning."""
    return shown(json.dumps(shortened(text, MOST_SHOWN), ensure_ascii=False))


class CallStatus(enum.IntEnum):
    """How a call ended: `enum cityseq_status`."""

    COMPLETE = 0
    REFUSED = 1
    BAD_REQUEST = 2
    NO_ROOM = 4
    NO_MEMORY = 5


# What is wrong with a request, by its code. The words are the program's own if it has some.
FAULTS = {
    1: "the line limit is not from 1 to 1,073,741,824",
    2: "the depth is not from 1 to 1,024",
    3: "the header is not one line that ends with LF",
    4: "a text is not UTF-8",
    5: "unknown object type",
    6: "bad box",
    7: "box number out of range",
    8: "empty box",
    9: "the stream has more than 2^60 bytes",
}
BOX_FAULTS = FAULTS[6], FAULTS[7], FAULTS[8]


def _members(kind: type[ctypes._CData], names: str) -> list[tuple[str, type[ctypes._CData]]]:
    """Returns the members of a struct that have one type."""
    return [(name, kind) for name in names.split()]


class RawRequest(ctypes.Structure):
    """`struct cityseq_request`."""

    _fields_ = [
        *_members(c_uint64, "line_limit depth_limit"),
        *_members(c_bool, "keep_going tree exclude extensions"),
        *_members(c_bool, "asks_ids asks_types asks_lods asks_box"),
        *[
            member
            for name in ("ids", "types", "lods", "box")
            for member in ((name, c_char_p), (f"{name}_length", c_size_t))
        ],
    ]


class RawReport(ctypes.Structure):
    """`struct cityseq_report`."""

    _fields_ = _members(c_uint64, "line begin place code")


class RawAnswer(ctypes.Structure):
    """`struct cityseq_answer`."""

    _fields_ = [
        *_members(c_uint32, "status code"),
        *_members(c_uint64, "line place lines kept refused"),
        *_members(c_uint64, "peak_bytes peak_tokens peak_depth written list item"),
    ]


class RawRange(ctypes.Structure):
    """`struct cityseq_range`."""

    _fields_ = [("some", c_uint64), ("least", c_int64), ("greatest", c_int64)]


class RawDecimal(ctypes.Structure):
    """`struct cityseq_decimal`."""

    _fields_ = [("negative", c_uint32), ("power", c_int32), ("high", c_uint64), ("low", c_uint64)]


class RawTally(ctypes.Structure):
    """`struct cityseq_tally`."""

    _fields_ = [
        ("features", c_uint64),
        ("types", c_uint64 * TYPE_COUNTS),
        ("lods", c_uint64 * len(LOD_CLASSES)),
        ("ranges", RawRange * 3),
        ("transformed", c_uint64),
        ("scale", RawDecimal * 3),
        ("translate", RawDecimal * 3),
    ]


class RawFeature(ctypes.Structure):
    """`struct cityseq_feature`."""

    _fields_ = [
        *_members(c_uint64, "line begin length id_begin id_length"),
        *_members(c_uint64, "attributes_begin attributes_length objects geometries types lods"),
        ("ranges", RawRange * 3),
    ]


class Room(threading.local):
    """Memory of each thread, which it uses for one thing after another."""

    held = bytearray()

    def of(self, size: int) -> memoryview:
        """Returns memory of this number of bytes. It has other content at the next call."""
        if len(self.held) < size:
            self.held = bytearray(size)
        return memoryview(self.held)[:size]


def keep_room(jobs: int | None = None) -> None:
    """Makes glibc keep the memory of a call for the next one. Otherwise each call asks the system
    for memory, which the system clears first: `check` of 200 MB then takes 1.37 times the processor
    time with one thread, and 1.06 with four. The setting is for the whole process, so it suits only
    a process that does nothing else, by that number of threads."""
    try:
        setting = ctypes.CDLL(None).mallopt
    except (OSError, AttributeError, TypeError):
        return
    for threshold in (_MMAP_THRESHOLD, _TRIM_THRESHOLD):
        setting(threshold, 1 << 30)
    if jobs == 1 or resource.getrlimit(resource.RLIMIT_AS)[0] != resource.RLIM_INFINITY:
        setting(_ARENA_MAX, 1)


def give_back() -> None:
    """Makes glibc give memory that is free back to the system."""
    try:
        ctypes.CDLL(None).malloc_trim(0)
    except (OSError, AttributeError, TypeError):
        pass


Text = bytes | bytearray | memoryview
RawFeatures = Sequence[RawFeature]
REPORT, FEATURE = ctypes.sizeof(RawReport), ctypes.sizeof(RawFeature)
_COMMON = [c_char_p, c_size_t, c_char_p, c_size_t, POINTER(RawRequest)]
_ROOM = [POINTER(RawReport), c_size_t]
_CALLS = {
    "cityseq_interface": (c_uint32, []),
    "cityseq_check": (RawAnswer, _COMMON + _ROOM),
    "cityseq_filter": (RawAnswer, _COMMON + [c_char_p, c_size_t] + _ROOM),
    "cityseq_info": (RawAnswer, _COMMON + [POINTER(RawTally)] + _ROOM),
    "cityseq_features": (RawAnswer, _COMMON + [POINTER(RawFeature), c_size_t] + _ROOM),
    "cityseq_answer_then": (RawAnswer, [POINTER(RawAnswer), POINTER(RawAnswer), c_size_t]),
    "cityseq_tally_then": (RawTally, [POINTER(RawTally), POINTER(RawTally)]),
    "cityseq_part_end": (c_size_t, [c_char_p, c_size_t, c_size_t]),
    "cityseq_line_begin": (c_uint64, [c_char_p, c_size_t, c_char_p, c_size_t, c_uint64]),
    "cityseq_reason_text": (c_size_t, [c_uint64, c_char_p, c_size_t]),
    "cityseq_type_name": (c_size_t, [c_uint64, c_char_p, c_size_t]),
}
_reports_room = Room()


def _pointed(text: Text, begin: int = 0) -> bytes | ctypes._CArgObject:
    """Returns what a call takes as the pointer to these bytes, from `begin` on. Nothing is copied,
    except from the middle of bytes that cannot change."""
    if isinstance(text, bytearray) or isinstance(text, memoryview) and not text.readonly:
        if begin < len(text):
            return ctypes.byref(ctypes.c_char.from_buffer(text, begin))
    return bytes(text[begin:] if begin else text)


def _address(text: bytearray | memoryview) -> int:
    return ctypes.addressof(ctypes.c_char.from_buffer(text))


def searchable(text: Text) -> tuple[bytes | bytearray, int, int]:
    """Returns an object with methods such as `find` that has the bytes of a text, and where they
    begin and end in it. A memoryview of a bytearray is not copied."""
    if not isinstance(text, memoryview):
        return text, 0, len(text)
    whole = text.obj
    if not isinstance(whole, bytearray) or not text:
        return bytes(text), 0, len(text)
    begin = _address(text) - _address(whole)
    return whole, begin, begin + len(text)


class Library:
    """The calls of the library. Any number of threads may make them at once. `room` is how many
    reports a call may write. They are returned as the library writes them."""

    def __init__(self, calls: ctypes.CDLL) -> None:
        self._calls = calls
        self._type_names: tuple[str, ...] = ()

    def check(
        self, header: bytes, part: Text, request: RawRequest, room: int
    ) -> tuple[RawAnswer, bytes]:
        """Judges a header and a part. Returns the answer, and the first reports."""
        return self._judged(self._calls.cityseq_check, header, part, request, room)

    def filter(
        self, header: bytes, part: Text, request: RawRequest, room: int
    ) -> tuple[RawAnswer, bytes, bytearray]:
        """Does the same as `check`, and also returns the output."""
        call, output = self._calls.cityseq_filter, bytearray(len(header) + len(part) + 1)
        given = _pointed(output), len(output)
        answer, reports = self._judged(call, header, part, request, room, *given)
        del given, output[answer.written :]
        return answer, reports, output

    def tally(
        self, header: bytes, part: Text, request: RawRequest, room: int
    ) -> tuple[RawAnswer, bytes, RawTally]:
        """Does the same as `check`, and also returns the tally of the selected features."""
        call, tally = self._calls.cityseq_info, RawTally()
        given = ctypes.byref(tally)
        return *self._judged(call, header, part, request, room, given), tally

    def features(
        self, header: bytes, part: Text, request: RawRequest, room: int
    ) -> tuple[RawAnswer, bytes, RawFeatures]:
        """Does the same as `check`, and also returns the records of the kept features, at most
        `room` of them. It returns no reports."""
        call, records = self._calls.cityseq_features, (RawFeature * max(room, 1))()
        answer, _ = self._judged(call, header, part, request, 0, records, room)
        return answer, b"", records[: min(answer.kept, room)]

    def records(
        self, header: bytes, part: Text, request: RawRequest, memory: memoryview, room: int
    ) -> tuple[RawAnswer, bytes, bytes]:
        """Does the same as `features`, but writes the records to this memory, and returns reports.
        The last value has the bytes of the records that fit."""
        call, most = self._calls.cityseq_features, len(memory) // FEATURE
        given = ctypes.byref(RawFeature.from_buffer(memory)), most
        answer, reports = self._judged(call, header, part, request, room, *given)
        return answer, reports, bytes(memory[: min(answer.kept, most) * FEATURE])

    def answer_then(self, first: RawAnswer, after: RawAnswer, header_length: int) -> RawAnswer:
        """Returns the answer for a header with two parts, by those for the header with each."""
        joined: RawAnswer = self._calls.cityseq_answer_then(first, after, header_length)
        return joined

    def tally_then(self, first: RawTally, after: RawTally) -> RawTally:
        """Returns the tally for a header with two parts, by those for the header with each."""
        joined: RawTally = self._calls.cityseq_tally_then(first, after)
        return joined

    def part_end(self, text: Text, wanted: int, begin: int = 0) -> int:
        """Returns where a part ends that begins at a byte of a text and has about `wanted` bytes.
        It ends after the last LF among these, or else after the first LF. Returns 0 if there is no
        LF."""
        end: int = self._calls.cityseq_part_end(_pointed(text, begin), len(text) - begin, wanted)
        return begin + end if end else 0

    def line_begin(self, header: bytes, part: Text, line: int) -> int:
        """Returns where a line begins, by its number, in bytes from the beginning of the header."""
        given = header, len(header), _pointed(part), len(part)
        begin: int = self._calls.cityseq_line_begin(*given, line)
        return begin

    def reason_text(self, code: int) -> str:
        """Returns the words of a reason. They are empty if no reason has this code."""
        return self._text(self._calls.cityseq_reason_text, code)

    def type_names(self) -> tuple[str, ...]:
        """Returns the names of the types of city objects that CityJSON has, in their order."""
        return self.count_names()[:-1]

    def count_names(self) -> tuple[str, ...]:
        """Returns the names of the counts of types: those of the types, and the last for all types
        of extensions. Asks for them once."""
        if not self._type_names:
            self._type_names = tuple(
                self._text(self._calls.cityseq_type_name, number) for number in range(TYPE_COUNTS)
            )
        return self._type_names

    @staticmethod
    def _judged(
        call: Callable[..., RawAnswer],
        header: bytes,
        part: Text,
        request: RawRequest,
        room: int,
        *given: object,
    ) -> tuple[RawAnswer, bytes]:
        """Makes a call with room for reports. Returns the answer, and the reports that it wrote,
        one after another."""
        memory = _reports_room.of(room * REPORT)
        first = ctypes.byref(RawReport.from_buffer(memory)) if room else None
        asked = header, len(header), _pointed(part), len(part), ctypes.byref(request)
        answer = call(*asked, *given, first, room)
        return answer, bytes(memory[: min(answer.refused, room) * REPORT])

    @staticmethod
    def _text(call: Callable[..., int], number: int) -> str:
        room = ctypes.create_string_buffer(128)
        length = call(number, room, len(room))
        return room.raw[:length].decode("ascii")


_lock = threading.Lock()
_loaded: Library | None = None


def library_path() -> str:
    """Returns the path of the library."""
    package = os.path.dirname(os.path.dirname(__file__))
    return os.environ.get("CITYSEQ_LIBRARY") or os.path.join(package, "libcityseq.so")


def _load() -> Library:
    path = library_path()
    if not os.path.isfile(path):
        raise LibraryMissing(
            f"there is no library {path}: build it, and put it there or name it by CITYSEQ_LIBRARY"
        )
    try:
        calls = ctypes.CDLL(os.path.abspath(path))
        for name, (result, arguments) in _CALLS.items():
            call = getattr(calls, name)
            call.restype, call.argtypes = result, arguments
    except (OSError, AttributeError) as fault:
        raise LibraryMissing(f"{path} is no library of cityseq: {fault}") from fault
    if calls.cityseq_interface() != INTERFACE:
        raise LibraryMissing(f"{path} has another interface than this package: build both anew")
    return Library(calls)


def library() -> Library:
    """Returns the library. It is loaded at the first call."""
    return _loaded or _load_once()


def _load_once() -> Library:
    global _loaded
    with _lock:
        if _loaded is None:
            _loaded = _load()
        return _loaded
