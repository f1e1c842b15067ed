"""What is asked of some lines of a stream, and what the library answers. A request is checked
before anything is read.

The law of parts: a stream can be split between two lines after its header. The header with the
lines before the split gives one answer, and the header with the lines after it gives another. Both
joined are the answer for the stream. Each part is judged after the header, so the header's line
counts once."""
from __future__ import annotations

from collections.abc import Iterable, Iterator
from dataclasses import dataclass, field, replace
from functools import lru_cache
from itertools import chain
from typing import TYPE_CHECKING, Union

from . import (
    DEPTH_LIMITS,
    FAULTS,
    LINE_LIMITS,
    USUAL_DEPTH,
    USUAL_LINE,
    CallStatus,
    CityseqError,
    RawAnswer,
    RawRequest,
    RequestError,
    Text,
    library,
    read_fault,
)

if TYPE_CHECKING:
    from decimal import Decimal

    from ..sources.chunks import Chunk
    from .records import IdsOf, Records, Tally
    from .reports import Described, Invalid, Report


UNKNOWN_TYPE = 5  # the fault of a request for a type that does not exist
Texts = str | Iterable[str]
Box = Union[str, Iterable[Union[int, float, str, "Decimal"]]]
SMALL = 1 << 19  # bytes that are judged by one call: they stay in the processor's cache
HEADERS = 4  # a part is at least this many times as long as the header
LINE = 64  # bytes of a line, for the room of reports
JUDGED = (CallStatus.COMPLETE, CallStatus.REFUSED, CallStatus.NO_MEMORY)


@dataclass(frozen=True)
class Limits:
    """How long a line may be, and how deep its JSON.

    Attributes:
        line: The most bytes in a line, from 1 to 1 GiB.
        depth: The most arrays and objects that are open at once, from 1 to 1,024.
    """

    line: int = USUAL_LINE
    depth: int = USUAL_DEPTH


@dataclass(frozen=True)
class Query:
    """Which features are selected: those that meet each condition. None sets no condition.

    Attributes:
        ids: The id of the feature is one of these.
        types: A city object of the feature has one of these types. If the options know those of
            extensions, any name that begins with `+` is one.
        lods: A geometry of the feature has one of these LoDs.
        box: The vertices of the feature reach into this box: four numbers, or a text
            minx,miny,maxx,maxy, in world coordinates.
        exclude: Whether to select the other features.
    """

    ids: Texts | bytes | None = None
    types: Texts | None = None
    lods: Texts | None = None
    box: Box | None = None
    exclude: bool = False


@dataclass(frozen=True)
class Options:
    """How a stream is judged.

    Attributes:
        limits: The limits of a line.
        keep_going: Whether to report each invalid line, and not only the first.
        tree: Whether the main city object has to reach each other one of its feature.
        jobs: How many threads judge parts of the stream. None is one for each processor.
        part_size: How many bytes a part has. None is 4 MiB or less.
        extensions: Whether types of city objects that begin with `+` are known, as extensions have.
            Then a query can ask for them.
    """

    limits: Limits = Limits()
    keep_going: bool = False
    tree: bool = False
    jobs: int | None = None
    part_size: int | None = None
    extensions: bool = False


def lines_of(texts: Iterable[str]) -> bytes:
    """Returns texts as the library takes them, one a line. The empty one comes first, so that the
    last line is not empty and needs no LF."""
    listed = list(texts)
    empty = listed.count("")
    return ("\n" * empty + "\n".join(filter(None, listed))).encode("utf-8")


def _asked_lines(texts: Texts | bytes | None, what: str) -> bytes | None:
    """Returns the texts of a query in UTF-8, one a line. Takes one text, several texts, or bytes
    that have this form already."""
    if texts is None or isinstance(texts, bytes):
        return texts
    listed = [texts] if isinstance(texts, str) else list(texts)
    for text in listed:
        if not isinstance(text, str) or "\n" in text:
            raise RequestError(
                f"no text with a line's end in it can be asked for among {what}: {text!r}"
                if isinstance(text, str)
                else f"{what} are texts: {text!r} is none"
            )
    try:
        return lines_of(listed)
    except UnicodeEncodeError as fault:
        raise RequestError(f"{FAULTS[4]}, among {what}") from fault


def _ids_of(query: Query) -> bytes | None:
    """Returns the ids of a query in UTF-8, one a line."""
    if query.ids is None:
        return None
    from .ids import in_order  # few runs have ids

    return in_order(_asked_lines(query.ids, "ids") or b"")


def _box_of(box: Box | None) -> bytes | None:
    """Returns a box as the library takes it: minx,miny,maxx,maxy."""
    if box is None:
        return None
    text = box if isinstance(box, str) else ",".join(map(str, box))
    return text.encode("utf-8", "replace")


def _limit(value: int, least: int, greatest: int, what: str) -> int:
    if isinstance(value, bool) or not isinstance(value, int) or not least <= value <= greatest:
        raise RequestError(f"the {what} is not from {least:,} to {greatest:,}: {value!r}")
    return value


@dataclass(frozen=True)
class Work:
    """A request in the library's form, and the call that answers it. The kind is `check`, `filter`,
    `info` or `records`. `where` is a condition that an index alone looks at."""

    kind: str
    line_limit: int = USUAL_LINE
    depth: int = USUAL_DEPTH
    keep_going: bool = False
    tree: bool = False
    extensions: bool = False
    exclude: bool = False
    ids: bytes | None = None
    types: bytes | None = None
    lods: bytes | None = None
    box: bytes | None = None
    exact_lods: bool = False
    where: tuple[str, tuple[object, ...]] | None = None

    @property
    def reads_ids(self) -> bool:
        """Whether Python reads the ids of the lines, to find those of the query."""
        if self.ids is None:
            return False
        from .ids import are_read  # few runs have ids

        return are_read(self.ids)

    @property
    def asks_extensions(self) -> bool:
        """Whether the query asks for a type of an extension. No other type has this sign."""
        return b"+" in (self.types or b"")

    def request(self, header: bytes, part: Text) -> RawRequest:
        """Returns the request for a header and a part. The line limit is lowered to less than twice
        the length of the longer one, so that the library reserves less memory."""
        longest = max(len(header), len(part), LINE_LIMITS[0])
        ids = self.ids
        if ids is not None:
            from .ids import ids_for  # few runs have ids

            ids = ids_for(ids, part)
        return _request(self, ids, min(self.line_limit, 1 << (longest - 1).bit_length()))


@lru_cache(maxsize=8)
def _request(work: Work, ids: bytes | None, line_limit: int) -> RawRequest:
    """Returns a request. It is made once for many parts."""
    request = RawRequest(
        line_limit=line_limit,
        depth_limit=work.depth,
        keep_going=work.keep_going,
        tree=work.tree,
        exclude=work.exclude,
        extensions=work.extensions,
    )
    texts = {"ids": ids, "types": work.types, "lods": work.lods, "box": work.box}
    for name, text in texts.items():
        setattr(request, f"asks_{name}", text is not None)
        setattr(request, name, text or b"")
        setattr(request, f"{name}_length", len(text or b""))
    return request


def work_of(kind: str, options: Options, query: Query = Query(), exact_lods: bool = False) -> Work:
    """Returns the work for these options and this query.

    Raises:
        RequestError: They are not allowed.
    """
    if kind == "info" and options.keep_going:
        raise RequestError(
            "what is in a stream is told of a valid one: filter it first, with keep_going"
        )
    work = Work(
        kind=kind,
        line_limit=_limit(options.limits.line, *LINE_LIMITS, "line limit"),
        depth=_limit(options.limits.depth, *DEPTH_LIMITS, "depth"),
        keep_going=bool(options.keep_going),
        tree=bool(options.tree),
        extensions=bool(options.extensions),
        exclude=bool(query.exclude),
        ids=_ids_of(query),
        types=_asked_lines(query.types, "types"),
        lods=_asked_lines(query.lods, "LoDs"),
        box=_box_of(query.box),
        exact_lods=bool(exact_lods),
    )
    _check_request(work)
    return work


def _check_request(work: Work) -> None:
    """Asks the library whether it takes the request, by a call that judges nothing. Raises
    `RequestError` if it does not."""
    answer = library().check(b"", b"", work.request(b"", b""), 0)[0]
    if answer.status != CallStatus.BAD_REQUEST:
        return
    words = FAULTS.get(answer.code, f"bad request {answer.code}")
    if answer.code == UNKNOWN_TYPE:
        raise UnknownType(words, (work.types or b"").decode().split("\n")[answer.item])
    raise RequestError(words)


class UnknownType(RequestError):
    """A query for a type of city objects that does not exist. `brief` has the program's words."""

    def __init__(self, brief: str, name: str) -> None:
        self.brief, self.name = brief, name
        super().__init__(f"{brief}: {name}")

    def __reduce__(self) -> tuple[object, ...]:
        return RequestError, (self.words,)

    def alike(self) -> str | None:
        """Returns the type that the user may mean."""
        from .hints import types_like  # only mistakes need it

        return next(iter(types_like(self.name)), None)


@dataclass
class Answer:
    """The answer for a header and some lines after it. Lines are counted in these.

    Attributes:
        told: What the library answered.
        header_length: The bytes of the header.
        end: The report of the line that ended the stream, if one did.
        invalid: The lines after which reading went on.
        output: The kept lines. That of the first lines begins with the header.
        is_packed: Whether the output is packed.
        tally: What is in the features, if it was asked for.
        records: Where the features are, if that was asked for.
        size: How many bytes were judged.
        fault: Why the bytes after these lines could not be read, if so.
        parts: How many answers are joined in this one. If it is 0, nothing was judged.
    """

    told: RawAnswer = field(default_factory=RawAnswer)
    header_length: int = 0
    end: Report | None = None
    invalid: list[Invalid | Described] = field(default_factory=list)
    output: list[Text] = field(default_factory=list)
    is_packed: bool = False
    tally: Tally | None = None
    records: list[Records] = field(default_factory=list)
    size: int = 0
    fault: CityseqError | None = None
    parts: int = 1

    @property
    def status(self) -> CallStatus:
        """The status that the library returned."""
        return CallStatus(self.told.status)

    @property
    def lines(self) -> int:
        """How many lines were judged, with the header."""
        return int(self.told.lines)

    @property
    def lines_after_header(self) -> int:
        """How many lines were judged after the header."""
        return self.lines - 1 if self.parts else 0

    @property
    def kept(self) -> int:
        """How many features are kept."""
        return int(self.told.kept)

    @property
    def refused(self) -> int:
        """How many invalid lines reading went on after."""
        return int(self.told.refused)

    @property
    def peaks(self) -> tuple[int, int, int]:
        """The most bytes, tokens, and open arrays and objects that were in memory."""
        return self.told.peak_bytes, self.told.peak_tokens, self.told.peak_depth

    @property
    def reports(self) -> Iterator[Report]:
        """The reports of the invalid lines, in order."""
        return chain.from_iterable(self.invalid)

    @property
    def codes(self) -> Iterator[int]:
        """The reasons of the invalid lines. To read them takes less time than the reports do."""
        return chain.from_iterable(each.codes for each in self.invalid)

    def then(self, after: Answer) -> Answer:
        """Returns the answer for the lines of both, of which the second ones follow the first."""
        size = self.size + after.size
        if not self.parts or not after.parts:
            one = after if self.parts == 0 else self
            return replace(one, size=size, fault=after.fault)
        lines = self.lines_after_header
        return Answer(
            library().answer_then(self.told, after.told, self.header_length),
            self.header_length,
            after.end and after.end.moved(lines),
            [*self.invalid, *(each.moved(lines) for each in after.invalid)],
            self.output + after.output,
            after.is_packed,
            self.tally and after.tally and self.tally.joined(after.tally),
            [*self.records, *(each.moved(lines) for each in after.records)],
            size,
            after.fault,
            self.parts + after.parts,
        )

    def sent(self) -> Answer:
        """Returns the same answer for another process. It has reports, and not their lines."""
        from .reports import Described  # only clusters need it

        kept = ([report.kept() for report in each] for each in self.invalid)
        invalid: list[Invalid | Described] = [Described(reports) for reports in kept]
        return replace(self, invalid=invalid, output=[bytes(text) for text in self.output])

    def counts(self) -> Answer:
        """Returns the same answer without its lines: the counts, the tally and the end."""
        return replace(self, invalid=[], output=[], records=[])


def refused_memory() -> Answer:
    """Returns the answer for lines for which there is no memory."""
    return Answer(RawAnswer(CallStatus.NO_MEMORY))


def part_size(work: Work, usual: int, header: bytes, given: int | None = None) -> int:
    """Returns how many bytes are judged at once, unless the caller of the package says it. The
    header is judged again with each part, and the ids of a query are prepared again. So parts are
    longer if the header is long, or the ids are many."""
    for_ids = 0
    if work.ids is not None:
        from .ids import part_size_for  # few runs have ids

        for_ids = part_size_for(work.ids)
    return given or max(usual, HEADERS * len(header), for_ids)


def held(part: Text) -> bytes | bytearray:
    """Returns the bytes of a part to keep. A view is copied: its memory is used again later."""
    return bytes(part) if isinstance(part, memoryview) else part


def _call(
    work: Work, header: bytes, part: Text, room: int, ids_of: IdsOf | None
) -> tuple[Answer, bytes]:
    """Calls the function of the library that the work needs. Returns what it answers, and the
    reports that it wrote."""
    length = len(header)
    if work.kind == "records":
        from .records import found_in, spelled_ids  # few runs need it

        answer, reports, found = found_in(work, header, part, room, ids_of or spelled_ids)
        return Answer(answer, length, records=[found]), reports
    request = work.request(header, part)
    if work.kind == "filter":
        answer, reports, output = library().filter(header, part, request, room)
        return Answer(answer, length, output=[output]), reports
    if work.kind == "info":
        from .records import Tally  # few runs need it

        answer, reports, tally = library().tally(header, part, request, room)
        return Answer(answer, length, tally=Tally(tally)), reports
    answer, reports = library().check(header, part, request, room)
    return Answer(answer, length), reports


def judge_lines(
    work: Work,
    file: str,
    header: bytes,
    part: Text,
    is_first: bool,
    begin: int = 0,
    ids_of: IdsOf | None = None,
) -> Answer:
    """Judges a header and the lines of a part that begins at a byte of the stream. Only the output
    of the first part has the header. If the reports do not fit, judges it again with enough memory
    for them. `ids_of` reads the ids of records, as their lines spell them if it is None."""
    room = len(part) // LINE + 1 if work.keep_going else 0
    answer, reports = _call(work, header, part, room, ids_of)
    if answer.refused > room and work.keep_going:
        answer, reports = _call(work, header, part, answer.refused, ids_of)
    if answer.status not in JUDGED:
        raise CityseqError(
            f"the library answered {answer.status}, code {answer.told.code},"
            f" of a part of {len(part)} bytes"
        )
    if work.exact_lods and answer.tally is not None and answer.status == CallStatus.COMPLETE:
        from .records import count_lods  # few runs need it

        count_lods(answer.tally, work, header, part)
    is_ended = answer.status == CallStatus.REFUSED
    if reports or is_ended:
        from .reports import Invalid, report_of_end  # valid streams do without

        text = held(part)
        if is_ended:
            answer.end = report_of_end(answer.told, header, text, file)
        if reports:
            answer.invalid = [Invalid(file, reports, header, text)]
    if not is_first:
        answer.output = [memoryview(text)[len(header) :] for text in answer.output if text]
    answer.records = [replace(each, begin=begin) for each in answer.records]
    answer.size = len(part)
    return answer


def judge(chunk: Chunk, work: Work, size: int | None = None, ids_of: IdsOf | None = None) -> Answer:
    """Judges a chunk of a stream, in parts of the given size, or as long as suits the work.
    `ids_of` reads the ids of records, as their lines spell them if it is None."""
    joined = Answer(parts=0)
    if work.exact_lods:  # how many texts of LoDs are counted depends on the parts
        size = chunk.length
    step = part_size(work, SMALL, chunk.header, size)
    fault = chunk.fault
    try:
        for begin, part in chunk.parts(step, work.reads_ids):
            is_first = chunk.is_first and not joined.parts
            answer = judge_lines(work, chunk.file, chunk.header, part, is_first, begin, ids_of)
            joined = joined.then(answer)
            if answer.status != CallStatus.COMPLETE:
                break
    except MemoryError:
        joined = joined.then(refused_memory())
    except OSError as cause:
        fault = read_fault(cause, chunk.file)
    if joined.status == CallStatus.COMPLETE:
        joined.fault = fault
    joined.size = chunk.length
    return joined
