"""The command `cityseq-run`, also `python3 -m cityseq`: reads the command line, runs what it asks
for, and ends with a status. `options` and `requests` have the commands and their options, and each
`*_commands` runs some."""
from __future__ import annotations

import argparse
import os
import signal
import sys
from collections.abc import Sequence
from contextlib import suppress
from functools import partial
from importlib import import_module
from typing import Any, NoReturn

from .. import __version__
from ..engine import BOX_FAULTS, CityseqError, RequestError, Status, WriteFault, shown
from ..engine.judge import UnknownType
from .options import Check, Filter, Info, Request, options_of
from .output import brief, drop_output, flush, hold_descriptors, put, say, write_whole_outputs

WIDTH = 100  # a known width, so that argparse does not look for it
SIMILAR = 0.7  # how similar a word must be to be suggested
# options that are gone, and what to do now
GONE = {
    ("serve", "--processes"): "there is no --processes: gunicorn runs many processes\n\n"
    "  gunicorn --workers 4 --worker-class aiohttp.GunicornWebWorker"
    " 'cityseq.serve:runner(\"region.gpkg\")'",
}
MISSING = "expected one argument", "a value is missing"
MINUS = "write a value that begins with a minus after an equals sign, such as --bbox=-5,0,5,9"
USUAL_NAME = "cityseq-run"
STOPPED = 128  # plus the number of the signal
WHERE = "to those who gave you cityseq"  # where to report an unexpected failure
SHORT_OF_MEMORY = ("cannot allocate memory", "failed to map segment", "cannot map")
BOX = "a box is minx,miny,maxx,maxy: four numbers in world coordinates, the least first"


class Mistake(RequestError):
    """A mistake in the command line. Its words are the whole message."""


class Answered(Exception):
    """The command line asks only for a text, such as the help or the version."""


class _Once(argparse.Action):
    """Stores the value of an option, and refuses a second one."""

    def __call__(
        self, _: object, namespace: argparse.Namespace, values: object, name: str | None = None
    ) -> None:
        if hasattr(namespace, self.dest):
            raise argparse.ArgumentError(self, "it is given more than once")
        setattr(namespace, self.dest, True if self.nargs == 0 else values)


class _Help(argparse.Action):
    """Asks for the help on a command."""

    def __call__(self, parser: argparse.ArgumentParser, *_: object) -> NoReturn:
        assert isinstance(parser, _Parser)
        raise Answered(_help(parser.prog, parser.command))


class _Parser(argparse.ArgumentParser):
    """Reads the words after the name of a command."""

    def __init__(self, program: str, command: type[Request]) -> None:
        super().__init__(
            program,
            "",  # a mistake has a usage of its own
            add_help=False,
            allow_abbrev=False,
            argument_default=argparse.SUPPRESS,
            formatter_class=partial(argparse.HelpFormatter, width=WIDTH),
        )
        self.command, self.has_minus = command, False
        self.add_argument("-h", "--help", nargs=0, action=_Help)
        for option in options_of(command):
            takes: dict[str, Any] = {"nargs": 0}  # `add_argument` has no type for them
            if option.value is not None:
                takes = {"type": option.read, "metavar": option.value}
            self.add_argument(
                *([f"-{option.short}"] if option.short else []),
                f"--{option.name}",
                dest=option.field,
                action="extend" if option.repeats else _Once,
                **takes,
            )
        self.add_argument("files", nargs="*")

    def error(self, message: str) -> NoReturn:
        message = message.removeprefix("argument ").replace(*MISSING)
        tip = MINUS if MISSING[1] in message and self.has_minus else None
        raise _mistake(self.prog, shown(message), tip, self.command)

    def read(self, words: Sequence[str]) -> dict[str, Any]:  # as argparse has them
        """Returns the fields that the words set."""
        words, more = list(words), []
        if "--" in words:  # all words after it are files
            words, more = words[: words.index("--")], words[words.index("--") + 1 :]
        self.has_minus = any(word[:1] == "-" and word[1:2].isdigit() for word in words)
        namespace, others = self.parse_known_intermixed_args(words)
        unknown = next((word for word in others if word.startswith("-")), None)
        if unknown is not None:
            raise self._unknown(shown(unknown.partition("=")[0]))
        fields = vars(namespace)
        fields["files"] = [*fields.get("files", []), *others, *more]
        return fields

    def _unknown(self, name: str) -> Mistake:
        if (self.command.command, name) in GONE:
            return _mistake(self.prog, GONE[self.command.command, name], None, self.command)
        names = [f"--{option.name}" for option in options_of(self.command)]
        tip = _tip(name, names)
        return _mistake(self.prog, f"there is no option {name}", tip, self.command)


def _help(program: str, command: type[Request] | None) -> str:
    """Returns the help on a command, or on all of them."""
    from .requests import command_help, program_help  # few runs need it

    return program_help(program) if command is None else command_help(program, command)


def _tip(word: str, others: Sequence[str]) -> str | None:
    """Returns a tip with the word that the user may mean, if one is similar."""
    from difflib import get_close_matches  # only mistakes need it

    near = get_close_matches(word, others, 1, SIMILAR)
    return f"is {near[0]} meant?" if near else None


def _mistake(
    program: str, what: str, tip: str | None, command: type[Request] | None = None
) -> Mistake:
    """Returns a mistake with a tip, the usage, and where the help is."""
    from .requests import usage  # only mistakes need it

    name = program if command is None else f"{program} {command.command}"
    tips = [f"  tip: {tip}"] if tip else []
    lines = [f"error: {what}", *tips, usage(program, command), f"See '{name} --help'."]
    return Mistake("\n".join(lines))


def _command(program: str, name: str) -> type[Request]:
    """Returns the command of this name. Most runs have one of the first three."""
    for command in (Check, Filter, Info):
        if command.command == name:
            return command
    from .requests import COMMANDS

    if name not in COMMANDS:
        raise _mistake(
            program, f"there is no command '{shown(name)}'", _tip(name, [*COMMANDS, "help"])
        )
    return COMMANDS[name]


def read_words(program: str, version: str, words: Sequence[str]) -> Request:
    """Returns what the words of a command line ask for. `program` is the name that was called.

    Raises:
        Answered: They ask only for a text.
        Mistake: They are wrong.
    """
    if not words:
        raise Mistake(_help(program, None))
    first, *rest = words
    if first in ("-h", "--help") or (first == "help" and not rest):
        raise Answered(_help(program, None))
    if first in ("-V", "--version"):
        raise Answered(f"{program} {version}")
    if first == "help":
        raise Answered(_help(program, _command(program, rest[0])))
    if first == "--explain":  # its first name
        first = "explain"
    command = _command(program, first)
    return command(**_Parser(program, command).read(rest))


class Stopped(BaseException):
    """A signal that asks the process to end."""

    def __init__(self, number: int) -> None:
        super().__init__(number)
        self.name, self.value = signal.Signals(number).name, number


def _stop(number: int, _frame: object) -> NoReturn:
    raise Stopped(number)


def end_by_signals() -> None:
    """Makes the signals that ask a process to end raise an exception, so that no incomplete file
    stays."""
    for number in (signal.SIGTERM, signal.SIGHUP):
        if signal.getsignal(number) == signal.SIG_DFL:
            signal.signal(number, _stop)


def program_name() -> str:
    """Returns the name that the command was called with, or `cityseq-run`."""
    name = os.path.basename(sys.argv[0])
    return name if name.startswith("cityseq") else USUAL_NAME


def _run(request: Request) -> int:
    """Runs the command. It loads the code of this command alone."""
    module, _, function = request.runner.partition(":")
    status: int = getattr(import_module(module, __name__), function)(request)
    return status


def _say_fault(fault: CityseqError, is_plain: bool) -> None:
    """Writes the fault that ended the run. It has the program's words if only standard input is
    read."""
    if isinstance(fault, Mistake):
        say(fault.words)
    elif isinstance(fault, UnknownType):
        near = fault.alike()
        say(fault.brief if is_plain else shown(fault.words))
        if near is not None and not is_plain:
            say(f"  tip: is '{near}' meant?")
    elif is_plain and fault.status != Status.BAD_REQUEST:
        say(brief(fault.words))
    else:
        say(shown(str(fault)))
        if fault.words in BOX_FAULTS and not is_plain:
            say(f"  tip: {BOX}")


def _traced(fault: Exception) -> str:
    """Returns an unexpected fault and its place in the code, in one line."""
    import traceback  # rarely needed

    calls = traceback.extract_tb(fault.__traceback__)
    place = f" in {os.path.basename(calls[-1].filename)}, line {calls[-1].lineno}" if calls else ""
    return shown(" ".join(f"{type(fault).__name__}: {fault}".split()) + place)


def _is_short_of_memory(fault: BaseException) -> bool:
    """Whether memory is short, which the fault does not name. The system's loader has none for a
    library, or a call of Python returns no exception."""
    words = str(fault).lower()
    if isinstance(fault, SystemError):
        import resource  # few faults need it

        has_limit = resource.getrlimit(resource.RLIMIT_AS)[0] != resource.RLIM_INFINITY
        return has_limit and "returned null without setting an exception" in words
    return isinstance(fault, ImportError) and any(each in words for each in SHORT_OF_MEMORY)


def _lacks_folder() -> bool:
    """Whether the working folder was removed, so that no relative name leads anywhere."""
    try:
        os.getcwd()
    except FileNotFoundError:
        return True
    return False


def _interrupt_of(fault: BaseException | None) -> BaseException | None:
    """Returns the interrupt behind a fault, or None. Python 3.11 wraps one in a class's body."""
    while fault is not None and not isinstance(fault, (KeyboardInterrupt, Stopped)):
        fault = fault.__cause__ or fault.__context__
    return fault


def _status_of(fault: BaseException, request: Request | None) -> int:
    """Writes the fault that ended the run, and returns the status."""
    if _is_short_of_memory(fault):
        say("out of memory")
        return Status.NO_MEMORY
    match fault:
        case CityseqError():
            _say_fault(fault, request is None or request.is_plain)
            if fault.status == Status.WRITE_FAULT:
                drop_output()
            return fault.status
        case MemoryError():
            say("out of memory")
            return Status.NO_MEMORY
        case FileNotFoundError() if _lacks_folder():
            say("the working folder was removed: change to another one")
            return Status.BAD_REQUEST
        case KeyboardInterrupt():
            say("interrupted")
            return STOPPED + signal.SIGINT
        case Stopped():
            say(f"stopped by {fault.name}")
            return STOPPED + fault.value
        case Exception() if (interrupt := _interrupt_of(fault)) is not None:
            return _status_of(interrupt, request)
        case Exception():
            say(
                f"unexpected failure: {_traced(fault)}. This is a fault of cityseq: please report"
                f" this line and the command {WHERE}"
            )
            return Status.UNEXPECTED
    raise fault


def _flush(status: int) -> None:
    """Flushes standard output. A fault is not reported twice.

    Raises:
        WriteFault: That fails, and the status is that of no such fault.
    """
    try:
        flush()
    except WriteFault:
        if status != Status.WRITE_FAULT:
            raise
        drop_output()


def main(words: Sequence[str] | None = None) -> int:
    """Runs the command with these words, or those of the command line, and returns the status."""
    request: Request | None = None
    try:
        try:
            request = read_words(
                program_name(), __version__, sys.argv[1:] if words is None else words
            )
            status = _run(request)
        except Answered as text:
            put(str(text))
            status = 0
        _flush(status)
        return status
    except BaseException as fault:
        return _status_of(fault, request)


def run() -> NoReturn:
    """Runs the command by the words of the command line, and ends the process with its status.

    Nothing is open then, so the process ends at once. Python's own end would take a sixth of the
    time of a short run."""
    hold_descriptors()
    write_whole_outputs()
    end_by_signals()
    status = main()
    with suppress(OSError, ValueError):  # the status reports a fault
        for output in (sys.stdout, sys.stderr):
            if output is not None:
                output.flush()
    os._exit(status)
