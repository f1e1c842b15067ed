"""Runs the command: python3 -m cityseq."""
from __future__ import annotations

import os

TYPE_CHECKING = False  # `typing` takes long to load, and an interrupt may come meanwhile
if TYPE_CHECKING:
    from typing import NoReturn


def _end(status: int, words: str) -> NoReturn:
    """Ends the process with a line on standard error. Nothing that could fail is loaded for it."""
    os.write(2, f"{words}\n".encode())
    os._exit(status)


def run() -> NoReturn:
    """Runs the command by the words of the command line, and ends the process with its status.

    The command handles faults and interrupts itself. Here are those that come before it is loaded.
    """
    try:
        from .cli import run as run_command

        run_command()
    except KeyboardInterrupt:
        _end(130, "interrupted")
    except RuntimeError as fault:  # Python 3.11 wraps what comes while a class is made
        if not isinstance(fault.__cause__, KeyboardInterrupt):
            raise
        _end(130, "interrupted")
    except MemoryError:
        _end(5, "out of memory")
    except ImportError as fault:
        if "failed to map" not in str(fault):
            raise
        _end(5, "out of memory")


if __name__ == "__main__":
    run()
