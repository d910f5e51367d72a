"""How the command ends, and what it writes to the standard streams."""
from __future__ import annotations

import contextlib
import os
import signal
import sys
from typing import Optional

NO_INPUT, NO_OUTPUT, WRONG_WORDS, NO_ERLANG, NO_PROGRAM = 2, 4, 64, 69, 70
STANDARD_OUTPUT, STANDARD_ERROR = 1, 2


class Ended(Exception):
    """Ends the command with a status, and with a line that says why, unless that was said already."""

    def __init__(self, status: int, line: Optional[str] = None):
        super().__init__(line)
        self.status, self.line = status, line


def misread(text: str) -> Ended:
    """The end of a command whose words are wrong."""
    return Ended(WRONG_WORDS, f"{text}; ./explore --help has the words")


def say(text: str) -> None:
    """Says a line on standard error."""
    complain(os.fsencode(f"explore: {text}\n"))


def complain(text: bytes) -> None:
    """Writes to standard error, where somebody reads it."""
    with contextlib.suppress(OSError):
        _write(STANDARD_ERROR, text)


def show(text: bytes) -> None:
    """Writes to standard output. A reader that goes away early, such as `head`, ends only the printing."""
    try:
        _write(STANDARD_OUTPUT, text)
    except BrokenPipeError:
        pass
    except OSError as fault:
        raise Ended(NO_OUTPUT, f"the output could not be written: {fault.strerror}") from fault


def _write(stream: int, text: bytes) -> None:
    left = memoryview(text)
    while left:
        left = left[os.write(stream, left):]


def end_by_signals() -> None:
    """Has a signal end this process by an exception, so that its child and its folder end with it."""
    for number in (signal.SIGTERM, signal.SIGHUP):
        if signal.getsignal(number) is signal.SIG_DFL:
            signal.signal(number, lambda number, _: sys.exit(128 + number))
