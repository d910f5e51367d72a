"""The processes that the command starts."""
from __future__ import annotations

import shutil
import signal
import subprocess
from collections.abc import Iterator, Sequence
from contextlib import AbstractContextManager, contextmanager
from pathlib import Path

from .ending import NO_ERLANG, Ended, say

ROOT = Path(__file__).resolve().parent.parent


@contextmanager
def child(words: Sequence, ends_by: int = signal.SIGTERM, **how) -> Iterator[subprocess.Popen]:
    """A process that has ended where this block is left; a signal ends it where the block is left by an exception."""
    with subprocess.Popen(words, **how) as running:
        try:
            yield running
        except BaseException:
            running.send_signal(ends_by)
            running.wait()
            raise


def status_of(ended: subprocess.Popen, name: str) -> int:
    """The status of a process as a shell has it. A signal that ended it is told."""
    if ended.returncode >= 0:
        return ended.returncode
    number = -ended.returncode
    say(f"{name} was ended by a signal: {signal.strsignal(number) or number}")
    return 128 + number


def need_erlang() -> None:
    if shutil.which("escript") is None:
        raise Ended(NO_ERLANG, "escript, of Erlang/OTP, is not on PATH (Debian: apt-get install erlang-base python3)")


def erlang(script: str, *words, stdin: int) -> AbstractContextManager[subprocess.Popen]:
    """A script of erlang/, as a child. Its end needs no order; what it says of a sudden one nobody is to read."""
    streams = {"stdin": stdin, "stdout": subprocess.PIPE, "stderr": subprocess.PIPE}
    return child(["escript", ROOT / "erlang" / script, *words], ends_by=signal.SIGKILL, bufsize=0, **streams)
