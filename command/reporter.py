"""The process of Erlang that makes the report for people (erlang/report.escript)."""
from __future__ import annotations

import contextlib
import os
import subprocess
from collections.abc import Iterator
from pathlib import Path
from typing import Optional

from .children import erlang, status_of
from .ending import Ended, complain
from .program import Program
from .words import Request

# What it says where it asks for a replay.
REPLAY = b"replay\n"


class Reporter:
    """It is asked by lines: first, if at all, for the spelling of terms, and at last for a report. For that it may ask for replays."""

    def __init__(self, running: subprocess.Popen, room: Path):
        self.running, self.room = running, room

    def spell(self, terms: list[str]) -> list[str]:
        """Terms that people wrote, in the spelling of the program. Where one is none the process says so, and ends."""
        (self.room / "normal").write_bytes(b"".join(os.fsencode(it) + b"\0" for it in terms))
        if not self._answer(b"normal\n"):
            raise Ended(self._ended()[0])
        return [os.fsdecode(line) for line in (self.room / "spelled").read_bytes().split(b"\n")[:-1]]

    def report(self, asked: str, program: Program) -> Optional[bytes]:
        """The report of what is in the folder, or none where it cannot be made. `asked` is `replay`, or `explore`
        with how far it came, how many states or nodes it might find, and which sums are told. Before it the process may ask
        for replays of schedules."""
        line = self._answer(f"{asked}\n".encode())
        while line == REPLAY:
            schedule = (self.room / "schedule").read_text()
            line = self._answer(b"replayed\n" if program.replay_into(schedule, self.room / "replayed") else b"failed\n")
        status, told = self._ended()
        return line + told if status == 0 else None

    def _answer(self, asked: bytes) -> bytes:
        """The line that it says when it is asked something."""
        with contextlib.suppress(BrokenPipeError):  # of a process that has ended
            self.running.stdin.write(asked)
        return self.running.stdout.readline()

    def _ended(self) -> tuple[int, bytes]:
        """The status and what is printed, where nothing more is asked; what it complains of is passed on."""
        told, said = self.running.communicate()
        complain(said)
        return status_of(self.running, "Erlang"), told


@contextlib.contextmanager
def reporter(request: Request, room: Path) -> Iterator[Optional[Reporter]]:
    """The process, if it will be needed. It begins at once, beside all else, and then waits until it is asked."""
    if not request.needs_reporter:
        yield None
        return
    delivery = "at-once" if request.at_once else "any-delay"
    words = [room, request.source, delivery, request.drawings, request.page, *request.shown]
    (room / "sources").write_bytes(b"".join(os.fsencode(it) + b"\0" for it in [*request.files, *request.folders]))
    with erlang("report.escript", *words, stdin=subprocess.PIPE) as running:
        yield Reporter(running, room)
