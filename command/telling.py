"""From what the program printed to what people read."""
from __future__ import annotations

from pathlib import Path
from typing import Optional

from .ending import say, show
from .exploring import DEEPEST, Explored
from .program import Program
from .program_report import Report
from .reporter import Reporter
from .words import Request


def report_of(reporter: Reporter, program: Program, explored: Explored, prompt: Optional[Report], request: Request) -> str:
    """The report for people, with the mark of errors that no prompt report has."""
    room = reporter.room
    _write(room / "report", explored.shown.text)
    if explored.is_of_sample:
        _write(room / "before", explored.report.text)
    elif explored.sample is not None:
        _write(room / "sample", explored.sample.text)
    if prompt is not None:
        _write(room / "prompt", prompt.text)
    return _told(reporter, program, f"explore {explored.coverage} {request.nodes} {'normal' if request.tells_normal else 'plain'}")


def tell_replay(reporter: Reporter, program: Program, printed: str) -> None:
    _write(reporter.room / "report", printed)
    show_text(_told(reporter, program, "replay"))


def show_raw(explored: Explored) -> None:
    """Prints the report of the program, and says on standard error what was explored."""
    show_text(explored.report.text)
    coverage = {
        "all": "all schedules: there are no longer ones",
        "errors": f"depth {explored.depth} shows an error; there are longer schedules",
        "limit": f"depth {explored.depth} has more nodes than may be visited",
        "deepest": f"depth {DEEPEST} is the greatest; there may be longer schedules",
    }
    if explored.reach in coverage:
        say(coverage[explored.reach])
    if explored.report.reaches_unread:
        say("what is not read was reached: what comes after it was not explored")


def show_text(text: str) -> None:
    show(_bytes(text))


def _told(reporter: Reporter, program: Program, asked: str) -> str:
    """The report for people; where it cannot be made, the program's own takes its place."""
    told = reporter.report(asked, program)
    if told is None:
        say("the report could not be made; this is what the program printed")
        told = (reporter.room / "report").read_bytes()
    return told.decode(errors="surrogateescape")


def _write(file: Path, text: str) -> None:
    file.write_bytes(_bytes(text))


def _bytes(text: str) -> bytes:
    return text.encode(errors="surrogateescape")
