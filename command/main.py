"""From the words to the status."""
from __future__ import annotations

import contextlib
import os
import subprocess
import tempfile
import time
from collections.abc import Iterator, Sequence
from pathlib import Path
from typing import Optional

from .children import need_erlang
from .converting import convert, entry_of, names_of_tests
from .ending import NO_PROGRAM, Ended, end_by_signals, say, show
from .exploring import Words, explore, explore_promptly, sample_after, words_for
from .help_text import HELP
from .junit import suite_of_errors, suite_of_tests, write_junit
from .program import LAUNCHER, Program, look_for_program
from .reporter import Reporter, reporter
from .telling import report_of, show_raw, show_text, tell_replay
from .testing import explore_tests, status_of_tests
from .told import Told
from .words import Asked, Request, read


def main(words: Sequence[str]) -> int:
    end_by_signals()
    try:
        return answer(words)
    except Ended as end:
        if end.line is not None:
            say(end.line)
        return end.status
    except OSError as fault:
        say(f"{fault.strerror}: {fault.filename}" if fault.filename else str(fault.strerror))
        return NO_PROGRAM


def answer(words: Sequence[str]) -> int:
    try:
        request = read(words)
    except Asked as asked:
        return version() if asked.option == "--version" else print_help()
    return work(request)


def print_help() -> int:
    show_text(HELP)
    return 0


def version() -> int:
    """Prints what the program says of its version. Nothing is known of one that EXPLORER names."""
    named = os.environ.get("EXPLORER")
    if named:
        show(b"The program is the one that EXPLORER names: %s\n" % os.fsencode(named))
        return 0
    return subprocess.run([LAUNCHER, "--version"]).returncode


def work(request: Request) -> int:
    """Does what the words ask for."""
    if request.needs_reporter:
        need_erlang()
    if request.eunit:
        return search_tests(request)
    if request.core:
        return print_module(request)
    if request.replay is not None:
        return replay(request)
    return search_unchanged(request) if request.raw else search(request)


@contextlib.contextmanager
def begun(request: Request) -> Iterator[tuple[Path, Optional[Reporter]]]:
    """The Core module, and the process that makes the report, in a folder of its own, which is gone at the end."""
    look_for_program(os.environ)
    with tempfile.TemporaryDirectory(prefix="explore-") as name, reporter(request, Path(name)) as waiting:
        yield convert(request, Path(name)), waiting


def ready(request: Request, module: Path, waiting: Optional[Reporter]) -> tuple[Program, Words]:
    """The program that reads the module, and its words."""
    program = Program(os.environ, module, request.source if request.is_converted else None)
    normal = waiting.spell(request.normal) if waiting and request.normal else request.normal
    return program, words_for(request, normal)


def print_module(request: Request) -> int:
    with begun(request) as (module, _):
        show(module.read_bytes())
    return 0


def replay(request: Request) -> int:
    """Shows what happens in one schedule, as far as its steps are possible."""
    with begun(request) as (module, waiting):
        program, _ = ready(request, module, waiting)
        ran = program.run("replay", request.replay)
        if request.raw:
            show_text(ran.printed)
        elif ran.printed or ran.status == 0:
            tell_replay(waiting, program, ran.printed)
    return ran.status


def search_unchanged(request: Request) -> int:
    """Explores, and shows what the program printed."""
    with begun(request) as (module, waiting):
        program, words = ready(request, module, waiting)
        explored = explore(program, words.search, request)
        show_raw(explored)
    return explored.status


def search(request: Request) -> int:
    told = searched(request)
    show_text(told.report)
    if request.junit is not None:
        write_junit(request.junit, suite_of_errors(told))
    return told.status


def search_tests(request: Request) -> int:
    tests = explore_tests(request, names_of_tests(request), searched)
    if request.junit is not None:
        write_junit(request.junit, suite_of_tests(tests))
    return status_of_tests(tests)


def searched(request: Request) -> Told:
    """Explores, and has the report made for people."""
    began = time.monotonic()
    with begun(request) as (module, waiting):
        program, words = ready(request, module, waiting)
        explored = sample_after(program, words.sample, request, explore(program, words.search, request))
        report = report_of(waiting, program, explored, explore_promptly(program, words.search, request, explored), request)
        return Told(request.source, entry_of(module), explored.status, report, time.monotonic() - began)
