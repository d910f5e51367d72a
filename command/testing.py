"""The tests of a module, each of which is explored by itself."""
from __future__ import annotations

import os
from collections.abc import Callable, Sequence
from dataclasses import replace

from .ending import NO_INPUT, Ended
from .exploring import CLEAN, ERRORS, INCOMPLETE
from .telling import show_text
from .told import Told
from .words import Request

GENERATOR = "_test_"
NOT_EXPLORED = "incomplete: it makes tests (?_test), and only functions whose names end with _test are explored"
REFUSED = "incomplete: it is refused, and standard error says why"


def explore_tests(request: Request, names: Sequence[str], explored: Callable[[Request], Told]) -> list[Told]:
    """Explores each test, and tells a line of it, with its report where it is not clean."""
    if not names:
        raise Ended(NO_INPUT, f"{request.source}: there is no function without arguments whose name ends with _test")
    tests = [_test(request, name, explored) for name in names]
    clean, errors, incomplete = (sum(told.status == it for told in tests) for it in (CLEAN, ERRORS, INCOMPLETE))
    show_text(f"tests {len(tests)}: no error {clean}, errors {errors}, incomplete {incomplete}\n")
    return tests


def status_of_tests(tests: Sequence[Told]) -> int:
    found = {told.status for told in tests}
    return next((it for it in (ERRORS, INCOMPLETE) if it in found), CLEAN)


def _test(request: Request, name: str, explored: Callable[[Request], Told]) -> Told:
    entry = f"{name}/0"
    if name.endswith(GENERATOR):
        return _without_report(request, entry, NOT_EXPLORED)
    drawings, page = (it and os.path.join(it, name) for it in (request.drawings, request.page))
    try:
        told = explored(replace(request, conversion=[*request.conversion, "--entry", entry], drawings=drawings, page=page))
    except Ended as end:
        if end.status != NO_INPUT:
            raise
        return _without_report(request, entry, REFUSED)
    show_text(f"{entry}: {_outcome(told)}\n")
    if told.status != CLEAN:
        show_text(f"\n{told.report}\n")
    return told


def _without_report(request: Request, entry: str, why: str) -> Told:
    show_text(f"{entry}: {why}\n")
    return Told(request.source, entry, INCOMPLETE, f"{why}\n", 0.0)


def _outcome(told: Told) -> str:
    if told.status == CLEAN:
        return f"{told.explored}, no error"
    return f"errors {told.count}" if told.status == ERRORS else "incomplete"
