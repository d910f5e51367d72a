"""Explorations: one to a depth, or several of the tree, deeper and deeper."""
from __future__ import annotations

from collections.abc import Sequence
from dataclasses import dataclass, replace
from typing import Optional

from .ending import Ended
from .program import Program, Ran
from .program_report import Report
from .words import Request

STEP, DEEPEST = 8, 400
# A tree of at most so many nodes is explored deeper although it shows an error.
FEW = 50_000
# How many random schedules are followed where a search stops early without an error, and from which seed they are drawn.
RUNS, SEED = 1_000, 1
CLEAN, ERRORS, INCOMPLETE = 0, 1, 3
# the reasons of an end on purpose, in the spelling of the program, in which '_' stands for any term
ON_PURPOSE = ("'shutdown'", "{'shutdown','_'}")


@dataclass(frozen=True)
class Explored:
    """The report of an exploration, the status, and how far it came.

    `reach` is `all`, where no schedule is longer than the depth, as the program says itself; `depth`, where that depth was
    asked for; `deepest`, where there is no greater depth; `stopped`, where it did not come to the depth. Of a tree that is
    explored deeper and deeper it is `errors`, where the depth shows an error, and there are longer schedules; or `limit`,
    where the depth has too many nodes.

    `sample` is what random schedules show, where the search stopped early without an error.
    """

    report: Report
    status: int
    reach: str
    depth: int
    sample: Optional[Report] = None

    @property
    def shown(self) -> Report:
        """The report whose findings are shown: that of random schedules, where these show errors."""
        return self.sample if self.is_of_sample else self.report

    @property
    def is_of_sample(self) -> bool:
        return self.sample is not None and self.sample.has_errors

    @property
    def coverage(self) -> str:
        return f"{self.reach} {self.depth}"


@dataclass(frozen=True)
class Words:
    """The words for the program: those of a search, and those of random schedules."""

    search: list[str]
    sample: list[str]


def words_for(request: Request, normal: Sequence[str]) -> Words:
    """By states, unless the tree is asked for, and at once, unless any delay is. An end with `shutdown` or
    `{shutdown,Term}` is one on purpose, as OTP has it, unless ends are to be taken strictly. A report for people is made of
    terms."""
    form = ["--explain"] if request.raw else ["--format", "terms"]
    states = [] if request.tree else ["--states"]
    prompt = ["--at-once"] if request.at_once else []
    on_purpose = [] if request.strict_ends else [it for it in ON_PURPOSE if it not in normal]
    counting = [*request.counting, *(f"--normal={it}" for it in [*on_purpose, *normal]), *prompt]
    return Words([*form, *request.limits, *counting, *states], [*form, *counting])


def explore(program: Program, search: Sequence[str], request: Request) -> Explored:
    if request.tree and request.depth is None:
        return _deepened(program, search)
    depth = DEEPEST if request.depth is None else request.depth
    report, status, is_whole = _explored_to(program, depth, search)
    if report.is_of_all:
        return Explored(report, status, "all", depth)
    reach = "stopped" if not is_whole else "deepest" if request.depth is None else "depth"
    return Explored(report, status, reach, depth)


def sample_after(program: Program, words: Sequence[str], request: Request, explored: Explored) -> Explored:
    """The same, with what random schedules show where the search stopped early without an error. An error that counts has
    status 1 then."""
    if explored.status != INCOMPLETE or explored.reach not in ("stopped", "limit"):
        return explored
    depth = DEEPEST if request.depth is None else request.depth
    ran = program.run("sample", "--depth", str(depth), "--runs", str(RUNS), "--seed", str(SEED), *words)
    if ran.status not in (ERRORS, INCOMPLETE) or not ran.printed:
        return explored
    sample = Report(ran.printed)
    return replace(explored, sample=sample, status=ERRORS if sample.has_errors else INCOMPLETE)


def explore_promptly(program: Program, search: Sequence[str], request: Request, explored: Explored) -> Optional[Report]:
    """What schedules show in which signals arrive at once, beside a report with errors whose signals take any time.

    There is none where these were not all explored: a longer one may show the same error.
    """
    if request.at_once or explored.is_of_sample or not explored.report.lists_errors:
        return None
    depth = DEEPEST if request.depth is None else request.depth
    prompt = Report(_run_to(program, depth, [*search, "--at-once"]).printed)
    return prompt if prompt.is_of_all else None


def _run_to(program: Program, depth: int, search: Sequence[str]) -> Ran:
    return program.run("explore", "--depth", str(depth), *search)


def _explored_to(program: Program, depth: int, search: Sequence[str]) -> tuple[Report, int, bool]:
    """The report to a depth, the status, and whether it is complete.

    An error that counts has status 1, also where the report is incomplete; where a process comes to what is not read, and
    there is no error, the status is 3.
    """
    ran = _run_to(program, depth, search)
    report = Report(ran.printed)
    if ran.status not in (CLEAN, ERRORS, INCOMPLETE) or (ran.status == INCOMPLETE and not ran.printed):
        raise Ended(ran.status)
    status = ran.status
    if ran.status == INCOMPLETE or report.reaches_unread:
        status = ERRORS if report.has_errors else INCOMPLETE
    return report, status, ran.status != INCOMPLETE


def _deepened(program: Program, search: Sequence[str]) -> Explored:
    """Explores the tree deeper and deeper."""
    last = None
    for depth in range(STEP, DEEPEST + 1, STEP):
        report, status, is_whole = _explored_to(program, depth, search)
        if not is_whole:
            return _better(last, Explored(report, status, "limit", depth))
        if report.is_of_all:
            return Explored(report, status, "all", depth)
        if status == ERRORS and report.nodes > FEW:
            return Explored(report, status, "errors", depth)
        last = report
    return Explored(report, status, "deepest", DEEPEST)


def _better(before: Optional[Report], last: Explored) -> Explored:
    """Where the last report is incomplete, the one before it says more, unless it is the last that shows the first errors,
    or comes first to what is not read."""
    if before is None:
        return last
    if before.has_errors:
        return Explored(before, ERRORS, last.reach, last.depth)
    if last.report.has_errors or (last.report.reaches_unread and not before.reaches_unread):
        return last
    return Explored(before, last.status, last.reach, last.depth)
