"""The report for people, as it was printed of one exploration."""
from __future__ import annotations

import os
import re
from dataclasses import dataclass
from functools import cached_property

# Where a finding begins in the report, or the lines of the result.
BEGINNING = re.compile(r"^(?=(?:error|refusal|normal) [0-9]+: |not read: |errors [0-9]+, )", re.M)
ERROR = re.compile(r"error [0-9]+: (.*)")
ERRORS = re.compile(r"errors ([0-9]+), ")
COUNT = re.compile(r", [0-9]+ (?:state|node)s?\b")


@dataclass(frozen=True)
class Told:
    """An exploration: its source and entry, the status, the report, and how many seconds it took."""

    source: str
    entry: str
    status: int
    report: str
    seconds: float

    @property
    def name(self) -> str:
        """The name of the source without its folder."""
        return os.path.basename(self.source)

    @cached_property
    def _parts(self) -> list[str]:
        return BEGINNING.split(self.report)

    @property
    def explored(self) -> str:
        """Which schedules were explored, in the words of the first line."""
        return COUNT.sub("", self._parts[0].partition("\n")[0].removeprefix(f"{self.name}: "))

    @property
    def errors(self) -> list[str]:
        """All that is told of each error that has its events, with those that follow from it."""
        return [part.rstrip("\n") for part in self._parts if ERROR.match(part)]

    @property
    def count(self) -> int:
        """How many errors there are, with those that follow from others."""
        return int(ERRORS.match(self.result)[1])

    @property
    def result(self) -> str:
        """The sums, the result, and what is below it."""
        return self._parts[-1]


def title_of(error: str) -> str:
    """The first line of what is told of an error."""
    return error.partition("\n")[0]


def identity_of(error: str) -> str:
    """What an error is, without its number."""
    return ERROR.fullmatch(title_of(error))[1]
