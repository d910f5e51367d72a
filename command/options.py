"""The options: their names, and what each takes."""
from __future__ import annotations

import os
import re
from collections.abc import Callable
from dataclasses import dataclass
from typing import Optional

from .ending import Ended, misread


def spelled(pattern: str) -> Callable[[str], bool]:
    """Texts of a pattern."""
    return lambda text: re.fullmatch(pattern, text, re.S) is not None


def number(least: int, most: int) -> Callable[[str], bool]:
    """Numbers of a range, in at most as many digits as the greatest has."""
    digits = len(str(most))
    return lambda text: re.fullmatch(f"0*[0-9]{{1,{digits}}}", text) is not None and least <= int(text) <= most


def can_be_folder(text: str) -> bool:
    """Whether there is such a folder, or may be one."""
    return text != "" and (os.path.isdir(text) or not os.path.lexists(text))


@dataclass(frozen=True)
class Option:
    """An option with a value: what it takes, which values these are, and how often it may be given, if not always."""

    name: str
    takes: str
    fits: Callable[[str], bool]
    most: Optional[int] = 1

    def given(self, value: str) -> tuple[str, str]:
        """The option with a value that was given to it."""
        if not self.fits(value):
            raise self.misfit()
        return self.name, value

    def misfit(self) -> Ended:
        """The end where a value is none that it takes."""
        return misread(f"{self.name} takes {self.takes}")


# (no text of Unicode has the characters of the last range: they stand for bytes that are none)
TEXT = "[^\ud800-\udfff]*"
ALL = (
    Option("--entry", "a function without arguments, as f/0 or m:f/0", spelled("[^/]+/0")),
    Option("-pa", "a folder", os.path.isdir, most=None),
    Option("--env", "an application, a key and a term, as my_app.size=3", spelled(r"[^.=]+\.[^=]+=.+"), most=None),
    Option("--after-timeout", "a number of milliseconds", spelled("[0-9]+")),
    Option("--applications", "a number of calls, 1 to 1000000", number(1, 1_000_000)),
    Option("-I", "a folder", os.path.isdir, most=None),
    Option("-D", "a macro, as NAME or NAME=VALUE", spelled(r"[^\W\d][\w@]*(=.*)?"), most=None),
    Option("--depth", "a number of steps, 0 to 400", number(0, 400)),
    Option("--nodes", "a number of states, or of nodes of a tree, 1 to 10000000", number(1, 10_000_000)),
    Option("--workers", "a number of threads, 1 to 16", number(1, 16)),
    Option("--normal", "a term as the report shows it, as killed or {error,_}", spelled(TEXT), most=14),
    Option("--replay", 'a schedule, as "P P P.1>P"', spelled(f"(?!-){TEXT}")),
    Option("--svg", "a folder", can_be_folder),
    Option("--html", "a folder", can_be_folder),
    Option("--junit", "the name of a file", spelled(".+")),
)
OPTIONS = {option.name: option for option in ALL}
FLAGS = ("--eunit", "--any-delay", "--tree", "--strict-ends", "--idle-servers", "--allow-deadlock", "--strict-access",
         "--unfold", "--steps", "--chart", "--mermaid", "--raw", "--core", "--notes", "--no-notes", "--strict")
# which do not go together
APART = (("--idle-servers", "--allow-deadlock"), ("--junit", "--raw"), ("--junit", "--core"), ("--junit", "--replay"),
         ("--html", "--raw"), ("--html", "--core"), ("--html", "--replay"), ("--eunit", "--raw"), ("--eunit", "--core"), ("--eunit", "--replay"), ("--eunit", "--entry"))
# which of them are for the converter, and which for the program: the limits of a search, and what counts as an error
CONVERSION = ("--entry", "-pa", "--env", "--after-timeout", "--applications", "-I", "-D", "--notes", "--strict")
LIMITS = ("--nodes", "--workers")
COUNTING = ("--strict-access", "--allow-deadlock", "--idle-servers")
# and which for the report
SHOWN = ("--unfold", "--steps", "--chart", "--mermaid")
