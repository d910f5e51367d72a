"""The words of the command line, and what they ask for."""
from __future__ import annotations

import argparse
import os
from collections.abc import Sequence
from dataclasses import dataclass
from typing import Optional

from .ending import NO_INPUT, Ended, misread
from .options import APART, CONVERSION, COUNTING, FLAGS, LIMITS, OPTIONS, SHOWN

ASKING = ("-h", "--help", "--version")
# How many states or nodes the program finds at most where nothing is asked.
MOST = 1_000_000


@dataclass(frozen=True)
class Request:
    """What the words ask for.

    `source` is the file of the first module, and `conversion` words for the converter. Words for the program are the
    `limits` of a search, and `counting`, which say what counts as an error. `shown` says how a report shows what happens,
    and `folders` where else there may be sources.
    """

    files: list[str]
    source: str
    conversion: list[str]
    limits: list[str]
    counting: list[str]
    normal: list[str]
    strict_ends: bool
    depth: Optional[int]
    nodes: int
    replay: Optional[str]
    drawings: str
    page: str
    folders: list[str]
    junit: Optional[str]
    eunit: bool
    at_once: bool
    tree: bool
    raw: bool
    core: bool
    shown: list[str]
    doubts: bool

    @property
    def is_converted(self) -> bool:
        return not self.source.endswith(".core")

    @property
    def needs_reporter(self) -> bool:
        """Whether a report for people is made, or terms are spelled. What needs no Erlang otherwise does not need it for
        terms: then they are passed on as they are."""
        return not self.core and (not self.raw or (self.is_converted and bool(self.normal)))


    @property
    def tells_normal(self) -> bool:
        """Whether anything is to be taken as normal beside `shutdown` and `{shutdown,_}`, which are so unless it is asked
        for otherwise."""
        return bool(self.normal) or "--idle-servers" in self.counting


class Asked(Exception):
    """An option that asks for a text, and for nothing else."""

    def __init__(self, option: str):
        super().__init__(option)
        self.option = option


class Asking(argparse.Action):
    def __call__(self, parser, namespace, values, option_string=None):
        raise Asked(option_string)


class Given:
    """The options in their order, each with its value, if it takes one, and the other words."""

    def __init__(self, words: Sequence[str]):
        self.options, self.others = _parsed(words)
        for name, option in OPTIONS.items():
            if option.most is not None and len(self.values(name)) > option.most:
                raise misread(f"{name} may be given {'once' if option.most == 1 else f'up to {option.most} times'}")
        for one, other in APART:
            if self.has(one) and self.has(other):
                raise misread(f"{one} goes with no {other}")

    def has(self, name: str) -> bool:
        return any(it == name for it, _ in self.options)

    def values(self, name: str) -> list[str]:
        return [value for it, value in self.options if it == name]

    def value(self, name: str) -> Optional[str]:
        return next(iter(self.values(name)), None)

    def words_for(self, names: Sequence[str]) -> list[str]:
        """Some of the options, as words for another program; each flag once."""
        found: list[str] = []
        for name, value in self.options:
            if name in names and (value is not None or name not in found):
                found += [name] if value is None else [name, value]
        return found


def read(words: Sequence[str]) -> Request:
    """What the words ask for. Raises Asked where they ask for a text, and Ended where they are wrong."""
    given = Given(words)
    depth = given.value("--depth")
    conversion = given.words_for(CONVERSION)
    return Request(
        files=given.others,
        source=_source(given, conversion),
        conversion=conversion,
        limits=given.words_for(LIMITS),
        counting=given.words_for(COUNTING),
        normal=given.values("--normal"),
        strict_ends=given.has("--strict-ends"),
        depth=None if depth is None else int(depth),
        nodes=int(given.value("--nodes") or MOST),
        replay=given.value("--replay"),
        drawings=given.value("--svg") or "",
        page=given.value("--html") or "",
        folders=[*given.values("-pa"), *given.values("-I")],
        junit=given.value("--junit"),
        eunit=given.has("--eunit"),
        at_once=not given.has("--any-delay") and not given.has("--tree"),
        tree=given.has("--tree"),
        raw=given.has("--raw"),
        core=given.has("--core"),
        shown=[it[2:] for it in SHOWN if given.has(it)],
        doubts=not given.has("--no-notes"),
    )


def _parsed(words: Sequence[str]) -> tuple[list[tuple[str, Optional[str]]], list[str]]:
    parser = argparse.ArgumentParser(add_help=False, allow_abbrev=False, exit_on_error=False)
    for name in ASKING:
        parser.add_argument(name, action=Asking, nargs=0)
    for name in FLAGS:
        parser.add_argument(name, dest="given", action="append_const", const=(name, None))
    for option in OPTIONS.values():
        parser.add_argument(option.name, dest="given", action="append", type=option.given)
    # (argparse takes -p for -pa, whatever it is told of abbreviations)
    if any(word.split("=")[0] == "-p" for word in words):
        raise misread("there is no option -p")
    try:
        known, others = parser.parse_known_args(words)
    except argparse.ArgumentError as fault:
        raise _misused(fault.argument_name) from fault
    for word in others:
        if word.startswith("-"):
            raise misread(f"there is no option {word.split('=')[0]}")
        if not os.path.isdir(word) and not word.endswith((".erl", ".beam", ".core")):
            raise misread(f"{word} is no option, no folder, and not the name of an .erl, .beam or .core file")
    return known.given or [], others


def _misused(name: str) -> Ended:
    """An option that has no value and takes one, or has one and takes none."""
    option = OPTIONS.get(name)
    return misread(f"{name} has no value: it takes {option.takes}" if option else f"{name} takes no value")


def _source(given: Given, conversion: Sequence[str]) -> str:
    """The file of the first module, where the files go together and can be read."""
    if not given.others:
        raise misread("there is no file to explore")
    for name in given.others:
        if not os.access(name, os.R_OK):
            raise Ended(NO_INPUT, f"{name} cannot be read")
        if name.endswith(".core") and len(given.others) > 1:
            raise misread(f"{name} is a .core file, and goes with no other one")
    first = given.others[0]
    needing = [*conversion, *(["--eunit"] if given.has("--eunit") else [])]
    if first.endswith(".core") and needing:
        raise misread(f"{needing[0]} needs an .erl file")
    if not os.path.isdir(first):
        return first
    if given.has("--eunit"):
        raise misread(f"{first} is a folder: --eunit needs the file of a module")
    module, colon, _ = (given.value("--entry") or "").partition(":")
    if not colon or not module:
        raise misread(f"{first} is a folder: --entry m:f/0 says where in it to begin")
    return f"{first}/{module}.erl"
