"""From the files to the module that the program reads."""
from __future__ import annotations

import os
import re
import shutil
import subprocess
from collections.abc import Sequence
from pathlib import Path

from .children import erlang, need_erlang, status_of
from .ending import NO_INPUT, WRONG_WORDS, Ended, complain
from .options import OPTIONS
from .words import Request

APPLIED = re.compile(r"^'main'/0 =\s+fun \(\) ->\s+apply '((?:[^'\\]|\\.)*)'/0\(\)", re.M)


def convert(request: Request, room: Path) -> Path:
    """The Core module. That of Erlang modules has the lines of the source as annotations, and beside it is what makes a
    verdict doubtful, and where its functions and their clauses are."""
    module = room / "module.core"
    if request.is_converted:
        need_erlang()
        beside = {"--doubts": request.doubts, "--places": request.needs_reporter and not request.raw}
        module.write_bytes(_by_converter(request, [it for name, asked in beside.items() if asked for it in (name, room / name[2:])]))
    else:
        try:
            shutil.copyfile(request.source, module)
        except OSError as fault:
            raise Ended(NO_INPUT, f"{request.source} cannot be read: {fault.strerror}") from fault
    return module


def entry_of(module: Path) -> str:
    """What the first process runs: main/0, or the function that main/0 does no more than apply."""
    applied = APPLIED.search(module.read_text(encoding="utf-8", errors="replace"))
    return f"{applied[1] if applied else 'main'}/0"


def names_of_tests(request: Request) -> list[str]:
    """The functions of the first module that are tests, or make some, in their order."""
    return os.fsdecode(_by_converter(request, ["--tests"])).split("\n")[:-1]


def _by_converter(request: Request, more: Sequence) -> bytes:
    """What the converter prints."""
    words = [*request.files, *request.conversion, *more]
    with erlang("convert.escript", *words, stdin=subprocess.DEVNULL) as running:
        printed, said = running.communicate()
    status = status_of(running, "Erlang")
    if status == WRONG_WORDS and "--env" in request.conversion:
        # (all else that the converter may not take was tried before)
        raise OPTIONS["--env"].misfit()
    complain(said)
    if status != 0:
        raise Ended(status)
    return printed
