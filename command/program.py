"""The proved program, as it explores one module."""
from __future__ import annotations

import contextlib
import functools
import os
import re
import subprocess
import sys
import threading
import tty
from collections.abc import Mapping
from dataclasses import dataclass
from pathlib import Path
from typing import Optional

from .children import ROOT, child, status_of
from .ending import NO_INPUT, NO_PROGRAM, STANDARD_ERROR, WRONG_WORDS, Ended, complain, say

LAUNCHER = ROOT / "schedule_explorer"
PACKED = ROOT / "packed" / "schedule_explorer"
TOOLS = ROOT / "tools"
# What a refusal of the module, or of the words, begins with.
REFUSAL = re.compile(rb"^(input|error): ", re.M)
FAULT = re.compile(rb"input:.* at ([0-9]+)", re.S)
FUNCTION = re.compile(rb"^('.*/[0-9]*) =$", re.M)
BLOCK = 65_536


@dataclass(frozen=True)
class Ran:
    """How a run ended, and what it printed."""

    status: int
    printed: str


class Program:
    """The program, with the module that it reads at each run, and the file that this was converted from, if it was."""

    def __init__(self, environment: Mapping[str, str], module: Path, source: Optional[str]):
        self.name = environment.get("EXPLORER") or str(_built() or LAUNCHER)
        self.module, self.source = module, source
        if not os.path.isfile(self.name) or not os.access(self.name, os.X_OK):
            raise Ended(NO_PROGRAM, f"there is no program {self.name}")

    def run(self, *words: str) -> Ran:
        """One run. What it says meanwhile is shown at once; the first use of the program builds it, which it reports."""
        printed = self.module.with_name("printed")
        ours, theirs = _ends_of_standard_error()
        try:
            with self.module.open("rb") as module, printed.open("wb") as output, \
                    child([os.path.abspath(self.name), *words], stdin=module, stdout=output, stderr=theirs) as running:
                os.close(theirs)
                refusal = _shown(ours)
        except OSError as fault:
            raise Ended(NO_PROGRAM, f"{self.name} cannot be run: {fault.strerror}") from fault
        finally:
            os.close(ours)
        status = status_of(running, "the program")
        self._tell(refusal.rstrip(b"\n"), status)
        return Ran(status, printed.read_bytes().decode(errors="surrogateescape"))

    def replay_into(self, schedule: str, printed: Path) -> bool:
        """Writes what happens in a schedule into a file, up to its first step that is not enabled. Whether this could be done."""
        with self.module.open("rb") as module, printed.open("wb") as output, \
                child([os.path.abspath(self.name), "replay", schedule], stdin=module, stdout=output, stderr=subprocess.DEVNULL) as running:
            pass
        return running.returncode in (0, NO_INPUT)

    def _tell(self, refusal: bytes, status: int) -> None:
        """Tells a refusal of the module, with the function where that is at fault, or one of the words."""
        fault = FAULT.fullmatch(refusal)
        if status == WRONG_WORDS and refusal:
            say(_of_words(refusal.split(b"\n")[0].decode(errors="replace").partition("error: ")[2]))
        elif status == NO_INPUT and fault and self.source is not None:
            functions = FUNCTION.findall(self.module.read_bytes()[:int(fault[1])])
            place = b" (in %s)" % functions[-1] if functions else b""
            complain(b"%s: %s%s of the Core module that --core prints\n" % (os.fsencode(self.source), refusal, place))
        elif refusal:
            complain(refusal + b"\n")


def look_for_program(environment: Mapping[str, str]) -> None:
    """Begins to look for the program that was built, which takes as long as reading all sources, while other work is done."""
    if not environment.get("EXPLORER"):
        threading.Thread(target=_built, daemon=True).start()


@functools.lru_cache(maxsize=None)
def _built() -> Optional[Path]:
    """The program that the launcher would run, which is looked for once and not at each run; none where it has to be built."""
    if PACKED.is_file():
        return PACKED
    if not (TOOLS / "programs.py").is_file():
        return None
    sys.path.append(str(TOOLS))
    from programs import CHECKED, PROVED

    return PROVED.present() or CHECKED.present()


def _of_words(fault: str) -> str:
    """What the program says of its words. Only the text of --normal is passed on to it as it was typed."""
    if " is no term: " in fault:
        return f"{fault}. --normal takes a term as --raw shows it: 'shutdown', {{'shutdown',1}}, 'two words', [1,2], P.3"
    return f"the program does not take its words: {fault}"


def _ends_of_standard_error() -> tuple[int, int]:
    """Two ends of what is standard error to the program: a terminal where ours is one, since then the program shows on it how
    far the work is."""
    if not os.isatty(STANDARD_ERROR):
        return os.pipe()
    ours, theirs = os.openpty()
    tty.setraw(theirs)
    return ours, theirs


def _shown(stream: int) -> bytes:
    """Shows what the program says, as it comes, up to a refusal of the module or of the words. This is given back."""
    refusal = b""
    with contextlib.suppress(OSError):  # of a terminal that its last writer closed
        while said := os.read(stream, BLOCK):
            found = REFUSAL.search(said)
            begins = 0 if refusal else found.start() if found else len(said)
            complain(said[:begins])
            refusal += said[begins:]
    return refusal
