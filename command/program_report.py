"""The report that the program prints: as terms of Erlang (docs/PROGRAM.md), or as text (docs/EXPLORATION.md)."""
from __future__ import annotations

import re
from dataclasses import dataclass
from functools import cached_property

PROCESS = re.compile(r"P[.0-9]*")


@dataclass(frozen=True)
class Form:
    """How a report is written, as patterns.

    `finding` begins each finding, `error` one that is an error, and `unread` a refusal where a process came to what is not
    read: there the converter lets it look up a table of such a name (erlang/README.md). Below an error `stands` is the event
    of that, by the process, and `ended` one by which a signal ends a process. `deadlock` begins an error that is one, with its
    processes, and `messages` one of messages that are unread. `all` ends a report of all schedules, and `nodes` begins one of
    a tree.
    """

    finding: re.Pattern[str]
    error: re.Pattern[str]
    unread: re.Pattern[str]
    stands: re.Pattern[str]
    ended: re.Pattern[str]
    deadlock: re.Pattern[str]
    messages: re.Pattern[str]
    all: re.Pattern[str]
    nodes: re.Pattern[str]


TERMS = Form(
    finding=re.compile(r"^(?=\{(?:error|refusal|normal|counts),)", re.M),
    error=re.compile(r"\{error,"),
    unread=re.compile(r"""^\{refusal,[0-9]+,\{refused,"[P.0-9]+",[0-9]+,\{call,"ets","lookup",\["'not read: """, re.M),
    stands=re.compile(r"""\{event,[0-9]+,"([^"]*)",\{refused,\{call,"ets","lookup",\["'not read: """),
    ended=re.compile(r'\{event,[0-9]+,"[^">]*>([^"]*)",\{exit,"(?:[^"\\]|\\.)*",\{ends,'),
    deadlock=re.compile(r"\{error,[0-9]+,\{deadlock,\[([^]]*)\]"),
    messages=re.compile(r"\{error,[0-9]+,\{unread,"),
    all=re.compile(r"\{result,[a-z]+,all\}\.\n\Z", re.M),
    nodes=re.compile(r"\{explored,[0-9]+,any_time,\{nodes,([0-9]+),"),
)
TEXT = Form(
    finding=re.compile(r"^(?=[a-z])", re.M),
    error=re.compile(r"error "),
    unread=re.compile(r"^refusal [0-9]+: [P.0-9]+ request [0-9]+ ets:lookup\('not read: ", re.M),
    stands=re.compile(r"    [0-9]+ ([^ ]+) ets:lookup\('not read: "),
    ended=re.compile(r"    [0-9]+ [^ ]+>([^ ]+) exit .* -> ends "),
    deadlock=re.compile(r"error [0-9]+: deadlock of (.*)"),
    messages=re.compile(r"error [0-9]+: unread messages of "),
    all=re.compile(r"result: .*, all (prompt )?schedules\n\Z", re.M),
    nodes=re.compile(r".*, nodes ([0-9]+), complete, cut [0-9]+\n"),
)


@dataclass(frozen=True)
class Report:
    text: str

    @property
    def form(self) -> Form:
        return TERMS if self.text.startswith("{") else TEXT

    @cached_property
    def has_errors(self) -> bool:
        """Whether an error is listed that counts. A deadlock in which a process stands at what is not read is none, and
        messages that are unread while one stands there are none: in Erlang it goes on."""
        return any(self._is_error(it) for it in self._errors)

    @property
    def lists_errors(self) -> bool:
        return self._errors != []

    @cached_property
    def reaches_unread(self) -> bool:
        """Whether a process comes to what is not read."""
        return self.form.unread.search(self.text) is not None

    @property
    def is_of_all(self) -> bool:
        """Whether it says that it is of all schedules: no schedule is longer."""
        return self.form.all.search(self.text) is not None

    @property
    def nodes(self) -> int:
        """How many nodes there are, where the report is of a whole tree."""
        found = self.form.nodes.match(self.text)
        return int(found[1]) if found else 0

    @cached_property
    def _errors(self) -> list[str]:
        return [it for it in self.form.finding.split(self.text) if self.form.error.match(it)]

    def _is_error(self, finding: str) -> bool:
        title, *below = finding.split("\n")
        standing = _named(self.form.stands, below)
        if self.form.messages.match(title):
            # A process stays there, unless a signal ends it.
            return standing <= _named(self.form.ended, below)
        waiting = self.form.deadlock.match(title)
        return waiting is None or standing.isdisjoint(PROCESS.findall(waiting[1]))


def _named(pattern: re.Pattern[str], lines: list[str]) -> set[str]:
    """The processes that such lines name."""
    return {it[1] for it in map(pattern.match, lines) if it}
