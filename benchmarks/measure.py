#!/usr/bin/env python3
"""Measures the built program on long modules, long evaluations and long schedules.

    benchmarks/measure.py [--program PATH] [--runs N] [--processor]

Each module is run at half its size and at its whole size. A row has the size, the seconds of the
clock of the fastest of N runs, the most memory in MB, and how many times as long as the half the
whole took: 2 where the cost is linear. With --processor the seconds are of a processor, which say more where
much else runs on the machine. A run that does not print what it has to ends the measurement.
It needs Python 3.9 or later and nothing else. Without --program it takes the program that the
script `schedule_explorer` at the root of the repository built; run that once before.
A schedule is one word of a command line, and Linux allows none of more than 131,071 bytes; so no row has more steps.
"""

import argparse
import os
import resource
import subprocess
import sys
import tempfile
import time
from pathlib import Path
from typing import Callable, Iterator, List, NamedTuple, Tuple

sys.path.insert(0, str(Path(__file__).resolve().parent.parent / "tools"))
from programs import proved

MODULE_BYTES = 1_048_000
DEPTH = 998


class Row(NamedTuple):
    """A module, a schedule and the transcript that has to be printed, each by the size."""

    name: str
    size: int
    module: Callable[[int], str]
    schedule: Callable[[int], str]
    transcript: Callable[[int], str]


class Figure(NamedTuple):
    """What one run took."""

    seconds: float
    megabytes: float


def module(body: str, others: str = "", exports: str = "'main'/0") -> str:
    return f"module 'm' [{exports}] attributes []\n'main'/0 = fun () -> {body}\n{others}\nend\n"


def beside(part: str, size: int) -> str:
    """A list of equal parts, of this many bytes at most."""
    return "[" + ",".join([part] * (size // (len(part) + 1))) + "]"


def annotated_items(size: int) -> str:
    return beside("( 1 -| [1,2,3] )", size)


def nested_lists(size: int) -> str:
    return beside("[" * DEPTH + "]" * DEPTH, size)


def nested_annotations(size: int) -> str:
    return beside("( " * DEPTH + "1" + " -| [] )" * DEPTH, size)


def integers(size: int) -> str:
    return beside("7", size)


def string(size: int) -> str:
    return '"' + "a" * size + '"'


def definitions(count: int) -> str:
    return module("'ok'", "\n".join(f"'f{n}'/0=fun()->1" for n in range(count)))


def unused(part: Callable[[int], str]) -> Callable[[int], str]:
    """The part in a function that is not called: it is read and not evaluated."""
    return lambda size: module("'ok'", f"'f'/0 = fun () -> {part(size)}")


def evaluated(part: Callable[[int], str]) -> Callable[[int], str]:
    return lambda size: module(part(size))


COUNT_DOWN = """'f'/1 = fun (N) ->
  case N of
    <0> when 'true' -> 'ok'
    <M> when 'true' -> apply 'f'/1(call 'erlang':'-'(M,1))
  end"""

ADD_UP = """'f'/1 = fun (N) ->
  case N of
    <0> when 'true' -> 0
    <M> when 'true' -> call 'erlang':'+'(1,apply 'f'/1(call 'erlang':'-'(M,1)))
  end"""

BUILD = """'b'/2 = fun (N,L) ->
  case N of
    <0> when 'true' -> L
    <M> when 'true' -> apply 'b'/2(call 'erlang':'-'(M,1),[M|L])
  end"""

REVERSE = """'r'/2 = fun (L,Done) ->
  case L of
    <[]> when 'true' -> Done
    <[X|Others]> when 'true' -> apply 'r'/2(Others,[X|Done])
  end"""


def count_down(size: int) -> str:
    return module(f"apply 'f'/1({size})", COUNT_DOWN)


def add_up(size: int) -> str:
    return module(f"apply 'f'/1({size})", ADD_UP)


def own_reverse(size: int) -> str:
    return module(f"apply 'r'/2(apply 'b'/2({size},[]),[])", BUILD + "\n" + REVERSE)


def listed_reverse(size: int) -> str:
    return module(f"call 'lists':'reverse'(apply 'b'/2({size},[]))", BUILD)


def difference(size: int) -> str:
    body = f"let <L> = apply 'b'/2({size},[]) in call 'erlang':'--'(L,call 'lists':'reverse'(L))"
    return module(body, BUILD)


FILL = """'fill'/1 = fun (N) ->
  do call 'ets':'insert'('t',{N,N})
  do call 'ets':'lookup'('t',N)
  apply 'fill'/1(call 'erlang':'+'(N,1))"""

SUM = """'sum'/2 = fun (N,Sum) ->
  case N of
    <0> when 'true' -> Sum
    <M> when call 'erlang':'=:='(call 'erlang':'rem'(M,2),0) ->
      apply 'sum'/2(call 'erlang':'-'(M,1),call 'erlang':'+'(Sum,M))
    <M> when call 'erlang':'>'(M,0) ->
      apply 'sum'/2(call 'erlang':'-'(M,1),call 'erlang':'-'(Sum,M))
  end
'rounds'/0 = fun () ->
  let <Sum> = apply 'sum'/2(9990,0) in
  do call 'ets':'lookup'('t',Sum)
  apply 'rounds'/0()"""

NEW = "call 'ets':'new'('t',['named_table'])"


def fill(_turns: int) -> str:
    """A table that grows by a row every second turn."""
    return module(f"do {NEW} apply 'fill'/1(0)", FILL)


def filled(turns: int) -> str:
    lines = ["ets:new('t',['named_table']) -> 't'"]
    for key in range(turns // 2):
        lines.append(f"ets:insert('t',{{{key},{key}}}) -> 'true'")
        lines.append(f"ets:lookup('t',{key}) -> [{{{key},{key}}}]")
    return "".join(f"{place} P {line}\n" for place, line in enumerate(lines[:turns], 1))


def rounds(_turns: int) -> str:
    """Before each turn but the first, 9,990 applications of a sum with a case, guards and arithmetic."""
    return module(f"do {NEW} apply 'rounds'/0()", SUM)


def looked_up(turns: int) -> str:
    first = "1 P ets:new('t',['named_table']) -> 't'\n"
    later = (f"{place} P ets:lookup('t',4995) -> []\n" for place in range(2, turns + 1))
    return first + "".join(later)


# Sends the numbers from N on to each process of a list in turn, for ever.
DEAL = """'deal'/3 = fun (All,Rest,N) ->
  case Rest of
    <[Next|More]> when 'true' ->
      do call 'erlang':'!'(Next,N)
      apply 'deal'/3(All,More,call 'erlang':'+'(N,1))
    <[]> when 'true' -> apply 'deal'/3(All,All,N)
  end"""
TAKE = """'take'/0 = fun () ->
  receive <N> when 'true' -> apply 'take'/0() after 'infinity' -> 'none'"""
NINE = "[" + ",".join(["call 'erlang':'spawn'('m','take',[])"] * 9) + "]"
OTHERS = [f"P.{number}" for number in range(1, 10)]


def deal(_steps: int) -> str:
    """The first process spawns nine others and sends them numbers in turn, for ever."""
    return module(f"let <All> = {NINE} in apply 'deal'/3(All,All,0)", f"{DEAL}\n{TAKE}", "'main'/0,'take'/0")


def dealt(steps: int) -> Iterator[Tuple[str, str]]:
    """Each step with its line: nine spawns, and then three steps for each number."""
    for other in OTHERS:
        yield "P", f"P erlang:spawn('m','take',[]) -> {other}"
    for number in range((steps - len(OTHERS)) // 3):
        other = OTHERS[number % len(OTHERS)]
        yield "P", f"P erlang:!({other},{number}) -> {number}"
        yield f"P>{other}", f"P>{other} brings {number}"
        yield other, f"{other} receives {number}"


def steps_of_deal(steps: int) -> str:
    return " ".join(step for step, _ in dealt(steps))


def lines_of_deal(steps: int) -> str:
    return "".join(f"{place} {line}\n" for place, (_, line) in enumerate(dealt(steps), 1))


def turns_of_first(turns: int) -> str:
    return " ".join(["P"] * turns)


def no_step(_size: int) -> str:
    return ""


def one_step(_size: int) -> str:
    return "P"


def nothing(_size: int) -> str:
    return ""


def normal(_size: int) -> str:
    return "1 P ends 'normal'\n"


def too_large(_size: int) -> str:
    return "1 P ends {'system_limit',[]}\n"

READING = [
    Row("items of a list, each annotated", MODULE_BYTES, unused(annotated_items), no_step, nothing),
    Row("lists nested 998 deep, side by side", MODULE_BYTES, unused(nested_lists), no_step, nothing),
    Row("annotations nested 998 deep", MODULE_BYTES, unused(nested_annotations), no_step, nothing),
    Row("one string", MODULE_BYTES, unused(string), no_step, nothing),
    Row("one list of integers", MODULE_BYTES, unused(integers), no_step, nothing),
    Row("definitions, their number", 50_000, definitions, no_step, nothing),
]

BUILDING = [
    Row("lists nested 998 deep", MODULE_BYTES, evaluated(nested_lists), one_step, too_large),
    Row("one string", MODULE_BYTES, evaluated(string), one_step, too_large),
    Row("one list of integers", MODULE_BYTES, evaluated(integers), one_step, too_large),
]

EVALUATION = [
    Row("a function that applies itself at its end", 9_999, count_down, one_step, normal),
    Row("1 + f(N - 1), nested", 9_999, add_up, one_step, normal),
    Row("a list built and reversed by own functions", 4_000, own_reverse, one_step, normal),
    Row("a list built, and reversed by `lists:reverse`", 4_000, listed_reverse, one_step, normal),
    Row("`--` of a list and its reverse", 4_990, difference, one_step, normal),
]


SCHEDULES = [
    Row("`insert` and `lookup` in turns, the table growing", 60_000, fill, turns_of_first, filled),
    Row("9,990 applications before each turn", 40, rounds, turns_of_first, looked_up),
    Row("numbers sent, delivered and received, among ten processes", 30_000, deal, steps_of_deal, lines_of_deal),
]


def run(words: argparse.Namespace, row: Row, size: int) -> Figure:
    """One run of the program; its memory is known once its end was waited for."""
    text, schedule = row.module(size).encode(), row.schedule(size)
    with tempfile.TemporaryFile() as source, tempfile.TemporaryFile() as sink:
        source.write(text)
        source.seek(0)
        began = time.monotonic()
        child = subprocess.Popen([words.program, "replay", schedule], stdin=source, stdout=sink)
        _, status, usage = os.wait4(child.pid, 0)
        seconds = time.monotonic() - began
        child.returncode = os.waitstatus_to_exitcode(status)
        sink.seek(0)
        transcript = sink.read().decode()
    if child.returncode != 0 or transcript != row.transcript(size):
        sys.exit(f"{row.name}: status {child.returncode}, it printed {transcript[:200]!r}")
    if words.processor:
        seconds = usage.ru_utime + usage.ru_stime
    return Figure(seconds, usage.ru_maxrss / 1024)


def fastest(words: argparse.Namespace, row: Row) -> Tuple[Figure, Figure]:
    """The half and the whole, in turns, so that what else the machine does affects both."""
    sizes = (row.size // 2, row.size)
    halves, wholes = zip(*([run(words, row, size) for size in sizes] for _ in range(words.runs)))
    return min(halves), min(wholes)


def memory(figure: Figure) -> str:
    """What the program took; a process begins with what its parent had, so less is not seen."""
    own = resource.getrusage(resource.RUSAGE_SELF).ru_maxrss / 1024
    return f"{figure.megabytes:.0f}" if figure.megabytes > own else f"under {own:.0f}"


def print_table(words: argparse.Namespace, title: str, rows: List[Row]) -> None:
    print(f"\n| {title} | size | seconds | MB | as many times the half |")
    print("| --- | --- | --- | --- | --- |")
    for row in rows:
        half, whole = fastest(words, row)
        cells = (
            row.name,
            f"{row.size:,}",
            f"{whole.seconds:.3f}",
            memory(whole),
            f"{whole.seconds / half.seconds:.1f}",
        )
        print("| " + " | ".join(cells) + " |", flush=True)


def main() -> None:
    layout = argparse.RawDescriptionHelpFormatter
    parser = argparse.ArgumentParser(description=__doc__, formatter_class=layout)
    parser.add_argument("--program", type=Path)
    parser.add_argument("--runs", type=int, default=9)
    parser.add_argument("--processor", action="store_true")
    words = parser.parse_args()
    if words.runs < 1:
        parser.error("--runs is at least 1")
    words.program = words.program or proved()
    print_table(words, "read, bytes", READING)
    print_table(words, "evaluated until it is too large, bytes", BUILDING)
    print_table(words, "evaluated in one turn, items", EVALUATION)
    print_table(words, "replayed, steps", SCHEDULES)


if __name__ == "__main__":
    main()
