"""The calls that the program reads, and which files name one of them, or have a word. For the scripts of this folder."""
import os
import re
from collections import namedtuple
from pathlib import Path

from programs import ROOT

# `type` and `word` are what the code calls it, a type and one of its cases; none where the program does not read it. A word
# that names no call has neither a type nor a module
Call = namedtuple("Call", "type, word, module, name, arity")
READ = re.compile(r'(\w+)::(\w+) => (process|table|list)_call\("([^"]+)", (\d)\)')
WRITTEN = re.compile(r"(?:(\w+):)?(.+)/(\d+)")
MODULES = {"process": "erlang", "table": "ets", "list": "lists"}
# where a file of a crate speaks of the pure calls, and where of the others
PURE, OTHERS = re.compile(r"\bPureCall\b"), re.compile(r"\b(?:CallKind|TableCall|TableRequest|ProcessRequest)\b|\bspecs\.Calls\b")
KINDS = ("definitions", "proofs", "code", "wrong bodies", "tests", "converter", "documents")
# what is in a folder of a crate, and what is in one of the others; two pages are generated, and nobody edits them
IN_CRATES = {"specs": "definitions", "proofs": "proofs", "src": "code", "wrong": "wrong bodies", "must-fail": "wrong bodies"}
BESIDE = {"docs": "documents", "docs/CONTRACTS.md": None, "docs/RULES.md": None, "erlang/README.md": "documents", "erlang/src": "converter", "erlang/library": "converter", "erlang/tests": "tests"}
LISTS = "erlang/src/known_calls.erl"


def calls_of(file):
    """The calls of a file of core_calls: call.rt has those of processes and tables, pure.rt the pure ones."""
    text = (ROOT / "crates/core_calls/src" / file).read_text()
    return [Call(type, word, MODULES[kind], name, int(arity)) for type, word, kind, name, arity in READ.findall(text)]


def written(words):
    """The calls that are written so: `lists:member/2`, or `member/2`, which are several; or a word that is none."""
    found = WRITTEN.fullmatch(words)
    if not found:
        return [Call(None, words, None, words, None)]
    module, name, arity = found[1], found[2], int(found[3])
    every = [it for file in ("call.rt", "pure.rt") for it in calls_of(file) if (it.name, it.arity) == (name, arity)]
    return [it for it in every if module in (None, it.module)] or [Call(None, None, module or "erlang", name, arity)]


def kind_of(path):
    """What kind of file it is that has this path from the root; none of one that is not looked at."""
    first, *more = path.parts
    if first == "crates":
        return "tests" if more[0].startswith("test_") else IN_CRATES.get(more[1])
    return BESIDE.get("/".join(path.parts[:2]), BESIDE.get(first))


def texts_of_files():
    """The path from the root, the kind and the text of each file that may name calls."""
    for top in ("crates", "docs", "erlang"):
        for place, folders, names in os.walk(ROOT / top):
            folders[:] = sorted(set(folders) - {"out", "__pycache__"})
            for path in (Path(place, name).relative_to(ROOT) for name in sorted(names)):
                if kind := kind_of(path):
                    yield path, kind, (ROOT / path).read_text(errors="replace")


def is_of(call, text):
    """Whether a text of a crate speaks of the list in which the call is."""
    is_pure = PURE.search(text) is not None
    return is_pure if call.type == "PureCall" else OTHERS.search(text) is not None and (not is_pure or "CallKind" in text)


def with_module(call):
    """A pattern of the ways in which it is spelled with its module, in Erlang and Core Erlang."""
    module, name = re.escape(call.module), re.escape(call.name)
    return rf"(?<![\w'])'?{module}'?:'?{name}'?(?:/{call.arity}(?!\d)|\()"


def without_module(call):
    """A pattern of those in which it is spelled where the module is plain."""
    name = re.escape(call.name)
    return rf"(?<![\w:'.]){name}/{call.arity}(?!\d)|\{{'?{name}'?, ?{call.arity}\}}|`{name}`"


def patterns_for(call, path, kind, text, crates):
    """The patterns by which a file names the call. `crates` are those that have it as a case of a type."""
    if call.module is None:
        return [rf"(?<!\w){re.escape(call.word)}(?!\w)"]
    if kind == "converter":
        alone = rf"|(?<![\w':@])'?{re.escape(call.name)}'?(?![\w'(@])" if call.type and str(path) == LISTS else ""
        return [without_module(call) + alone, rf"'{re.escape(call.module)}:{re.escape(call.name)}'"]
    if kind == "documents":
        return [with_module(call), without_module(call)]
    if path.parts[0] != "crates":
        # in code of tests a call says nothing, and a row of the table of the library's functions begins so
        return [rf"\{{{re.escape(call.name)}, \["] if path.suffix == ".erl" else [with_module(call)]
    word = [rf"\b{call.word}\b"] if call.type and is_of(call, text) else []
    return [with_module(call), *word, *([without_module(call)] if path.parts[1] in crates and kind != "tests" else [])]


def files_naming(call):
    """The files that name a call: by kind, the path of each, with the lines."""
    texts = [*texts_of_files()]
    word = re.compile(rf"\b{call.word}\b")
    crates = {path.parts[1] for path, _, text in texts if call.type and path.parts[0] == "crates" and word.search(text) and is_of(call, text)}
    found = {kind: [] for kind in KINDS}
    for path, kind, text in texts:
        patterns = patterns_for(call, path, kind, text, crates)
        pattern = re.compile("|".join(patterns))
        if patterns and (lines := [at for at, line in enumerate(text.split("\n"), 1) if pattern.search(line)]):
            found[kind].append((path, lines))
    return found
