"""The crates of crates.txt. For the scripts of this folder.

A line of it has a crate and the libraries that it uses, lowest first. The comment above it, or above several such lines, says
what they are.
"""
from pathlib import Path

ROOT = Path(__file__).resolve().parent.parent
LIST = ROOT / "crates.txt"


def lines():
    """The lines that have a crate, each with the comment above it."""
    said = ""
    for line in LIST.read_text().splitlines():
        text, mark, comment = line.partition("#")
        if ":" in text:
            yield text, said
        elif mark:
            said = comment.strip()


def listed():
    """The crates, lowest first, each with the libraries that it uses."""
    pairs = (text.partition(":") for text, _ in lines())
    return {name.split()[0]: libraries.split() for name, _, libraries in pairs}


def own():
    """The crates, lowest first, each with those of them that it uses."""
    crates = listed()
    return {name: [it for it in libraries if it in crates] for name, libraries in crates.items()}


def comments():
    """What is said of each crate."""
    return {text.partition(":")[0].strip(): said for text, said in lines()}


def below(tops, crates):
    """The crates that some crates use, directly or through others, lowest first."""
    needed = {library for top in tops for library in crates[top]}
    for name in reversed(crates):
        if name in needed:
            needed.update(crates[name])
    return [name for name in crates if name in needed]
