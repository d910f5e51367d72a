"""What the sources of the crates say: files of definitions (.antt), and functions with their contracts (.rt). For the scripts
of this folder.
"""
import re
from collections import namedtuple

from crate_list import ROOT

CRATES = ROOT / "crates"
# the calls that the program does not make, but others may
ALONE = ROOT / "docs/ARCHITECTURE.md"
SECTION = re.compile(r"^## Parts that may be used alone\n(.*?)(?=^## |\Z)", re.M | re.S)
ROW = re.compile(r"^\| `(\w+)` \| (.*) \|$", re.M)
CALL = re.compile(r"`([\w:]+)`")
USE = re.compile(r"^\s*(?:pub |ghost )?use\s+([^\s{;]+?)(?:\.\{([^}]*)\}|(?: as ([\w']+)))?;?\s*$")
ITEM = re.compile(r"^(\s*)(?:(?:abbrev|unfoldable|opaque)\s+)*(?:pub\s+)?(?:(data|record)\s+)?(\S+)\s*(?:\(.*|\{.*)?:(?:\s|$)")
WORD = re.compile(r"([A-Za-z_][\w'₀-₉]*)\.([^\s(){}\[\],;]+)|([^\s(){}\[\],;.]+)")
CLAUSE = re.compile(r"^[ \t]*(?:ghost\s+)?(requires|ensures|invariant)\b([^{};]*)\{", re.M)
# a brace, or a text in quotes, in which one counts for nothing
BRACE, OPENS = re.compile(r'"(?:[^"\\\n]|\\.)*"|[{}]'), {"{": 1, "}": -1}
IMPL = re.compile(r"impl\b(?:<.*?>)? (?:(?P<of>[\w:]+)(?:<.*>)? for )?&?(?:mut )?(?P<type>[\w:]+)")
TRAIT = re.compile(r"(?:pub )?trait (\w+)")
FUNCTION = re.compile(r"(?P<blanks> *)(?P<access>pub(?:\([a-z]+\))? )?(?:const )?fn (?P<name>\w+)")

# A function of a file. `type` is that of which it is a method, and `trait` the trait that it is declared in or an impl of;
# each is none where there is none, and `block` the text of that impl or trait. `contract` is all up to the body
Function = namedtuple("Function", "type, trait, name, is_public, comment, contract, body, line, block")


def imports(text):
    """The names that a file imports, each with its module and its name there, which is None for a whole module."""
    found = {}
    for path, items, alias in (it.groups() for line in text.split("\n") if (it := USE.match(line))):
        if alias:
            found[alias] = (path, None)
        for item in filter(None, (items or "").split(",")):
            name, _, local = item.strip().partition(" as ")
            found[local.strip() or name] = (path, name)
    return found


class Definitions:
    """A file of definitions: the text of each, the comment in front of it, to which a name belongs, a constructor or a field
    to its type, and the comment at the head of the file."""

    def __init__(self, path):
        text = path.read_text()
        self.lines = text.count("\n")
        self.imports = imports(text)
        self.passed_on = {name: place for line in text.split("\n") if line.startswith("pub use") for name, place in imports(line).items()}
        self.texts, self.comments, self.home = {}, {}, {}
        self.head = " ".join(it[2:].strip() for it in re.match(r"(?:--.*\n)*", text)[0].splitlines())
        current, kind, indent, comment = None, None, 0, Comment()
        for line in text.split("\n"):
            body = "" if comment.takes(line) or USE.match(line) else line.split("-- ")[0]
            item = ITEM.match(body)
            if item and kind and len(item[1]) > indent:
                self.home[item[3]] = current
            elif item and not item[3].startswith(("mutual", "module")):
                current, kind, indent = item[3], item[2], len(item[1])
                self.home[current] = current
                self.comments.setdefault(current, comment.text)
            if current and body.strip():
                self.texts[current] = self.texts.get(current, "") + body + "\n"


class Comment:
    """The comment in front of each line of a file of definitions. The first definition of a group has that of the group, where
    it has none of its own."""

    def __init__(self):
        self.text, self.below, self.goes_on = "", [], False

    def takes(self, line):
        """Goes on to a line. Whether that is one of a comment."""
        is_comment = line.lstrip().startswith("--")
        self.text = " ".join(self.below)
        if is_comment:
            self.below = [*(self.below if self.goes_on else []), *([line.strip("- ")] if "----" not in line else [])]
        elif not line.endswith("mutual"):
            self.below = []
        self.goes_on = is_comment
        return is_comment


def all_definitions():
    """Each file of definitions, by the name of its module."""
    paths = sorted(it for it in CRATES.glob("*/specs/**/*.antt") if it.name not in ("Lib.antt", "inside.antt"))
    return {"Rattle." + ".".join(it.relative_to(CRATES).with_suffix("").parts): Definitions(it) for it in paths}


def crate_of(module):
    """The crate of a module."""
    return module.split(".")[1]


def name_of(module):
    """The name of a module as that of a file below crates/."""
    return module.removeprefix("Rattle.").replace(".", "/") + ".antt"


def resolved(place, files):
    """The definition that a name of a module refers to, if it is one of this repository."""
    module, name = place
    while module in files and name in files[module].passed_on:
        module, name = files[module].passed_on[name]
    return (module, files[module].home[name]) if module in files and name in files[module].home else None


def cited(text, local, module, files):
    """The definitions of this repository that a text cites, which is in this module, or in none."""
    for alias, inner, plain in WORD.findall(text):
        name = alias or plain
        if alias and local.get(alias, (None, ""))[1] is None:
            place = (local[alias][0], inner)
        else:
            place = local.get(name, (module, name))
        found = resolved(place, files)
        if found:
            yield found


def without_comments(text):
    """The text with the comments of whole lines blanked, so that its lines stay where they are."""
    return re.sub(r"^[ \t]*//.*$", "", text, flags=re.M)


def closing(text, start):
    """Where the brace closes that is open at `start`; the end of the text where none does."""
    depth = 1
    for found in BRACE.finditer(text, start):
        depth += OPENS.get(found[0], 0)
        if not depth:
            return found.start()
    return len(text)


def clauses(text):
    """The line, the name and the text of each clause, white space counted once."""
    text = without_comments(text)
    for found in CLAUSE.finditer(text):
        clause = " ".join(text[found.end() : closing(text, found.end())].split())
        yield text.count("\n", 0, found.start(1)) + 1, " ".join((found[1] + found[2]).split()), clause


def functions(text):
    """The functions of a text of code."""
    lines, kind, of, block = text.split("\n"), None, None, ""
    for at, line in enumerate(lines):
        if line.startswith(("impl", "trait", "pub trait")):
            kind, of = whose(lines, at)
            block = "\n".join(lines[at : lines.index("}", at)] if "}" in lines[at:] else lines[at:])
        elif line.startswith("}"):
            kind, of, block = None, None, ""
        found = FUNCTION.match(line)
        if found:
            end = end_of_contract(lines, at, found["blanks"])
            contract = "\n".join(lines[at : end + 1])
            yield Function(kind, of, found["name"], found["access"] == "pub ", comment_above(lines, at), contract, body_at(lines[end]), at + 1, block)


def whose(lines, at):
    """The type and the trait of the functions in a block that begins at a line."""
    trait = TRAIT.match(lines[at])
    head = IMPL.match(" ".join(lines[at : at + 4]))
    return (None, trait[1]) if trait else (head["type"].split("::")[-1], head["of"])


def end_of_contract(lines, at, blanks):
    """The line where the body of the function of a line begins, or where there is none."""
    depth = 0
    while True:
        line = "" if lines[at].lstrip().startswith("//") else lines[at]
        begins = line.startswith(blanks + "{") or line.endswith(("{", "{}")) and not CLAUSE.match(line)
        if not depth and begins:
            return at
        depth += sum(OPENS.get(it, 0) for it in BRACE.findall(line))
        if not depth and line.endswith(";"):
            return at
        at += 1


def body_at(line):
    """What a function has at the line where its body begins: `none`, an `empty` one, or `some`."""
    return "none" if line.endswith(";") else "empty" if line.endswith("{}") else "some"


def comment_above(lines, at):
    """The lines of the comment `///` that is above a line, over attributes."""
    first = at
    while first and lines[first - 1].lstrip().startswith(("///", "#[")):
        first -= 1
    return [it.strip()[3:].strip() for it in lines[first:at] if it.lstrip().startswith("///")]


def used_alone():
    """The public calls that docs/ARCHITECTURE.md lists as used alone, each as `crate::name` or `crate::Type::name`."""
    (section,) = SECTION.findall(ALONE.read_text())
    return [f"{crate}::{call}" for crate, calls in ROW.findall(section) for call in CALL.findall(calls)]
