"""The crates, read as text: what crates.txt lists for each, what each names, and what each makes public that no other names.

`python3 -m tests.crates --write` puts what each crate is to list into its line of crates.txt; the order and the headings stay.
"""
import re
import sys
from collections import defaultdict
from functools import cache

from tests.places import ROOT

LIST = ROOT / "crates.txt"
LIBRARIES = ("check", "bytes")                          # that come with Rattle; `std` is never listed
COMMENT = re.compile(r"(?://|--).*")
MODULE = re.compile(r"^(?:pub )?mod (\w+);", re.MULTILINE)
PATH = re.compile(r"(?<![\w:])(\w+)::((?:\w+::)*(?:\w+|\{[^}]*\}))")
STATED = re.compile(r"\bRattle\.(\w+)\.")              # a crate's own statements are Rattle.NAME.specs and Rattle.NAME.proofs
PASSED_ON = re.compile(r"^pub use ((?:\w+::)+(?:\w+|\{[^}]*\}));", re.MULTILINE)
OPEN_MODULE = re.compile(r"^pub mod (\w+);", re.MULTILINE)
ITEM = re.compile(r"^(?P<indent> *)pub (?P<kind>fn|const|static|enum|struct|type) (?P<name>\w+)")       # none that is `extern "C"`
METHODS = re.compile(r"^impl (\w+)")
HEAD_ENDS = re.compile(r"^\s*(?:requires|ensures|decreases)\b|\{$|[;}]$")
TYPES = ("enum", "struct", "type")
WORD = re.compile(r"\w+")


def listed():
    """For each crate, in the order of crates.txt, what its line lists; behind a name may stand `staticlib`."""
    lines = [line for line in LIST.read_text().splitlines() if line and not line.startswith("#")]
    return {head.split()[0]: words.split() for head, words in (line.split(":") for line in lines)}


@cache
def texts(crate, pattern):
    """The texts of a crate's files of one kind, without comments, by their paths in the crate."""
    folder = ROOT / "crates" / crate
    found = [path for part in ("src", "specs", "proofs") for path in sorted((folder / part).rglob(pattern))]
    return {path.relative_to(folder).as_posix(): COMMENT.sub("", path.read_text()) for path in found}


def modules(crate):
    """The modules that a crate is made of."""
    return {module for text in texts(crate, "*.rt").values() for module in MODULE.findall(text)}


@cache
def paths(crate):
    """What the code of a crate names in others: a set of words for each word that a path begins with, its own modules left out."""
    found = defaultdict(set)
    for text in texts(crate, "*.rt").values():
        for first, rest in PATH.findall(text):
            found[first].update(WORD.findall(rest))
    return {first: words for first, words in found.items() if first not in modules(crate)}


@cache
def declared(crate):
    """The public items that the files of a crate declare: for each name its kind, its file, and the words that it shows to whoever uses it.

    A function shows its head, a type its public fields or its cases and the heads of its public methods.
    """
    found = {}
    for name, text in texts(crate, "*.rt").items():
        lines = text.splitlines()
        for at, owner, item in items_of(lines):
            if item["indent"] and owner in found:
                found[owner][2].update(shown(lines, at, item))
            elif not item["indent"]:
                found[item["name"]] = item["kind"], name, shown(lines, at, item)
    return found


def items_of(lines):
    """Each public item that the lines of a file declare: its place, the type among whose methods it stands, if any, and what the line says."""
    owner = None
    for at, line in enumerate(lines):
        begun, item = METHODS.match(line), ITEM.match(line)
        owner = begun[1] if begun else None if line == "}" else owner
        if item:
            yield at, owner, item


def shown(lines, at, item):
    """The words that a declaration shows."""
    if item["kind"] in ("enum", "struct") and lines[at].endswith("{"):
        body = lines[at + 1:lines.index("}", at)]
        parts = [line for line in body if item["kind"] == "enum" or line.startswith("    pub ")]
    else:
        end = next(k for k in range(at, len(lines)) if HEAD_ENDS.search(lines[k]))
        parts = lines[at:end + 1] if item["kind"] == "fn" else [lines[at].partition("=")[0]]
        parts = [line for line in parts if not HEAD_ENDS.match(line)]
    return set(WORD.findall("\n".join(parts))) - {item["name"]}


def public(crate):
    """The items of a library that are public for the world: those of src/lib.rt, and what it passes on of its modules."""
    library = texts(crate, "*.rt").get("src/lib.rt", "")
    passed_on = {word for path in PASSED_ON.findall(library) for word in WORD.findall(path)}
    opened = {f"src/{module}.rt" for module in OPEN_MODULE.findall(library)}
    return {name for name, (_, file, _) in declared(crate).items() if file in {"src/lib.rt", *opened} or name in passed_on}


def for_nobody(crate):
    """The public items of a crate that the code of no other crate names; a type that one of the named items shows is named by that."""
    items = public(crate)
    used = items & {word for other in listed() if other != crate for word in paths(other).get(crate, ())}
    while more := {word for name in used for word in shown_by(crate, name) & items if is_type(crate, word)} - used:
        used |= more
    return sorted(items - used)


def members_for_nobody(crate):
    """The public functions and constants of a crate's public types that no other crate names; a call `.name(` of whatever type counts as one."""
    rest = "\n".join(text for other in listed() if other != crate for text in texts(other, "*.rt").values())
    found = []
    for text in texts(crate, "*.rt").values():
        for _, owner, item in items_of(text.splitlines()):
            if item["indent"] and owner in public(crate):
                if not re.search(rf"\.{item['name']}\(|\b{owner}::{item['name']}\b", rest):
                    found.append(f"{owner}::{item['name']}")
    return sorted(found)


def named(crate):
    """The crates that a crate names: in code as `name::`, in statements as `Rattle.name.`, and through what it calls.

    The borrow checker has to name the type of each value that is reached, so a type that a named item shows counts as named.
    """
    found = {name for kind in ("*.rt", "*.antt") for text in texts(crate, kind).values() for name in STATED.findall(text)}
    for other, words in paths(crate).items():
        shows = reached(other, words)
        found |= {other} | {owner for owner, theirs in paths(other).items() if any(is_type(owner, word) for word in shows & theirs)}
    return found - {crate}


def reached(crate, names):
    """What items of a crate show, and in turn what those of its types show that they show."""
    seen, more = set(), {word for name in names for word in shown_by(crate, name)}
    while more:
        seen |= more
        more = {word for name in more if is_type(crate, name) for word in shown_by(crate, name)} - seen
    return seen


def shown_by(crate, name):
    """What an item of a crate shows; nothing where the crate declares none of that name."""
    return declared(crate)[name][2] if name in declared(crate) else set()


def is_type(crate, name):
    """Whether a crate declares a type of this name."""
    return name in declared(crate) and declared(crate)[name][0] in TYPES


def wanted():
    """For each crate what its line is to list: what it names, in the order of crates.txt, libraries last."""
    order = [*listed(), *LIBRARIES]
    return {crate: [name for name in order if name in named(crate)] for crate in listed()}


def write():
    """Puts what is wanted into crates.txt."""
    lines = wanted()
    head = re.compile(r"^((\w+)(?: \w+)?):.*$", re.MULTILINE)
    LIST.write_text(head.sub(lambda line: " ".join([f"{line[1]}:", *lines[line[2]]]), LIST.read_text()))


if __name__ == "__main__":
    if sys.argv[1:] != ["--write"]:
        sys.exit(__doc__)
    write()
