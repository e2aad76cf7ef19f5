#!/usr/bin/env python3
"""Counts the places of docs/DESIGN-PASS.md in crates/*/src: `python3 tools/places.py [FOLDER] [--list]`."""
import re
import sys
from collections import defaultdict
from pathlib import Path

# What a variant is called that stands for "nothing here", and one that stands for "turned back".
NOTHING = r"(Bad|Missing|Broken|Wrong|Short|Other|Passed|Refused)"

# By point: what is counted, and the lines that are such places.
LINES = [
    ("1 enums of the shape of Option or Result", None),
    ("1 flags and zeros that say whether the values beside them count", r"^ +(pub )?(readable|layout|rates): bool,|^ +(pub )?number: u64,$|^const (BROKEN|UNREADABLE)|^pub const NO_SHEET|\{ used \+ 2 \} else \{ 0 \}"),
    ("1 numbers for refusals", r"[Rr]efused\([0-9]+\)|^ +1?[0-9] => say"),
    ("2 functions whose bodies differ in names and constants alone", None),
    ("3 loops that count an index by hand", None),
    ("4 comparisons, copies and conversions by hand", r"fn (lesser|larger|greater|less|time_between|apart|wider|same|pick|byte|from_byte|from_mark|of_byte|number_in|length_of|explain(_sheet|_formula)?)\(|fn (word|index)\((state|number): u16\)"),
    ("5 functions of six parameters or more", None),
    ("5 preconditions that stand word for word at three functions or more", None),
    ("6 arrays with a length or a place beside them", r"^ +pub (count|from): usize,"),
    ("7 enums that say which step to run", r"enum (Test|Listing)\b"),
]


def sources(top):
    for path in sorted(Path(top).glob("crates/*/src/**/*.rt")):
        yield path.relative_to(top), path.read_text().split("\n")


def functions(lines):
    """The functions of a file: line, name, parameters, what stands between them and the body, the body."""
    text = "\n".join(lines)
    for found in re.finditer(r"^( *)(?:pub )?(?:extern \"C\" )?fn (\w+)[^(\n]*\(([^)]*)\)((?:.|\n)*?)\n\1\{\n((?:.|\n)*?)\n\1\}", text, re.M):
        line = text.count("\n", 0, found.start()) + 1
        yield line, found.group(2), found.group(3), found.group(4), found.group(5)


def shape(body):
    """A body with every name and every number made the same."""
    body = re.sub(r"//.*", "", body)
    words = {"let", "mut", "if", "else", "while", "for", "in", "return", "match", "as", "usize", "u64", "u32", "u16", "u8"}
    body = re.sub(r"\b[a-z_]\w*(\.|::)?", lambda m: m.group(0) if m.group(0) in words else "x", body)
    return re.sub(r"\s+", " ", re.sub(r"\b\d+\b", "0", body)).strip()


def enums(lines):
    text = "\n".join(lines)
    for found in re.finditer(r"^ *(?:pub )?enum (\w+) \{\n((?:.|\n)*?)^\}", text, re.M):
        variants = re.findall(r"^    (\w+)", found.group(2), re.M)
        if any(re.fullmatch(NOTHING, v) for v in variants):
            yield text.count("\n", 0, found.start()) + 1, found.group(1)


def loops(lines):
    """Loops whose body moves a counter on by one, or back."""
    for i, line in enumerate(lines):
        if not re.match(r"^ *(while|loop)\b", line):
            continue
        depth = len(line) - len(line.lstrip())
        for inner in lines[i + 1:]:
            if re.match(r"^ {%d}\}" % depth, inner):
                break
            if re.match(r"^ *\w+ (\+|-)= 1;|^ *k = n;", inner):
                yield i + 1, line.strip()
                break


def places(top):
    found = defaultdict(list)
    shapes, asked = defaultdict(list), defaultdict(list)
    for path, lines in sources(top):
        for title, pattern in LINES:
            if pattern:
                found[title] += [(path, n + 1, line.strip()) for n, line in enumerate(lines) if re.search(pattern, line)]
        found[LINES[0][0]] += [(path, n, name) for n, name in enums(lines)]
        found[LINES[4][0]] += [(path, n, line) for n, line in loops(lines)]
        for line, name, parameters, clauses, body in functions(lines):
            if len([p for p in parameters.split(",") if p.strip()]) >= 6:
                found[LINES[6][0]].append((path, line, name))
            if len(body.strip()) > 60:
                shapes[shape(body)].append((path, line, name))
            for clause in re.findall(r"requires(?: \w+)? (\{.*?\})(?=\s*(?:requires|ensures|$))", clauses, re.S):
                asked[re.sub(r"\s+", " ", clause)].append((path, line, name))
    for group in shapes.values():
        if len(group) > 1:
            found[LINES[3][0]] += group
    for group in asked.values():
        if len(group) > 2:
            found[LINES[7][0]] += group
    return found


def main():
    rest = [a for a in sys.argv[1:] if a != "--list"]
    found = places(rest[0] if rest else ".")
    for title, _ in LINES:
        print(f"{len(found[title]):4}  {title}")
        if "--list" in sys.argv:
            for path, line, what in found[title]:
                print(f"      {path}:{line}: {what}")


main()
