#!/usr/bin/env python3
"""Spells this repository's own definitions, fields and lemmas in snake case, once, after port.py of the toolchain.

usage: tools/respell.py [--check] [ROOT]

A name counts as our own where a file of specs/, or a file right in proofs/, declares it. What another library declares under the
same spelling stays. In files of specs/, right in proofs/ and in proofs/Laws/ each such word turns; in a function's proof only what the file imports
from us and the fields of our records, since the other words there are made by the checker; in code only the clauses.
Where two names would fall together, the lemma gets _lem, and is told. --check writes nothing. It is to run once.
"""

import os
import re
import sys
from collections import defaultdict

WORD = re.compile(r'[^\s(){}.;,@"«»\[\]|]+')
QUIET = re.compile(r'"(?:[^"\\\n]|\\.)*"|(?<!\S)--[^\n]*')
HEADS = {"c", "w", "l", "tie", "goal", "g", "args", "initial", "fn", "new", "auto", "ranges"}
GHOST = re.compile(r"ghost\s+use\b[^;]*;|(?:requires|ensures)\s*\*?\s*(?:\w+\s*)?\{|ghost\s*(?:\w+\s*:\s*)?\{")
CASES = {"nextMove": "next_move", "noPath": "no_path"}      # of enums
DECLARED = re.compile(r"^( *)((?:abbrev |unfoldable |pub |ruleset )*)([^\s(){}.;,@\"«»:]+)(?: [({][^\n]*?[)}])* (?::(?= )|=(?= \())", re.M)


def snake(name):
    if name[0].isupper():
        head, dash, tail = name.partition("-")
        return head + "_" + snake(tail) if dash and tail else name
    return re.sub(r"(?<=[a-z0-9])([A-Z])(?![A-Z-])", lambda m: "_" + m.group(1).lower(), name).replace("-", "_")


def files(root):
    for folder, inner, names in os.walk(os.path.join(root, "crates")):
        inner[:] = sorted(d for d in inner if d != "out")
        for name in sorted(names):
            if name.endswith((".antt", ".rt")):
                yield os.path.join(folder, name)


def kind(root, path):
    parts = os.path.relpath(path, os.path.join(root, "crates")).split(os.sep)
    if path.endswith(".rt"):
        return "code"
    return "function" if parts[1] == "proofs" and len(parts) > 3 and parts[2] != "Laws" else "law"


def loud(text):
    return QUIET.sub(lambda m: " " * len(m.group()), text)


def declared(text):
    """The words and the record fields that a file of laws declares."""
    words, fields, record = set(), set(), False
    for line in loud(text).split("\n"):
        if re.match(r"(?:pub |abbrev |unfoldable )*record ", line):
            record = True
            continue
        if line and not line[0].isspace():
            record = False
        found = DECLARED.match(line)
        if not found or found.group(3) in ("let", "use", "module", "open", "data", "record"):
            continue
        indent, marks, name = len(found.group(1)), found.group(2), found.group(3)
        if record and indent:
            fields.add(name)
        elif indent == 0 or "pub" in marks or indent == 2:
            words.add(name)
    return words, fields


def imports(text, own):
    """The names that a text imports: from this repository, and from elsewhere."""
    ours, theirs = set(), set()
    for found in re.finditer(r"(?:^|\s)use\s+([^\s;{]+?)(?:\.\{([^}]*)\})?(?:\s+as\s+(\S+?))?\s*(?:;|$)", text, re.M):
        crate = re.match(r"Rattle\.(\w+)\.", found.group(1))
        into = ours if crate and crate.group(1) in own else theirs
        for item in (found.group(2) or "").split(","):
            into.update(item.split(" as ")[0].split())
    return ours, theirs


def table(root):
    own = set(os.listdir(os.path.join(root, "crates")))
    words, fields, theirs, seen = set(), set(), set(), defaultdict(set)
    for path in files(root):
        text = open(path, encoding="utf-8").read()
        theirs |= imports(text, own)[1]
        if kind(root, path) == "law":
            more, inside = declared(text)
            words |= more
            fields |= inside
        if path.endswith(".antt"):
            for word in set(WORD.findall(loud(text))):
                seen[word].add(path)
    turned = {name: snake(name) for name in words | fields if snake(name) != name and name not in theirs}
    back = defaultdict(set)
    for name, new in turned.items():
        back[new].add(name)
    for new, names in sorted(back.items()):
        if new in theirs:
            print(f"stays, since {new} is another library's: {', '.join(sorted(names))}")
            for name in names:
                del turned[name]
            continue
        # a lemma that would have the name of what it speaks of gets _lem
        lemmas = {name for name in names if "-" in name}
        if new in words | fields:
            lemmas |= {new} if names - lemmas else set()
        elif not names - lemmas:
            lemmas = set()
        for name in lemmas:
            turned[name] = new + "_lem"
            print(f"look: {name} is now {new}_lem, beside {new}")
        if len(names - lemmas) > 1:
            raise SystemExit(f"names fall together: {names}")
        for name in names:
            both = seen[turned[name]] & seen[name]
            if both and turned[name] not in turned:
                print(f"look: {turned[name]} stands already in {len(both)} files of {name}: {sorted(both)[0]}")
    return turned | CASES, words, fields


def spelled(text, turned, may):
    """The text with each word that may turn in its new spelling; strings stay, and so do comments but for their code spans."""

    def turn(part, at):
        def one(found):
            new = turned.get(found.group())
            return new if new and may(found.group(), at + found.start(), at + found.end()) else found.group()

        return WORD.sub(one, part)

    def quiet(part, at):
        if part.startswith('"'):
            return part
        return re.sub(r"`[^`\n]*`", lambda m: turn(m.group().strip("`"), at + m.start()).join("``"), part)

    out, last = [], 0
    for found in QUIET.finditer(text):
        out += [turn(text[last : found.start()], last), quiet(found.group(), found.start())]
        last = found.end()
    return "".join(out) + turn(text[last:], last)


def law(text, turned):
    return spelled(text, turned, lambda *_: True)


def local(text, own):
    """A file of laws with the names that it keeps to itself, however deep they stand, in the new spelling too."""
    inside = {name for group in imports(text, own) for name in group}
    names = {found.group(3) for found in DECLARED.finditer(loud(text)) if "pub" not in found.group(2)} - inside
    there = set(WORD.findall(loud(text)))
    turned = {name: snake(name) + "_lem" * (snake(name) in there) for name in names if snake(name) != name}
    return spelled(text, turned, lambda *_: True)


def function(text, turned, fields, own):
    ours, _ = imports(text, own)
    bound = set(re.findall(r"\blet ([^\s:=]+)", text)) - ours

    def may(word, start, end):
        before, after = text[:start], text[end : end + 3]
        if before.endswith("."):
            head = re.search(r'([^\s(){}.;,@"«»\[\]|]+)\.$', before)
            return word in fields and not (head and head.group(1) in HEADS - {"new", "args"})
        if word in fields and re.match(r"\s*=[^=]", after) and word not in bound:
            return True
        return word in ours

    return spelled(text, turned, may)


def code(text, turned):
    out, at = [], 0
    while True:
        found = GHOST.search(text, at)
        if not found:
            return "".join(out) + text[at:]
        end = found.end()
        if not found.group().endswith(";"):
            depth = 1
            while depth:
                depth += {"{": 1, "}": -1}.get(text[end], 0)
                end += 1
        out += [text[at : found.start()], spelled(text[found.start() : end], turned, lambda *_: True)]
        at = end


def main(words):
    check = "--check" in words
    places = [w for w in words if not w.startswith("--")]
    root = places[0] if places else "."
    own = set(os.listdir(os.path.join(root, "crates")))
    turned, _, fields = table(root)
    count = 0
    for path in files(root):
        text = open(path, encoding="utf-8").read()
        what = kind(root, path)
        new = local(law(text, turned), own) if what == "law" else code(text, turned) if what == "code" else function(text, turned, fields, own)
        if new != text:
            count += 1
            if not check:
                with open(path, "w", encoding="utf-8") as file:
                    file.write(new)
    print(f"{len(turned)} names turn, in {count} files")


if __name__ == "__main__":
    main(sys.argv[1:])
