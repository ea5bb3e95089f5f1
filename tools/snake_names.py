#!/usr/bin/env python3
"""Spells the repository's own definitions and lemmas in snake case, in every crate.

usage: tools/snake_names.py        at the top of the repository, once

A name that a file of specs/ or proofs/ declares, or that a `use` line gives by `as`, loses its inner capitals and dashes:
`heightOf` becomes `height_of`, `lo-top` stays, since only a lemma or a definition is turned and not a local name. Types, facts and
modules keep their capitals, goals keep the names that the check gives them, and lines of comment stay. In a .rt file only words with a
capital after a small letter or with a dash are turned, which no name of the code is.
A new name that stands in a file already is printed, to be looked at.
"""

import os
import re
import sys

NAME = r"[^\s(){}.;,@\"«»]+"
HEAD = re.compile(rf"^( *)(?:(?:abbrev|unfoldable|pub|infixl|infixr) +)*({NAME})(?: \{{[^{{}}]*\}})* :(?: |$)(.*)")
ALIAS = re.compile(rf" as ({NAME})")
MODULE = re.compile(rf"^ *(?:pub )?use (Rattle[^\s;{{]*?)(?: as ({NAME}))?$")


# A lemma that would get the name of a word of the library that its file has too.
APART = {"bit-and": "bit_of_and"}


def turned(name):
    if name in APART:
        return APART[name]
    return re.sub(r"(?<=[a-z0-9])[A-Z]", lambda m: "_" + m[0].lower(), name).replace("-", "_")


def files():
    for folder, dirs, names in os.walk("crates"):
        dirs[:] = sorted(d for d in dirs if d != "out")
        for name in sorted(names):
            if name.endswith((".antt", ".rt")):
                yield os.path.join(folder, name)


def turns(name):
    """Whether a declared name is to be turned: a word in lower case, or an operator between circles."""
    plain = name.strip("◌")
    return plain[:1].islower() and turned(name) != name


def declared(texts):
    """The names to turn: those that antt files declare, and the fields among them."""
    names, fields = set(), set()
    for path, text in texts.items():
        if not path.endswith(".antt"):
            continue
        inside = ""
        for line in text.split("\n"):
            start = re.match(r"( *)(?:pub )?(record|data|module|mutual)\b", line)
            if start and " where" in line:
                inside = start[2]
            head = HEAD.match(line)
            if not head:
                continue
            if not head[1]:
                inside = ""
            if "goal." in head[3] or not turns(head[2]):
                continue
            names.add(head[2])
            if inside == "record":
                fields.add(head[2])
    return names, fields


def aliases(text):
    return {m for m in ALIAS.findall(text) if turns(m)}


def turn_antt(text, names, fields):
    modules = {m[2] for m in map(MODULE.match, text.split("\n")) if m and m[2] and m[2] not in ("goal", "given")}
    words = names | aliases(text)

    def word(m):
        before = text[: m.start()]
        name = m[0]
        if not before.endswith("."):
            return turned(name) if name in words else name
        head = re.search(rf"({NAME})\.$", before)
        if name in fields or name in words and (before.endswith(".{") or head and head[1] in modules):
            return turned(name)
        return name

    out = []
    position = 0
    for line in text.split("\n"):
        if not re.match(r" *--", line):
            text_before = text
            pieces, at = [], 0
            for m in re.finditer(NAME, line):
                pieces.append(line[at : m.start()])
                shifted = Shifted(m, position)
                pieces.append(word(shifted))
                at = m.end()
            pieces.append(line[at:])
            out.append("".join(pieces))
        else:
            out.append(line)
        position += len(line) + 1
    return "\n".join(out)


class Shifted:
    """A match of a line, by its place in the file."""

    def __init__(self, m, by):
        self.m, self.by = m, by

    def start(self):
        return self.m.start() + self.by

    def __getitem__(self, i):
        return self.m[i]


def turn_rust(text, names):
    words = names | {m for m in re.findall(r" as (\w+)[,}]", text) if turns(m)}
    out = []
    for line in text.split("\n"):
        if not re.match(r" *//", line):
            line = re.sub(r"(?<![\w.-])◌?[a-z]\w*(?:-\w+)*◌?(?![\w-])", lambda m: turned(m[0]) if m[0] in words else m[0], line)
        out.append(line)
    return "\n".join(out)


def main():
    texts = {}
    for path in files():
        with open(path, encoding="utf-8") as f:
            texts[path] = f.read()
    names, fields = declared(texts)
    for path, text in texts.items():
        new = turn_rust(text, names) if path.endswith(".rt") else turn_antt(text, names, fields)
        if new == text:
            continue
        stood = set(re.findall(NAME, text))
        for name in sorted(names | aliases(text)):
            if name in stood and turned(name) in stood:
                print(f"look: {path}: {name} becomes {turned(name)}, which stands there already")
        with open(path, "w", encoding="utf-8") as f:
            f.write(new)
    print(f"{len(names)} names, {len(fields)} of them fields: {' '.join(sorted(fields))}")


if __name__ == "__main__":
    main()
