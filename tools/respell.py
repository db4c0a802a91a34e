#!/usr/bin/env python3
"""Brings the names of this repository's definitions and lemmas to snake case: words, lemmas, fields, ghost members, bound variables.

usage: python3 tools/respell.py [--list]      at the top of the repository, once, after the kit's port.py

It reads crates/**/*.antt and *.rt, README.md and docs/*.md. A name is changed where it is written in lower camel case (no name
of the library is), or where a file of the repository declares it with a dash. Types, modules, constructors, names that come from
Rust and names that Rattle makes (the goals and steps of a function) stay. --list prints the names and changes nothing.
"""

import os
import re
import sys

NAME = re.compile(r"(?<![\w'◌·-])([a-z][A-Za-z0-9_']*(?:-[A-Za-z0-9_']+)*)(?![\w'-])")
CAMEL = re.compile(r"^[a-z][a-z0-9']*(?:_[a-z0-9']+)*(?:[A-Z][a-z0-9']*)+$")
DECLARED = re.compile(r"^\s*(?:abbrev |unfoldable |pub )*([a-z][A-Za-z0-9_']*(?:-[A-Za-z0-9_']+)+)\s*:\s")
# Lemmas that would get the name of the word that they speak of.
LEMMAS = {
    "one_placed": "one_placed_lem",
    "by_code": "by_code_lem",
    "has_room": "has_room_lem",
    "in_step": "in_step_lem",
    "to-component": "to_component_lem",
    "draw-answer": "draw_answer_lem",
}
# Files of answers declare goals by names that Rattle makes: `pub returns-then-x : goal.returns-then-x`.
GOAL = re.compile(r":\s*goal\.")


def files(*endings):
    for folder, dirs, names in os.walk("crates"):
        dirs[:] = sorted(d for d in dirs if d != "out")
        for n in sorted(names):
            if n.endswith(endings):
                yield os.path.join(folder, n)


def pages():
    yield "README.md"
    for n in sorted(os.listdir("docs")):
        if n.endswith(".md"):
            yield os.path.join("docs", n)


def read(p):
    with open(p, encoding="utf-8") as f:
        return f.read()


def dashed():
    found = set()
    for p in files(".antt"):
        for line in read(p).split("\n"):
            m = DECLARED.match(line)
            if m and not GOAL.search(line):
                found.add(m.group(1))
    return found


def snake(name):
    name = re.sub(r"([a-z0-9'])([A-Z])", r"\1_\2", name)
    name = re.sub(r"([A-Z])([A-Z])", r"\1_\2", name)
    return name.replace("-", "_").lower()


def turned(name, ours, lemmas=True):
    if lemmas and name in LEMMAS:
        return LEMMAS[name]
    if "-" in name:
        return snake(name) if name in ours else name
    return snake(name) if CAMEL.match(name) else name


def turn(text, ours, dashes):
    """The text with its names turned. A name after a dot is a field: it has a dash only where Rattle made it."""
    def one(m):
        n = m.group(1)
        field = m.start(1) > 0 and text[m.start(1) - 1] == "."
        return n if "-" in n and (field or not dashes) else turned(n, ours, dashes and not field)
    return NAME.sub(one, text)


def main():
    ours = dashed()
    before = {}
    seen = set()
    for p in files(".antt"):
        for m in NAME.finditer(read(p)):
            seen.add(m.group(1))
    for n in sorted(seen):
        t = turned(n, ours)
        before.setdefault(t, set()).add(n)
    if "--list" in sys.argv:
        for t, ns in sorted(before.items()):
            for n in sorted(ns):
                if n != t:
                    print(n, "->", t, "(also here: " + ", ".join(sorted(ns - {n})) + ")" if len(ns) > 1 else "")
        return
    changed = 0
    for p in list(files(".antt", ".rt")):
        old = read(p)
        new = turn(old, ours, p.endswith(".antt"))
        if new != old:
            changed += 1
            with open(p, "w", encoding="utf-8") as f:
                f.write(new)
    for p in pages():
        old = read(p)
        new = re.sub(r"`[^`\n]+`", lambda m: turn(m.group(0), ours, True), old)
        if new != old:
            changed += 1
            with open(p, "w", encoding="utf-8") as f:
                f.write(new)
    print(f"respell: {changed} files changed")


main()
