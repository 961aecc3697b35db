#!/usr/bin/env python3
"""Respells the names of this repository's own definitions and lemmas, once, after the kit's port.py.

usage: python3 tools/respell.py        at the top of the repository

Words become snake case (price-of: price_of), types camel case (Adds-up: AddsUp), a prime an apostrophe. A name is
respelled if a file of specs/ or proofs/ defines it, and if neither the kit's library nor the check made it. Functions
of src/ keep their names, and so do strings and comments, but for what stands in backticks there.
"""

import collections
import glob
import os
import re
import subprocess
import sys

NAME = r"[A-Za-z][A-Za-z0-9_'′]*(?:-[A-Za-z0-9_'′]+)+"
OTHER = r"[A-Z][a-z0-9]*(?:_[a-z0-9]+)+|[A-Za-z][A-Za-z0-9_]*′"
TOKEN = re.compile(r"(?<![\w'′-])(?:" + NAME + "|" + OTHER + r")(?![\w'′-])")
HEAD = r"(?:(?:pub|abbrev|unfoldable|record|data|module|private|where|in|mutual)[ \t]+)*"
SITE = re.compile(r"(?m)^[ \t]*" + HEAD + "(" + NAME + "|" + OTHER + r")[ \t]*(?:\([^=\n]*\)|\{[^=\n]*\})?[ \t]*:(?!=)(.*)")
KEYWORD = re.compile(r"\b(?:let|data|record|module|abbrev)[ \t]+(" + NAME + "|" + OTHER + r")(?![\w'′-])")
ALIAS = re.compile(r"\bas (" + NAME + r")(?![\w'′-])")
# variables in brackets, as (first-of rest : List ℕ)
BOUND = re.compile(r"[({][ \t]*((?:[A-Za-z][\w'-]*[ \t]+)+):(?![:=])")
# defined here over the integers, and in the library over the naturals
SHARED = {"add-mul", "mul-add"}
STRING = re.compile(r'b?"(?:[^"\\]|\\.)*"')


def read(path):
    with open(path, encoding="utf-8") as f:
        return f.read()


def proofs():
    return sorted(glob.glob("crates/*/specs/**/*.antt", recursive=True) + glob.glob("crates/*/proofs/**/*.antt", recursive=True))


def sources():
    return sorted(glob.glob("crates/*/src/**/*.rt", recursive=True))


def own_names():
    names = set()
    for path in proofs():
        text = re.sub(r"--.*", "", read(path))
        names |= {m.group(1) for m in SITE.finditer(text) if "goal." not in m.group(2)}
        names |= set(KEYWORD.findall(text))
        if "/specs/" in path or path.count("/") == 3:
            for group in BOUND.findall(text):
                names |= {word for word in group.split() if re.fullmatch(NAME, word)}
    for path in sources():
        for line in re.findall(r"(?m)^ghost use .*;", read(path)):
            names |= set(ALIAS.findall(line))
    return names


def new_name(name):
    name = name.replace("′", "'")
    if name[0].isupper():
        return "".join(part[0].upper() + part[1:] for part in re.split("[-_]", name))
    return name.replace("-", "_")


def turned(text, names):
    return TOKEN.sub(lambda m: new_name(m.group()) if m.group() in names else m.group(), text)


def ticks(text, names):
    return re.sub(r"`[^`\n]*`", lambda m: turned(m.group(), names), text)


def turned_code(text, names, comment):
    """Turns code and what stands in backticks in comments; strings stay."""
    out = []
    for line in text.split("\n"):
        place = 0
        for m in re.finditer(STRING.pattern + "|(" + comment + ".*)", line):
            out.append(turned(line[place : m.start()], names))
            out.append(ticks(m.group(), names) if m.group(1) else m.group())
            place = m.end()
        out.append(turned(line[place:], names) + "\n")
    return "".join(out)[:-1]


def fallen_together(names):
    """Pairs of names that would be one name afterwards, or one that differs only in case."""
    by_new = collections.defaultdict(set)
    for name in names:
        by_new[new_name(name).lower()].add(name)
    return [sorted(group) for group in by_new.values() if len(group) > 1]


def main():
    names = own_names()
    together = fallen_together(names)
    if together:
        print("these names would fall together:", together, file=sys.stderr)
        return 1
    importing = re.compile(r"use Rattle\.std\.[^\n]*[{, ](?:" + "|".join(sorted(SHARED)) + r")[,} ]")
    changed = 0

    def write(path, text):
        nonlocal changed
        if text != read(path):
            changed += 1
            with open(path, "w", encoding="utf-8") as f:
                f.write(text)

    for path in proofs():
        text = read(path)
        here = names - SHARED if importing.search(text) else names
        write(path, turned_code(text, here, "--"))
    for path in sources():
        write(path, turned_code(read(path), names, "//"))
    for path in sorted(glob.glob("crates/*/must-fail/*.edit")):
        write(path, turned_code(read(path), names, "//"))
    for path in ["README.md", *sorted(glob.glob("docs/*.md"))]:
        write(path, ticks(read(path), names))
    for crate in sorted({path.split("/")[1] for path in proofs() + sources()}):
        subprocess.run(["rt", "fmt"], cwd=os.path.join("crates", crate), stdout=subprocess.DEVNULL, check=False)
    print(f"{len(names)} names, {changed} files changed")
    return 0


if __name__ == "__main__":
    raise SystemExit(main())
