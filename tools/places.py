#!/usr/bin/env python3
"""Lists the places of src/ that docs/DESIGN-PASS.md counts: python3 tools/places.py [COMMIT]. Tests count in points 1 and 3 alone."""
import re
import subprocess
import sys
from collections import defaultdict
from pathlib import Path


def sources(commit):
    if not commit:
        return {str(p): p.read_text() for p in sorted(Path("crates").glob("*/src/*.rt"))}
    names = subprocess.run(["git", "ls-tree", "-r", "--name-only", commit, "crates"], capture_output=True, text=True, check=True)
    files = [n for n in names.stdout.split() if re.fullmatch(r"crates/\w+/src/\w+\.rt", n)]
    return {n: subprocess.run(["git", "show", f"{commit}:{n}"], capture_output=True, text=True, check=True).stdout for n in files}


def lines_like(texts, pattern):
    found = []
    for name, text in texts.items():
        for number, line in enumerate(text.split("\n"), 1):
            if re.search(pattern, line) and not line.lstrip().startswith("//"):
                found.append(f"{name}:{number}: {line.strip()}")
    return found


def functions(texts):
    """(file, line, name, parameters, clauses, body) of each function."""
    for name, text in texts.items():
        for m in re.finditer(r"^( *)(?:pub(?:\(\w+\))? )?fn (\w+)(.*?)^\1\{\n(.*?)^\1\}", text, re.M | re.S):
            head = m.group(3)
            split = re.search(r"\n *(?:requires|ensures)", head)
            signature = head[: split.start()] if split else head
            clauses = head[split.start() :] if split else ""
            yield name, text[: m.start()].count("\n") + 1, m.group(2), signature, clauses, m.group(4)


WORDS = "fn let mut if else for in while match return Some None Ok Err true false self Self ref as impl".split()


def shape(body):
    body = re.sub(r"//.*", "", body)
    tokens = re.findall(r"\"[^\"]*\"|'.'|\w+|[^\s\w]", body)
    return " ".join(t if t in WORDS or not re.match(r"\w", t) else ("0" if t[0].isdigit() else "x") for t in tokens)


def twins(texts):
    groups = defaultdict(list)
    for name, line, function, signature, _, body in functions(texts):
        form = shape(body)
        if len(form.split()) > 12:
            groups[form].append(f"{name}:{line}: fn {function}")
    constants = defaultdict(list)
    for name, text in texts.items():
        for m in re.finditer(r"^(?:pub(?:\(\w+\))? )?const (\w+): (\w+) = (\w+ \{.*?^\}|[^;]*);", text, re.M | re.S):
            value = re.sub(r"\s+", " ", m.group(3)).replace("_", "")
            if len(value) > 1:
                constants[value].append(f"{name}: const {m.group(1)}: {m.group(2)} = {value[:40]}")
        for m in re.finditer(r"^(?:pub(?:\(\w+\))? )?(struct|enum) (\w+)[^;{]*\{(.*?)^\}", text, re.M | re.S):
            names = " ".join(re.findall(r"^ +(?:pub(?:\(\w+\))? )?(\w+)[:,(]", m.group(3), re.M))
            constants[m.group(1) + " " + names].append(f"{name}: {m.group(1)} {m.group(2)} {{ {names} }}")
    return [v for v in groups.values() if len(v) > 1], [v for v in constants.values() if len(v) > 1]


def repeated(texts):
    facts, companions = defaultdict(set), defaultdict(set)
    for name, line, function, signature, clauses, _ in functions(texts):
        where = f"{name}: {function}"
        for m in re.finditer(r"requires(?: \w+)? \{(.*)\}", clauses):
            facts[re.sub(r"\b(self|\w+)\.(old|now)\b", "_", m.group(1).strip())].add(where)
        parameters = re.findall(r"(\w+): (&?(?:mut )?[\w\[\]<>:', ]+?)(?=,|\)|\n)", signature)
        names = [p for p, _ in parameters if p not in ("f", "rt")]
        for one, other in zip(names, names[1:]):
            companions[f"{one}, {other}"].add(where)
    return [(k, v) for k, v in facts.items() if len(v) > 2], [(k, v) for k, v in companions.items() if len(v) > 2]


def show(title, items):
    print(f"\n{title}: {len(items)}")
    for item in items:
        print("   ", "; ".join(sorted(item)) if isinstance(item, (list, set)) else item)


def main():
    texts = sources(sys.argv[1] if len(sys.argv) > 1 else None)
    code = {n: t for n, t in texts.items() if "_tests/" not in n}
    show("1 constants of 8 to 32 bits", lines_like(texts, r"^(pub(\(\w+\))? )?const \w+: u(8|16|32)\b"))
    show("1 enums", lines_like(texts, r"^(pub(\(\w+\))? )?enum "))
    show("1 results with a number for an error", lines_like(texts, r"Result<[^;]*, u(8|16|32|64)>"))
    same_shape, same_value = twins(code)
    show("2 functions of one shape", same_shape)
    show("2 constants of one value, types of the same names", same_value)
    show("3 loops over numbers, and with while", lines_like(texts, r"\bfor \w+ in \(?[\w.]*\d[\w.]*\.\.|\bwhile "))
    show("3 loops that index by enumerate", lines_like(texts, r"\bfor \((i|index), "))
    show("4 comparisons, copies and defaults by hand", lines_like(code, r"^impl.*\b(PartialEq|Eq|PartialOrd|Ord|Clone|Copy|Default|Debug) for |fn is\("))
    show("4 conversions with as", lines_like(code, r" as [ui](8|16|32|64|128|size)\b"))
    show("4 arms that hand on what they got", lines_like(code, r"Ok\((\w+)\) => Ok\(|Err\((\w+)\) => Err\(|None => None|None => Ok\(None\)"))
    facts, companions = repeated(code)
    show("5 facts required by three functions or more", [f"{k}  [{', '.join(sorted(v))}]" for k, v in facts])
    show("5 parameters side by side in three functions or more", [f"{k}  [{len(v)}]" for k, v in companions])
    show("6 arrays of fixed length", lines_like(code, r"\[[^\[\]]+; [A-Z_0-9]+\]"))
    show("6 fields that count", lines_like(code, r"^    (pub(\(\w+\))? )?(len|size|count|used|members): u"))
    show("7 chains of comparisons, and pointers to functions", lines_like(code, r"^ *\} else if |fn\(|dyn "))


main()
