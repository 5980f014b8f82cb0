#!/usr/bin/env python3
"""Brings the repository's own names to one spelling, once, after the kit's own script for a port.

usage: python3 tools/port/respell.py            in the repository

A word (a definition, a lemma, a field, a constructor) is in snake case, a type in camel case. Names that the kit declares, functions of src/,
names for C, strings, inputs and outputs stay. Where a lemma would get the name of a definition that is used beside it, it ends in `_lem`.
Specs, proofs, the clauses and comments of src/, must-fail edits and the words in backticks of the pages are turned. It prints what fell together.
"""

import collections
import os
import re

TOKEN = re.compile(r"[A-Za-z_][A-Za-z0-9_'\-]*")
DECLARED = re.compile(r"^[ \t]*(?:abbrev |unfoldable |pub )*((?:[A-Za-z_][A-Za-z0-9_'\-]* )+):\s", re.M)
CONSTRUCTOR = re.compile(r"^[ \t]*((?:[A-Za-z_][A-Za-z0-9_'\-]* )+):\s", re.M)
USE = re.compile(r"^[ \t]*(?:pub )?(?:ghost )?use ([^;\n{]*?)(?:\{([^}]*)\})?;?[ \t]*(?:as ([A-Za-z0-9_'\-]+))?[ \t]*;?$", re.M)
STRING = re.compile(r'"(?:[^"\\]|\\.)*"')
# what the scripts of the kit garbled
GARBLED = {"by_Pure": "by_pure"}


def below(top, ending, parts):
    for crate in sorted(os.listdir(os.path.join(top, "crates"))):
        for part in parts:
            for folder, dirs, names in os.walk(os.path.join(top, "crates", crate, part)):
                dirs[:] = sorted(d for d in dirs if d != "out")
                for name in sorted(names):
                    if name.endswith(ending):
                        yield os.path.join(folder, name)


def read(path):
    with open(path, encoding="utf-8") as f:
        return f.read()


def snake(name):
    name = name.replace("-", "_")
    name = re.sub(r"(?<=[a-z0-9'])([A-Z])", r"_\1", name)
    name = re.sub(r"(?<=[A-Z])([A-Z][a-z])", r"_\1", name)
    return name.lower()


def camel(name):
    return "".join(part[0].upper() + part[1:] for part in name.split("-"))


def spelt(name):
    return camel(name) if name[0].isupper() else snake(name)


def taken(text, crates):
    """The names that a file takes from the kit."""
    names = set()
    for m in USE.finditer(text):
        path = m.group(1).strip().rstrip(".")
        parts = path.split(".")
        if parts[0] == "Rattle" and len(parts) > 1 and parts[1] in crates:
            continue
        for item in (m.group(2) or "").split(","):
            words = item.split()
            if words:
                names.add(words[-1])
    return names


def main():
    top = os.getcwd()
    crates = set(os.listdir(os.path.join(top, "crates")))
    antt = list(below(top, ".antt", ("specs", "proofs")))
    rt = list(below(top, ".rt", ("src",)))
    texts = {p: read(p) for p in antt + rt}
    declared = collections.defaultdict(set)
    for p in antt:
        for m in DECLARED.finditer(texts[p]):
            for name in m.group(1).split():
                declared[name].add(p)
    for name in ("pub", "abbrev", "unfoldable", "data", "record", "let", "in", "where", "module"):
        declared.pop(name, None)

    outside = {p: taken(texts[p], crates) for p in antt + rt}
    uses = {p: set(TOKEN.findall(texts[p])) - outside[p] for p in antt + rt}
    turned = {name: spelt(name) for name in declared if spelt(name) != name}
    alike = collections.defaultdict(list)
    for name in declared:
        alike[spelt(name)].append(name)

    # names that fall together: where a file has both, the lemma ends in _lem
    for new, names in sorted(alike.items()):
        if len(names) < 2:
            continue
        together = any(len(uses[p] & set(names)) > 1 for p in uses)
        first = sorted(names, key=lambda n: ("-" in n, n.lower() == n, n))[0]
        for name in names:
            if together and name != first:
                turned[name] = new + "_lem"
        print("fall together:", new, {n: turned.get(n, n) for n in names}, "in one file" if together else "in no file")
    # a new name that a file takes from the kit
    for p in antt:
        for name in uses[p] & set(turned):
            if turned[name] in outside[p]:
                print("look: the kit has this name in", os.path.relpath(p, top), name, turned[name])
                turned[name] = turned[name] + "_lem"
    known = set(turned.values()) | set(declared)

    def turn(text, skip, all_names=True):
        def one(m):
            name = m.group(0)
            if name in GARBLED:
                return GARBLED[name]
            if name in skip or name not in turned:
                return name
            if not all_names and "-" not in name and name.lower() == name:
                return name
            return turned[name]
        return TOKEN.sub(one, text)

    changed = 0
    for p in antt + rt:
        text = texts[p]
        if p.endswith(".rt"):
            parts, at = [], 0
            for m in STRING.finditer(text):
                parts += [turn(text[at:m.start()], outside[p], False), m.group(0)]
                at = m.end()
            new = "".join(parts) + turn(text[at:], outside[p], False)
        else:
            new = turn(text, outside[p])
        if new != text:
            changed += 1
            with open(p, "w", encoding="utf-8") as f:
                f.write(new)

    # edits have the older spelling whole
    def older(text):
        def one(m):
            name = m.group(0)
            if name in turned:
                return turned[name]
            return spelt(name) if name not in known and spelt(name) in known and name[0].islower() else name
        text = TOKEN.sub(one, text)
        text = re.sub(r"(?<=[A-Za-z0-9_')]) \.([a-z0-9][A-Za-z0-9_]*)", r".\1", text)
        text = re.sub(r"\(([A-Za-z0-9_']+(?:\.[A-Za-z0-9_]+)+)\)", r"\1", text)
        text = re.sub(r"(?<![A-Za-z0-9_'])_([^A-Za-z0-9_'\s]+)_(?![A-Za-z0-9_'])", "\u25cc\\1\u25cc", text)
        return text.replace("\u2032", "'")

    for p in below(top, ".edit", ("must-fail",)):
        lines = read(p).split("\n")
        crate = os.path.dirname(os.path.dirname(p))
        where, keep = None, []
        for n, line in enumerate(lines):
            if line.startswith("file:"):
                where = os.path.join(crate, line[5:].strip())
            elif line.startswith("old: ") and read(where).count(line[5:]) != 1:
                new = older(line[5:])
                if read(where).count(new) == 1:
                    keep.append(n)
                    lines[n] = "old: " + new
                else:
                    print("by hand:", os.path.relpath(p, top), "|", new)
            elif line.startswith("new: ") and n - 1 in keep:
                lines[n] = "new: " + older(line[5:])
            elif line.startswith("new: ") and p.endswith(".edit") and where.endswith(".antt"):
                lines[n] = "new: " + older(line[5:])
        with open(p, "w", encoding="utf-8") as f:
            f.write("\n".join(lines))

    # the words in backticks of the pages
    pages = [os.path.join(top, "README.md")]
    for folder, dirs, names in os.walk(os.path.join(top, "docs")):
        pages += [os.path.join(folder, n) for n in names if n.endswith(".md")]
    for p in pages:
        text = read(p)
        new = re.sub(r"`[^`\n]*`", lambda m: older(m.group(0)) if " ." in m.group(0) or TOKEN.search(m.group(0)) and any(t in turned or (t not in known and t[0].islower() and spelt(t) in known) for t in TOKEN.findall(m.group(0))) else m.group(0), text)
        if new != text:
            with open(p, "w", encoding="utf-8") as f:
                f.write(new)
    print(len(turned), "names,", changed, "files")


main()
