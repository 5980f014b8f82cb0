#!/usr/bin/env python3
"""Brings the links to proofs in docs/RULES.md up to date with the files that are there.

usage: python3 tools/port/links.py            in the repository; it may be run again

A function's proof is a folder of the crate's proofs/. The link leads to its Proof.antt, else to its Answers.antt, else to its Invariants.antt. Where the check
finds the whole proof there is no file, and the function's name is given without a link. Functions that call one another are proved together: their link is
the folder of the cycle, by its name. Only the column of proofs is turned. Links of the pages that lead to no file are printed at the end.
"""

import os
import re

FILES = ("Proof.antt", "Answers.antt", "Invariants.antt")
LINK = re.compile(r"\[`([^`]+)`\]\(\.\./crates/([^/]+)/([^)]+)\)")
ITEM = re.compile(r"\[`[^`]+`\]\([^)]+\)|`[^`]+`")
CELL = re.compile(r"(?<!\\)\|")


def read(path):
    with open(path, encoding="utf-8") as f:
        return f.read()


def file_of(folder):
    """The file of a folder of proofs/ that a link leads to."""
    return next((f"{folder}/{name}" for name in FILES if os.path.isfile(f"{folder}/{name}")), None)


def cycle_of(folder):
    """The folder of the cycle that has the function which would have this folder."""
    at, name = os.path.split(folder)
    for it in sorted(os.listdir(at)) if os.path.isdir(at) else []:
        if it.startswith("+") and file_of(f"{at}/{it}"):
            text = "".join(read(f"{at}/{it}/{file}") for file in FILES if os.path.isfile(f"{at}/{it}/{file}"))
            if re.search(rf"\bgoal\.(decreases-|invariant-)?{re.escape(name)}(-|$)", text, re.M):
                return f"{at}/{it}"
    return None


def of_source(crate, path, name):
    """The folder of proofs/ that a function of a file of src/ would have."""
    parts = path[: -len(".rt")].split("/")[1:]
    return "/".join([f"crates/{crate}/proofs", *[it for it in parts if it not in ("lib", "main", "mod")], name])


def alike(name, crates):
    """The one folder of the crates' proofs/ with this name, a function's or a cycle's."""
    found = []
    for crate in sorted(set(crates)):
        found += [at for at, _, _ in os.walk(f"crates/{crate}/proofs") if os.path.basename(at) in (name, f"+{name}") and file_of(at)]
    return found if len(found) == 1 else []


def linked(folder):
    """The link to a function's proof, or none."""
    folder = folder if file_of(folder) else cycle_of(folder)
    return folder and f"[`{os.path.basename(folder).lstrip('+')}`](../{file_of(folder)})"


def proofs(cell, code):
    """The items of the column of proofs, as they are to be."""
    out = []
    for item in ITEM.findall(cell):
        link = LINK.fullmatch(item)
        if link:
            name, crate, path = link.groups()
            folder = os.path.dirname(f"crates/{crate}/{path}")
            # (a cycle that was named by its functions)
            gone = os.path.basename(folder).startswith("+") and not os.path.isdir(folder)
            out.append(linked(f"{os.path.dirname(folder)}/{name}" if gone else folder) or f"`{name}`")
        else:
            name = item.strip("`")
            near = [crate for _, crate, _ in code]
            places = [of_source(crate, path, it) for it, crate, path in code if it == name]
            if places:
                # (a method has its type's folder)
                places += alike(name, [crate for it, crate, _ in code if it == name])
            else:
                # (a cycle, or a function that the row's code does not name)
                places = alike(name, near) or alike(name, os.listdir("crates"))
            links = [it for it in map(linked, places) if it and it not in out and it not in cell]
            out.append(links[0] if links else item)
    # a cycle is named once
    return [it for n, it in enumerate(out) if "/+" not in it or it not in out[:n]]


def row(line, at):
    """A row of a table, its column of proofs turned."""
    cells = CELL.split(line)
    cells[at["proof"]] = " " + ", ".join(proofs(cells[at["proof"]], LINK.findall(cells[at["code"]]))) + " "
    return "|".join(cells)


def gone(page):
    """The targets of a page's links that are not there."""
    targets = re.findall(r"\]\(([^)#\s]+)", "\n".join(it for it in read(page).split("\n") if not it.startswith("    ")))
    return [it for it in targets if "://" not in it and not os.path.exists(os.path.join(os.path.dirname(page), it))]


def main():
    page, at, out = "docs/RULES.md", None, []
    before = read(page)
    for line in before.split("\n"):
        if line.startswith("| rule |"):
            at = {it.strip(): n for n, it in enumerate(CELL.split(line))}
        elif line.startswith("| ") and at:
            line = row(line, at)
        out.append(line)
    text = "\n".join(out)
    if text != before:
        with open(page, "w", encoding="utf-8") as f:
            f.write(text)
    pages = ["README.md"] + [f"{at}/{it}" for at in ("docs", "docs/changes") for it in sorted(os.listdir(at)) if it.endswith(".md")]
    for it in pages:
        for target in dict.fromkeys(gone(it)):
            print(f"no file: {it}: {target}")


main()
