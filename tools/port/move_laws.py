#!/usr/bin/env python3
"""Moves the files of theorems that rest on definitions which must-fail edits change from specs/ to proofs/, statements unchanged.

usage: python3 tools/port/move_laws.py            in the repository; it may be run again

An edit of a definition counts only where what falls lies in proofs/. The record of a crate's promises stays in specs/; its value, the proofs, goes to
proofs/. Paths are turned in crates/ and in the pages.
"""

import os
import re

MOVED = {
    "encoding": "AllowedLaws Cases ExactLaws GrammarLaws ListCases ListLaws MessageLaws NumberLaws OldCases OldLaws OptionalFormLaws OptionalLaws "
    "ProxyLaws RefusalCases RefusalLaws ResultLaws RuleLaws SliceLaws TableCases TableLaws TypesLaws Utf8Laws ValueLaws WalkLaws WeightLaws",
    "laws": "CounterpartsOne CountsExact GatherLaws LentFilled LoseLaws MessageExact MessageNewer MessageWritten NumbersTogether OldExact OldLine "
    "OptionalExact OptionalNewer PlanLaws PlanRules Reads RecordNewer Refusals RightLists RowsApart RowsBack RowsExact RowsListed RowsMost RowsNewer "
    "RowsRight SetsExact SliceExact SliceNewer Small TableExact TableFault TypesAgree Viewed Witness WriteAgain WriteBack WriteSmall WriterAnswers "
    "WriterRefusals WrittenNewer",
    "edit": "AgainLaws EditLaws EditNewer GapLaws HeldLaws HereLaws MadeLaws PieceLaws SeatLaws SpliceLaws TargetLaws",
    "convert": "ConvertLaws ResliceLaws",
    "bursts": "BurstCounts BurstLaws BurstPlans PairLaws RunningLaws",
    "endpoint": "EndpointCases EndpointLaws OpenRefusals RefusalLaws",
    "frost": "FrostGiven FrostJudged FrostLaws FrostRows",
    "night": "NightFits NightLaws NightProofs StopLaws",
    "sums": "SumLaws",
}
# the file that holds the record of the promises and its value
PROMISES = {"laws": "Promises", "edit": "ChangePromises", "convert": "Promises", "bursts": "BurstPromises", "endpoint": "Promises", "frost": "FrostPromises", "night": "NightPromises"}
# definitions of a file stay, its lemmas go to a file of their own
LEMMAS = {"endpoint": ("Layout", "LayoutLaws")}
# a name that the kit takes for itself in proofs/
RENAMED = {("laws", "Reads"): "Readings"}


def read(path):
    with open(path, encoding="utf-8") as f:
        return f.read()


def write(path, text):
    os.makedirs(os.path.dirname(path), exist_ok=True)
    with open(path, "w", encoding="utf-8") as f:
        f.write(text)


def blocks(text):
    """The head (comments and use lines) of a file, and its declarations, each with the comment above it."""
    lines, at = text.split("\n"), 0
    while at < len(lines) and (lines[at].startswith(("--", "use ")) or not lines[at].strip()):
        at += 1
    while at and lines[at - 1].startswith("--") and not lines[at - 2].startswith("use "):
        at -= 1
    head = "\n".join(lines[:at]).rstrip("\n")
    rest = [b for b in re.split(r"\n\n(?=\S)", "\n".join(lines[at:]).strip("\n")) if b.strip()]
    return head, rest


def used(head, text):
    """The comment of a head and those of its use lines that a text needs."""
    out = []
    for line in head.split("\n"):
        m = re.match(r"use (\S+?)\.\{(.*)\}$", line)
        if not m:
            out.append(line)
            continue
        names = []
        for name in m.group(2).split(", "):
            parts = [p for p in name.split()[-1].split("\u25cc") if p]
            if all(re.search(r"(?<![A-Za-z0-9_'-])" + re.escape(p) + r"(?![A-Za-z0-9_'-])" if re.match(r"[\w\[]", p) else re.escape(p), text) for p in parts):
                names.append(name)
        if names:
            out.append(f"use {m.group(1)}.{{{', '.join(names)}}}")
    return "\n".join(out)


def to_proofs(crate, names, about):
    """Moves the lines of modules from specs/Lib.antt to proofs/Lib.antt."""
    lib = f"crates/{crate}/specs/Lib.antt"
    lines = read(lib).split("\n")
    write(lib, "\n".join(l for l in lines if l.split()[-1:] != [] and not (l.startswith("pub mod ") and l.split()[2] in names)) + "\n")
    lib = f"crates/{crate}/proofs/Lib.antt"
    text = read(lib) if os.path.exists(lib) else about
    have = set(re.findall(r"^(?:pub )?mod (\S+)", text, re.M))
    write(lib, text.rstrip("\n") + "\n" + "".join(f"pub mod {n}\n" for n in names if n not in have))


def main():
    moved = []
    for crate, names in MOVED.items():
        names = names.split()
        for name in names:
            old, new = f"crates/{crate}/specs/{name}.antt", f"crates/{crate}/proofs/{name}.antt"
            if os.path.exists(old):
                os.makedirs(os.path.dirname(new), exist_ok=True)
                if os.path.exists(new):
                    os.remove(new)
                os.rename(old, new)
            moved.append((crate, name))
        to_proofs(crate, names, "-- The laws of the definitions of specs/.\n")
    for crate, name in PROMISES.items():
        path = f"crates/{crate}/specs/{name}.antt"
        new = name.replace("Promises", "Promised")
        head, rest = blocks(read(path))
        record = [b for b in rest if re.search(r"^pub record ", b, re.M)]
        others = [b for b in rest if b not in record]
        if not others:
            continue
        kind = re.search(r"^pub record (\S+)", "\n".join(record), re.M).group(1)
        comment = "\n".join(l for l in head.split("\n") if not l.startswith("use "))
        body = "\n\n".join(others)
        own = re.compile(rf"use Rattle\.{crate}\.(specs|proofs)\.(" + "|".join(MOVED[crate].split()) + r")(?![A-Za-z0-9])")
        stays = "\n".join(l for l in used(head, "\n\n".join(record)).split("\n") if not own.match(l))
        write(path, stays + "\n\n" + "\n\n".join(record) + "\n")
        uses = "\n".join(l for l in used(head, body).split("\n") if l.startswith("use "))
        write(f"crates/{crate}/proofs/{new}.antt", f"-- Each promise of `{kind}` joined to its proof.\n{uses}\nuse Rattle.{crate}.specs.{name}.{{{kind}}}\n\n{body}\n")
        to_proofs(crate, [new], "-- The laws of the definitions of specs/.\n")
    for crate, (name, new) in LEMMAS.items():
        path = f"crates/{crate}/specs/{name}.antt"
        head, rest = blocks(read(path))
        keep = [b for b in rest if re.search(r"^(abbrev|unfoldable) pub ", b, re.M)]
        others = [b for b in rest if b not in keep]
        if not others:
            continue
        defined = re.findall(r"^(?:abbrev|unfoldable) pub (\S+)", "\n".join(keep), re.M)
        proved = re.findall(r"^pub (\S+) :", "\n".join(others), re.M)
        write(path, used(head, "\n\n".join(keep)) + "\n\n" + "\n\n".join(keep) + "\n")
        uses = "\n".join(l for l in used(head, "\n\n".join(others)).split("\n") if l.startswith("use "))
        write(f"crates/{crate}/proofs/{new}.antt", f"-- The laws of `{name}`: {', '.join(proved)}.\n{uses}\nuse Rattle.{crate}.specs.{name}.{{{', '.join(defined)}}}\n\n" + "\n\n".join(others) + "\n")
        to_proofs(crate, [new], "")
        for folder, _, files in os.walk(f"crates/{crate}/proofs"):
            for f in files:
                p = os.path.join(folder, f)
                text = read(p)
                m = re.search(rf"^use Rattle\.{crate}\.specs\.{name}\.\{{(.*)\}}$", text, re.M)
                if m and p != f"crates/{crate}/proofs/{new}.antt":
                    a = [n for n in m.group(1).split(", ") if n not in proved]
                    b = [n for n in m.group(1).split(", ") if n in proved]
                    lines = [f"use Rattle.{crate}.specs.{name}.{{{', '.join(a)}}}"] * bool(a) + [f"use Rattle.{crate}.proofs.{new}.{{{', '.join(b)}}}"] * bool(b)
                    write(p, text[: m.start()] + "\n".join(lines) + text[m.end() :])
    pattern = re.compile(r"Rattle\.(" + "|".join(MOVED) + r")\.specs\.(" + "|".join(sorted({n for _, n in moved}, key=len, reverse=True)) + r")(?![A-Za-z0-9])")
    pages = re.compile(r"(" + "|".join(MOVED) + r")/specs/(" + "|".join(sorted({n for _, n in moved}, key=len, reverse=True)) + r")\.antt")
    for (crate, old), new in RENAMED.items():
        if os.path.exists(f"crates/{crate}/proofs/{old}.antt"):
            os.rename(f"crates/{crate}/proofs/{old}.antt", f"crates/{crate}/proofs/{new}.antt")
        lib = f"crates/{crate}/proofs/Lib.antt"
        write(lib, "".join(l + "\n" for l in read(lib).split("\n") if l and l != f"pub mod {new}").replace(f"pub mod {old}\n", f"pub mod {new}\n"))
    known = set(moved)
    turn = lambda m, sep: m.group(0).replace(sep + "specs" + sep, sep + "proofs" + sep) if (m.group(1), m.group(2)) in known else m.group(0)
    for folder, dirs, files in os.walk("."):
        dirs[:] = [d for d in dirs if d not in (".git", "out", "target", "port")]
        for f in files:
            p = os.path.join(folder, f)
            if f.endswith((".antt", ".rt", ".edit")):
                text = read(p)
                new = pattern.sub(lambda m: turn(m, "."), text)
                for (crate, old), name in RENAMED.items():
                    new = re.sub(rf"Rattle\.{crate}\.proofs\.{old}(?![A-Za-z0-9])", f"Rattle.{crate}.proofs.{name}", new)
            elif f.endswith((".md", ".rs")):
                text = read(p)
                new = pages.sub(lambda m: turn(m, "/"), text)
                for (crate, old), name in RENAMED.items():
                    new = new.replace(f"{crate}/proofs/{old}.antt", f"{crate}/proofs/{name}.antt")
            else:
                continue
            if new != text:
                write(p, new)


main()
