#!/usr/bin/env python3
"""Brings the names of this repository's own definitions and lemmas to snake case: usage: tools/snake_names.py [--dry]

Run once, at the top, after the kit's own scripts. It renames what is defined in crates/*/specs and crates/*/proofs (definitions, lemmas, fields,
constructors) and is written with hyphens or humps, wherever it is used: in .antt files, in the ghost lines of .rt files, and in must-fail edits. Names that
a file takes from the library, names of goals, types, functions and strings stay. It says which names would fall together, and renames none of these."""

import collections
import os
import re
import sys

TOKEN = re.compile(r"(?<![\w'\-])[^\W\d][\w']*(?:-[\w']+)*")
DEFINED = re.compile(r"\s*(?:(?:abbrev|opaque|unfoldable|pub|instance)\s+)*(?:(?:record|data)\s+)?([^\W\d][\w']*(?:-[\w']+)*)(?:\s+[({].*?[)}])*\s*:(?:\s|$)")
GOAL = re.compile(r"\s*(?:(?:abbrev|pub)\s+)*([^\s:]+)\s*:\s*goal\.\1\s*$")
WORDS = {"use", "mod", "open", "module", "let", "where", "in", "unfolding"}
# names that would fall together with another, and what they are called instead
OTHERWISE = {"same-infos": "same_infos_self", "info-at": "info_at_index", "in-sheet": "in_sheet_shape", "in-shape": "entry_in_shape"}
# names that the kit's scripts have turned into one that a definition needs, and what they are called instead, in one file
APART = {("crates/sheets/proofs/Matching.antt", "of_two"): "made_of_two", ("crates/fourpiles/proofs/Products.antt", "in_reach"): "entry_in_reach"}


def wanted(name):
    return name[0].islower() and ("-" in name or re.search(r"[a-z0-9][A-Z]", name))


def snake(name):
    name = re.sub(r"([a-z0-9])([A-Z])", lambda m: m[1] + "_" + m[2].lower(), name)
    return name.replace("-", "_").lower()


def files(ends):
    for folder, dirs, names in os.walk("crates"):
        dirs[:] = sorted(d for d in dirs if d not in ("out", "target"))
        for f in sorted(names):
            if f.endswith(ends):
                yield os.path.join(folder, f)


def read(p):
    with open(p, encoding="utf-8") as f:
        return f.read()


def apart(p, text):
    for (file, name), new in APART.items():
        if p == file:
            text = re.sub(r"(?<![\w'\-.])" + name + r"(?![\w'\-])", new, text)
    return text


def aliases(text):
    """The hyphened names that a file gives to what it takes from elsewhere."""
    return {n: snake(n) for n in re.findall(r" as ([^\W\d][\w']*(?:-[\w']+)*)", text) if wanted(n)}


def from_library(text):
    """The names that a file takes from the library, as it calls them."""
    out = set()
    for m in re.finditer(r"use Rattle\.std\.[^{;\n]*\{([^}]*)\}", text):
        for it in m[1].split(","):
            out.add(it.split(" as ")[-1].strip())
    return out


def defined():
    out = collections.defaultdict(set)
    for p in files((".antt",)):
        for line in apart(p, read(p)).split("\n"):
            if GOAL.match(line) or line.lstrip().startswith("--"):
                continue
            m = DEFINED.match(line)
            if m and m[1] not in WORDS:
                out[m[1]].add(p)
    return out


def outside_strings(text, f):
    return "".join(part if part.startswith('"') else f(part) for part in re.split(r'("(?:[^"\\\n]|\\.)*")', text))


def main(dry):
    names = defined()
    to = {n: OTHERWISE.get(n, snake(n)) for n in sorted(names) if wanted(n)}
    targets = collections.Counter(to.values())
    for n, t in list(to.items()):
        if targets[t] > 1 or t in names:
            print(f"falls together: {n} -> {t} ({', '.join(sorted(names[n]))})")
            del to[n]
    changed = 0
    for p in files((".antt", ".rt", ".edit")):
        text = read(p)
        own = to | aliases(text)
        kept = from_library(text) - set(aliases(text))
        other = set(re.findall(r"\bfn (\w+)", text)) if p.endswith(".rt") else set()

        def turn(m):
            n = m[0]
            if n not in own or n in kept:
                return n
            if own[n] in other or own[n] in kept:
                print(f"look: {p}: {n} -> {own[n]} stands beside a name that is spelt so")
            return own[n]

        new = outside_strings(apart(p, text), lambda part: TOKEN.sub(turn, part))
        if new != text:
            changed += 1
            if not dry:
                with open(p, "w", encoding="utf-8") as f:
                    f.write(new)
    print(f"{len(to)} names, {changed} files")
    if dry:
        for n, t in to.items():
            print(f"  {n} -> {t}")


if __name__ == "__main__":
    main("--dry" in sys.argv)
