#!/usr/bin/env python3
"""Brings the repository's own definitions and lemmas to today's spelling, once, after the kit's port.py:
snake case for words (good_limits), camel case for types and facts (GoodLimits), an apostrophe for a prime.

usage: python3 tools/respell.py [--list]        at the top of the repository; --list prints the renaming and changes nothing

A name is the repository's own if a file of a crate's specs/ or proofs/ declares it (proofs/F/ too, but for the names of
goals, which the check makes). Whole names are replaced, in .antt files, in .rt files outside of strings, and in
must-fail/*.edit. Where two names would fall together, or a name is the library's too, it stops and says so, unless
KEPT or OTHERWISE below says what is done.
"""

import os
import re
import sys

# The library's names that the repository declares as well: they stay as they are.
KEPT = {"length-map", "not-true"}
# Names that would fall together with another one get this spelling.
OTHERWISE = {"In-use": "IsInUse", "Line-played": "PlaysLine", "No-call": "IsNoCall", "Read-back": "IsReadBack"}

NAME = r"[A-Za-zℕ₀-₉Α-Ωα-κμ-ω_'′][\w'′₀-₉-]*"
TOKEN = re.compile(r"[\w'′₀-₉-]+")


def crates(root):
    top = os.path.join(root, "crates")
    return [os.path.join(top, n) for n in sorted(os.listdir(top))]


def walk(folder, *ends):
    for base, dirs, files in os.walk(folder):
        dirs[:] = sorted(d for d in dirs if d != "out")
        for f in sorted(files):
            if f.endswith(ends):
                yield os.path.join(base, f)


def read(path):
    with open(path, encoding="utf-8") as f:
        return f.read()


def declared(text):
    """The names that a file declares: definitions, types, constructors and fields."""
    names = set()
    for line in text.split("\n"):
        line = re.sub(r"--.*", "", line) if line.lstrip().startswith("--") else line
        m = re.match(r"\s*(?:abbrev |unfoldable )?(?:pub )?(" + NAME + r") : (.*)", line)
        if m and not re.match(r"goal\.", m.group(2)):
            names.add(m.group(1))
        m = re.match(r"\s*(?:abbrev )?pub (?:data|record) (" + NAME + r")", line) or re.match(r"\s*(?:data|record) (" + NAME + r") ", line)
        if m:
            names.add(m.group(1))
    return names


def spelled(name):
    if name in OTHERWISE:
        return OTHERWISE[name]
    name = name.replace("′", "'")
    parts = name.split("-")
    if name[0].isupper():
        return "".join(p[:1].upper() + p[1:] for p in parts)
    return "_".join(parts)


def imports(text, names):
    """What a file imports from outside of the repository's crates."""
    found = set()
    for m in re.finditer(r"use ([\w.'-]+?)\.\{([^}]*)\}", text):
        parts = m.group(1).split(".")
        if not (parts[0] == "Rattle" and len(parts) > 1 and parts[1] in names):
            found |= {x.strip() for w in m.group(2).split(",") for x in w.split(" as ")}
    return found


def renaming(root):
    own, imported = set(), set()
    names = {os.path.basename(c) for c in crates(root)}
    for c in crates(root):
        for p in walk(c, ".antt", ".rt"):
            text = read(p)
            imported |= imports(text, names)
            if p.endswith(".antt"):
                own |= declared(text)
    changed = {n: spelled(n) for n in own if ("-" in n or "′" in n) and n not in KEPT and not n.startswith("-")}
    changed = {n: s for n, s in changed.items() if n != s}
    faults = []
    targets = {}
    for n, s in sorted(changed.items()):
        if n in imported:
            faults.append(f"{n}: the library's name of this spelling is imported too")
        if s in own or s in imported:
            faults.append(f"{n}: {s} is there already")
        if s in targets:
            faults.append(f"{n}: {s} is made of {targets[s]} too")
        targets[s] = n
    return changed, faults


STRING = re.compile(r'b?"(?:\\.|[^"\\])*"|b?\'(?:\\.|[^\'\\])\'')


def respell(text, changed):
    return TOKEN.sub(lambda m: changed.get(m.group(0), m.group(0)), text)


def respell_source(text, changed):
    out, at = [], 0
    for m in STRING.finditer(text):
        out.append(respell(text[at : m.start()], changed))
        out.append(m.group(0))
        at = m.end()
    out.append(respell(text[at:], changed))
    return "".join(out)


def main():
    root = os.getcwd()
    changed, faults = renaming(root)
    if "--list" in sys.argv[1:]:
        for n, s in sorted(changed.items()):
            print(n, s)
    for f in faults:
        print("respell: " + f, file=sys.stderr)
    if "--list" in sys.argv[1:] or faults:
        raise SystemExit(1 if faults else 0)
    count = 0
    for c in crates(root):
        for p in walk(c, ".antt", ".rt", ".edit"):
            text = read(p)
            new = respell(text, changed) if p.endswith(".antt") else respell_source(text, changed)
            if new != text:
                with open(p, "w", encoding="utf-8") as f:
                    f.write(new)
                count += 1
    print(f"respell: {len(changed)} names, {count} files")


if __name__ == "__main__":
    main()
