#!/usr/bin/env python3
"""Brings the names of this repository's own definitions and lemmas to the library's spelling: snake case for functions and lemmas,
camel case for types and records. Run once, at the top, after the library's own scripts.

Only names that a file of specs/ or proofs/ declares are respelled, as whole words, in clauses, specs, proofs, their comments and
must-fail edits. Names of functions and goals are made from the code and stay. It stops, and writes nothing, where two names would
fall together."""

import os
import re
import sys

WORD = re.compile(r"[A-Za-z_][A-Za-z0-9_'≢≡≤<]*(?:-[A-Za-z0-9_'≢≡≤<]+)*")
DECLARED = re.compile(r"^\s*(?:(?:abbrev|unfoldable|pub|record|data) )*([^\s:(){}]+)\s*(?:[({].*)?:", re.M)
IMPORTED = re.compile(r"^(?:pub )?(?:ghost )?use [^{;\n]*\.\{([^}]*)\}", re.M)


def files(ends):
    for folder, dirs, names in os.walk("crates"):
        dirs[:] = sorted(d for d in dirs if d != "out")
        for name in sorted(names):
            if name.endswith(ends):
                yield os.path.join(folder, name)


def text(path):
    with open(path, encoding="utf-8") as f:
        return f.read()


def is_index(path):
    """A file of definitions or lemmas, and not the proof of one function."""
    return re.fullmatch(r"crates/\w+/(specs|proofs)/\w+\.antt", path) is not None


def respelled(name):
    if name[0].isupper():
        return "".join(part[0].upper() + part[1:] for part in name.split("-"))
    return name.replace("-", "_")


def main():
    indexes = [p for p in files(".antt") if is_index(p)]
    declared = {m[1] for p in indexes for m in DECLARED.finditer(text(p))}
    own = {n for n in declared if "-" in n and WORD.fullmatch(n)}
    turned = {n: respelled(n) for n in own}
    taken = declared | {w for p in files((".antt", ".rt")) for names in IMPORTED.findall(text(p)) for w in WORD.findall(names)}
    by = {}
    for n, s in turned.items():
        by.setdefault(s, []).append(n)
    fallen = [f"{' and '.join(sorted(ns))} would be {s}" for s, ns in sorted(by.items()) if len(ns) > 1 or s in taken - own]
    if fallen:
        print("\n".join(fallen))
        return 1
    for p in files((".antt", ".rt", ".edit")):
        old = text(p)
        new = WORD.sub(lambda m: turned.get(m[0], m[0]), old)
        if new != old:
            with open(p, "w", encoding="utf-8") as f:
                f.write(new)
    print(f"{len(turned)} names respelled")
    return 0


if __name__ == "__main__":
    sys.exit(main())
