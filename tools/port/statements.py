#!/usr/bin/env python3
"""Compares the statements of all definitions, theorems and lemmas of two trees, wherever in a crate they stand.

usage: statements.py OLD NEW

OLD is the older repository after the kit's port.py, rename.py and theorems.py; NEW is this one. A statement is a declaration's
signature under the heads of its sections, or a whole record or data type, without comments, `pub` and layout. Prints what is gone,
what differs, and how many are the same. Proofs of functions (Proof, Answers, Invariants) are left out.
"""

import collections
import glob
import os
import re
import sys

from theorems import split

PROOFS = ("Proof.antt", "Answers.antt", "Invariants.antt")


def plain(text):
    text = re.sub(r"\s+", " ", text).strip()
    return re.sub(r"^((?:abbrev|unfoldable) )?pub ", r"\1", text)


def signature(item):
    """A declaration without its clauses; of a definition with them."""
    if item.definition:
        return plain(" ".join(item.lines))
    end = next((i for i, line in enumerate(item.lines) if i and not line.startswith(" ")), len(item.lines))
    return plain(" ".join(item.lines[:end]))


def statements(root):
    out = collections.defaultdict(list)

    def go(crate, items, head):
        for it in items:
            if it.kind == "section":
                go(crate, it.own, head + plain(it.head) + " | ")
            elif it.kind in ("decl", "type") and it.names:
                lines = [line for line in it.lines if not line.strip().startswith("--")]
                text = signature(it) if it.kind == "decl" else plain(" ".join(lines))
                out[crate, it.names[0]].append(head + text)

    for part in ("specs", "proofs"):
        for path in sorted(glob.glob(f"{root}/crates/*/{part}/**/*.antt", recursive=True)):
            inner = os.path.relpath(path, root).split(os.sep)
            if "out" in inner or part == "proofs" and len(inner) > 4 and inner[-1] in PROOFS:
                continue
            with open(path, encoding="utf-8") as it:
                lines = it.read().rstrip("\n").split("\n")
            try:
                go(inner[1], split(lines)[0], "")
            except SystemExit as why:
                print(f"not read: {path}: {why}")
    return out


def main():
    old, new = statements(sys.argv[1]), statements(sys.argv[2])
    same = 0
    for key, were in old.items():
        are = new.get(key)
        if are is None:
            print(f"gone: {key[0]} {key[1]}")
        elif sorted(were) != sorted(are):
            print(f"differs: {key[0]} {key[1]}")
            for mark, some, others in (("-", were, are), ("+", are, were)):
                for text in some:
                    if text not in others:
                        print(f"    {mark} {text}")
        else:
            same += 1
    print(f"{same} the same; {sum(k not in old for k in new)} new")


if __name__ == "__main__":
    main()
