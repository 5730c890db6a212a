#!/usr/bin/env python3
"""Spells the repository's own definitions and lemmas as the language spells them: words in snake case.

usage: rename.py        at the top of the repository, after the kit's port.py

names.tsv beside this file has each name and its spelling. A lemma whose name would fall together with a definition's gets `_lem`.
Rewrites specs, lemmas and proofs, the clauses and `ghost use` items of the sources, the must-fail edits, and the names that the
documents put between backquotes. Names of files, modules, functions and types stay.
"""

import glob
import os
import re

HERE = os.path.dirname(os.path.realpath(__file__))
WORD = r"[^\s(){}\[\].;,@\"«»`\\:/]+"
TOKEN = re.compile(r"--[^\n]*|\"(?:[^\"\\]|\\.)*\"|«[^»]*»|" + WORD)
# A local name with a dash, in a file that cites no step of a function's proof.
LOCAL = re.compile(r"[a-z][a-z0-9]*(-[a-z0-9]+)+'?$")
# Lemmas that port.py spelled like a definition, where they are declared or imported from.
LEMMAS = {
    "step_call": r"Rattle\.exported\.specs\.Numbers",
    "written_back": r"Rattle\.rewriting\.specs\.Promises",
    "term_told": r"Rattle\.simulation\.specs\.Told",
    "key_fits": r"Rattle\.layouts\.specs\.Promises",
}


def table():
    with open(os.path.join(HERE, "names.tsv"), encoding="utf-8") as it:
        return dict(line.rstrip("\n").split("\t") for line in it)


def read(path):
    with open(path, encoding="utf-8", newline="") as it:
        return it.read()


def write(path, text):
    with open(path, "w", encoding="utf-8", newline="") as it:
        it.write(text)


def imported(text):
    """The names that a file takes from the kit's libraries: these are not the repository's."""
    out = set()
    for module, names in re.findall(r"(?m)^(?:ghost )?(?:pub )?use ([^\s{]+)\.\{([^}]*)\}", text):
        if not re.match(r"Rattle\.(?!std\b)", module):
            out |= {one.strip().split(" as ")[0] for one in names.split(",")}
    return out


def lemmas_of(path, text):
    """The lemmas of LEMMAS that this file declares or imports."""
    crate = path.split("crates/")[1].split("/")[0] if "crates/" in path else ""
    out = {}
    for name, module in LEMMAS.items():
        own = re.sub(r"\\", "", module).split(".")
        declares = path.endswith(f"crates/{own[1]}/specs/{own[3]}.antt")
        takes = re.search(rf"(?m)^(?:ghost )?use {module}\.\{{[^}}]*\b{name}\b", text)
        if crate and (declares or takes):
            out[name] = name + "_lem"
    return out


def spelled(text, names, skip, local, comments, steps=()):
    def one(m):
        it = m.group(0)
        if it.startswith("--"):
            return comments(it)
        if it[0] in "\"«":
            return it
        before = text[: m.start()]
        bare = not before.endswith(".") or before.endswith("..")
        if it in skip and bare or it in steps and not bare:
            return it
        if it in names and (bare or it.find("-") > 0 or re.search("[a-z][A-Z]", it)):
            return names[it]
        if local and bare and LOCAL.match(it):
            return it.replace("-", "_")
        return it

    return TOKEN.sub(one, text)


def quoted(text, names):
    """Renames in prose: between backquotes, and after a module's path."""

    def part(it):
        return re.sub(r"(?<![\w'-])[A-Za-z][\w'-]*(?![\w'-])", lambda m: names.get(m.group(0), m.group(0)), it)

    text = re.sub(r"`[^`\n]+`", lambda m: part(m.group(0)), text)
    return re.sub(r"(?<=[A-Za-z]\.)[a-z][\w'-]*(?![\w'-])", lambda m: names[m.group(0)] if "-" in m.group(0) and m.group(0) in names else m.group(0), text)


def main():
    names = table()
    prose = lambda it: quoted(it, names)
    sources = "\n".join(read(it) for it in glob.glob("crates/*/src/**/*.rt", recursive=True))
    # In a proof by hand a call's step is named by its function.
    functions = {it.replace("_", "-") for it in re.findall(r"\bfn (\w+)", sources)}
    for path in sorted(glob.glob("crates/*/*/**/*.antt", recursive=True)):
        if "/out/" in path:
            continue
        text = read(path)
        base = os.path.basename(path)
        local = base not in ("Proof.antt", "Answers.antt", "Invariants.antt")
        own = names | lemmas_of(path, text)
        new = spelled(text, own, imported(text), local, prose, () if local else functions)
        if new != text:
            write(path, new)
    for path in sorted(glob.glob("crates/*/src/**/*.rt", recursive=True)):
        text = read(path)
        skip = imported(text)
        lines = []
        for line in text.split("\n"):
            at = line.find("//")
            code, note = (line, "") if at < 0 else (line[:at], line[at:])
            if re.match(r"\s*(ghost|requires|ensures|also_|#\[tactic)", code) or not re.match(r"\s*[\w#}{)&*(\[]", code) or "ghost" in code:
                code = spelled(code, names, skip, False, prose)
            lines.append(code + prose(note))
        new = "\n".join(lines)
        if new != text:
            write(path, new)
    for path in sorted(glob.glob("crates/*/must-fail/*.edit")):
        text = read(path)
        new = "\n".join(line if line.startswith("file:") else spelled(line, names, {"old", "new"}, False, lambda it: it) for line in text.split("\n"))
        if new != text:
            write(path, new)
    pages = ["README.md", "CONTRIBUTING.md", "CHANGELOG.md", *glob.glob("docs/**/*.md", recursive=True), *glob.glob("reference/**/*.md", recursive=True)]
    for path in sorted(set(pages)):
        if os.path.isfile(path) and not path.endswith(("PORT.md",)):
            text = read(path)
            new = quoted(text, names)
            if new != text:
                write(path, new)


main()
