#!/usr/bin/env python3
"""Moves the theorems and lemmas of each crate from specs/ to proofs/, with their statements and proofs as they stand.

usage: theorems.py [--list]        at the top of the repository, after rename.py; --list only prints what would move

A definition stays: all that the clauses of the sources, the statements of a crate's Promises or a must-fail edit of a definition
name, and all that these name in turn. The rest, laws and what only they use, is moved to the module of the same name below proofs/.
A section (`module _ ..`) of both kinds becomes two with the same head. Imports follow, here and in the must-fail edits, and a name
that the moved part needs becomes public.
"""

import glob
import os
import re
import sys

NAME = r"[^\s(){}.;,@\"]+"
DECL = re.compile(rf"^((?:abbrev |unfoldable )?(?:pub )?(?:abbrev |unfoldable )?)({NAME})(?: \{{[^}}]*\}})* :(?:\s|$)")
TYPE = re.compile(rf"^(?:pub )?(?:record|data) ({NAME})")
USE = re.compile(r"^(pub |ghost )?use (\S+?)(?:\.\{(.*)\}| as (\S+?))?;?$", re.S)
WORD = re.compile(r"[^\s(){}\[\].;,@\"«»`\\:]+")


def read(path):
    with open(path, encoding="utf-8", newline="") as it:
        return it.read()


def write(path, text):
    os.makedirs(os.path.dirname(path), exist_ok=True)
    with open(path, "w", encoding="utf-8", newline="") as it:
        it.write(text)


def bare(text):
    return "\n".join(re.sub(r"(^|\s)--.*", "", line) for line in text.split("\n"))


class Item:
    """A part of a file: a use line, a mod line, a declaration with its clauses, or a section."""

    def __init__(self, kind, pre, lines):
        self.kind, self.pre, self.lines = kind, pre, lines
        self.names, self.definition, self.own = [], False, []

    def text(self):
        return "\n".join(self.lines)

    def only_head(self):
        return Item("head", [], [self.head])


def split(lines):
    items, pre, at = [], [], 0
    while at < len(lines):
        line = lines[at]
        if not line.strip() or line.startswith("--"):
            pre.append(line)
            at += 1
            continue
        end = at + 1
        while end < len(lines) and (not lines[end].strip() or lines[end].startswith(" ")):
            end += 1
        while not lines[end - 1].strip():
            end -= 1
        part = lines[at:end]
        if re.match(r"(pub )?use ", line):
            item = Item("use", pre, part)
        elif re.match(r"(pub )?mod ", line):
            item = Item("mod", pre, part)
        elif line.startswith("module "):
            item = Item("section", pre, part)
            head = next(i for i, it in enumerate(part) if re.search(r"\bwhere$", it)) + 1
            item.head = "\n".join(part[:head])
            body = [it[2:] if it.startswith("  ") else it for it in part[head:]]
            item.own = split(body)[0]
            item.names = [n for it in item.own for n in it.names]
            item.definition = any(it.definition for it in item.own)
        elif TYPE.match(line):
            item = Item("type", pre, part)
            item.names = [TYPE.match(line)[1]]
            if re.match(r"(pub )?data ", line):
                item.names += re.findall(rf"(?m)^ +(?:pub )?({NAME}) :", item.text())
            item.definition = True
        elif re.match(r"infix", line):
            item = Item("type", pre, part)
            item.definition = True
        elif DECL.match(line):
            item = Item("decl", pre, part)
            found = DECL.match(line)
            item.names = [found[2]]
            item.definition = "abbrev" in found[1] or "unfoldable" in found[1]
        else:
            if items and items[-1].kind == "decl":
                items[-1].lines += pre + part
            else:
                sys.exit(f"what is this: {line}")
            pre, at = [], end
            continue
        items.append(item)
        pre, at = [], end
    return items, pre


class Module:
    def __init__(self, path):
        self.path = path
        self.crate = path.split("/")[1]
        self.name = path.split("/specs/", 1)[1][: -len(".antt")].replace("/", ".")
        self.items, self.tail = split(read(path).rstrip("\n").split("\n"))
        self.head = []
        if self.items and self.items[0].pre:
            pre = self.items[0].pre
            cut = next((i for i, it in enumerate(pre) if not it.strip()), len(pre)) if self.items[0].kind != "use" else len(pre)
            self.head, self.items[0].pre = pre[:cut], pre[cut:]
        self.declared = {n: it for it in self.items if it.kind in ("decl", "type", "section") for n in it.names}

    def key(self):
        return f"Rattle.{self.crate}.specs.{self.name}"


def uses(items):
    for it in items:
        if it.kind == "use":
            m = USE.match(re.sub(r"\s*\n\s*", " ", it.text()))
            if not m:
                sys.exit(f"which use is this: {it.text()}")
            yield it, m


def listed(names):
    return [n.strip() for n in (names or "").split(",") if n.strip()]


def origin(modules, path, name, seen=0):
    """The module that declares a name which path exports, or None."""
    m = modules.get(path)
    if not m or seen > 9:
        return None
    if name in m.declared:
        return m
    for it, u in uses(m.items):
        if u[1] == "pub " and name in [n.split(" as ")[-1] for n in listed(u[3])]:
            return origin(modules, u[2], name, seen + 1)
    return None


def scope(modules, m):
    """What a module's texts may name: word -> (module, name)."""
    out = {n: (m, n) for n in m.declared}
    for it, u in uses(m.items):
        for n in listed(u[3]):
            given, _, local = n.partition(" as ")
            o = origin(modules, u[2], given)
            if o:
                out[local or given] = (o, given)
    return out


def aliases(items):
    return {u[4]: u[2] for it, u in uses(items) if u[4]}


def named(text):
    """The words of a text that it does not bind itself, and those after an alias: (alias, word)."""
    text = bare(text)
    bound = set()
    for group in re.findall(rf"[({{]((?:{NAME} )+):(?=\s)", text) + re.findall(r"λ ([^.]*)\.\s", text):
        bound |= set(group.split())
    bound |= set(re.findall(rf"\blet ({NAME}) [:=]", text)) | set(re.findall(rf"(?:[{{;]|^) *({NAME}) =(?=\s)", text, re.M))
    first = DECL.match(text.strip().split("\n")[0]) if text.strip() else None
    bound.discard(first[2] if first else None)
    if TYPE.match(text.strip()):
        bound |= set(re.findall(rf"(?m)^ +(?:pub )?({NAME}) :", text))
    words = {m.group(0) for m in WORD.finditer(text) if not (text[: m.start()].endswith(".") and not text[: m.start()].endswith(".."))}
    return words - bound, set(re.findall(r"(?<![\w.])([a-z_]\w*)\.([^\s(){}\[\].;,@\"]+)", text))


def explicit(head):
    """The explicit parameters of a section's head."""
    out, depth, text = [], 0, ""
    for c in head:
        if c in "({":
            depth += 1
            if depth == 1:
                text, kind = "", c
                continue
        elif c in ")}":
            depth -= 1
            if depth == 0 and kind == "(":
                out += text.split(" :")[0].split()
        if depth:
            text += c
    return out


def applied(line, names, given):
    """A line in which each of a section's names is applied to the section's parameters."""
    if line.strip().startswith(("unfolding ", "--")) or not given:
        return line

    def one(m):
        before = line[: m.start()]
        if m.group(0) not in names or before.endswith("."):
            return m.group(0)
        return f"({m.group(0)} {' '.join(given)})"

    return WORD.sub(one, line)


def met(name, words):
    """Whether a text of these words has this name, or this operator's parts."""
    return name == "[]" or all(p in words for p in name.split("◌") if p)


def main():
    modules = {}
    for path in sorted(glob.glob("crates/*/specs/**/*.antt", recursive=True)):
        m = Module(path)
        modules[m.key()] = m
    stays, todo = set(), []

    def keep(m, n):
        item = m.declared[n]
        if item.kind == "section":
            inner = next(i for i in item.own if n in i.names)
            if id(inner) not in stays:
                stays.add(id(inner))
                todo.append((m, inner))
                todo.append((m, item.only_head()))
        elif id(item) not in stays:
            stays.add(id(item))
            todo.append((m, item))

    for path in glob.glob("crates/*/src/**/*.rt", recursive=True):
        for where, names in re.findall(r"ghost use (Rattle\.\w+\.specs[\w.]*)\.\{([^}]*)\}", read(path)):
            for n in listed(names):
                o = origin(modules, where, n.split(" as ")[0])
                if o:
                    keep(o, n.split(" as ")[0])
    scopes = {k: scope(modules, m) for k, m in modules.items()}

    def definition(m, n):
        item = m.declared[n]
        return item.definition if item.kind != "section" else any(i.definition and n in i.names for i in item.own)

    def statements(items):
        for it in items:
            if it.kind == "section":
                yield it.head
                yield from statements(it.own)
            elif it.kind == "decl":
                clause = next((i for i, line in enumerate(it.lines) if i and not line.startswith(" ")), len(it.lines))
                yield "\n".join(it.lines[:clause])

    def close():
        while todo:
            m, item = todo.pop()
            text = item.text()
            words, dotted = named(text)
            known, short = scopes[m.key()], aliases(m.items)
            for w in known:
                if met(w, words):
                    keep(*known[w])
            for a, w in dotted:
                if a in short:
                    o = origin(modules, short[a], w)
                    if o:
                        keep(o, w)

    def plain():
        return {id(i) for m in modules.values() for it in m.items for i in (it.own or [it]) if i.kind == "decl" and not i.definition}

    for path in glob.glob("crates/*/must-fail/*.edit"):
        folder = path.split("/must-fail/")[0].replace("crates/", "Rattle.")
        file = ""
        for line in read(path).split("\n"):
            if line.startswith("file: "):
                file = line[6:].strip()
            elif line.startswith("old: ") and file.startswith("specs/"):
                m = modules.get(f"{folder}.{file[:-5].replace('/', '.')}")
                for it in m.items if m else ():
                    for i in it.own if it.kind == "section" else [it]:
                        if i.definition and line[5:] in it.text() and i.names and line[5:].strip() in "\n".join(i.lines):
                            keep(m, i.names[0])
    close()
    # A definition that only a promise is stated in stays unless a law is part of it.
    laws = plain()
    for m in modules.values():
        if m.name in ("Promises", "Theorems"):
            for text in statements(m.items):
                words, dotted = named(text)
                known, short = scopes[m.key()], aliases(m.items)
                asked = [known[w] for w in known if met(w, words)]
                asked += [(o, w) for a, w in dotted if a in short for o in [origin(modules, short[a], w)] if o]
                for o, w in asked:
                    if definition(o, w):
                        before = set(stays)
                        keep(o, w)
                        close()
                        if (stays - before) & laws:
                            stays.clear()
                            stays.update(before)
    moved = {}
    for k, m in modules.items():
        moved[k] = {n for it in m.items if it.kind in ("decl", "type", "section") for i in (it.own or [it]) for n in i.names if id(i) not in stays}

    def goes(path, name):
        o = origin(modules, path, name)
        return bool(o) and name in moved[o.key()]

    # A module of proofs/ that would differ from one of the sources by case alone is named for its laws.
    taken = {}
    for path in glob.glob("crates/*/src/**/*.rt", recursive=True):
        crate, inner = path.split("/")[1], path.split("/src/")[1]
        if "/" not in inner:
            taken.setdefault(crate, set()).add(inner[:-3])
            if inner in ("lib.rt", "main.rt"):
                taken[crate] |= set(re.findall(r"\bfn (\w+)", read(path)))

    def beside(crate, name):
        first, _, more = name.partition(".")
        if first.lower() in taken.get(crate, ()):
            first += "Laws"
        return first + ("." + more if more else "")

    def proofs(path):
        _, crate, _, name = path.split(".", 3)
        return f"Rattle.{crate}.proofs.{beside(crate, name)}"

    count = sum(len(v) for v in moved.values())
    each = [(k, i) for k, m in modules.items() for it in m.items if it.kind in ("decl", "type", "section") for i in (it.own or [it])]
    left = [(k, i.names[0]) for k, i in each if id(i) in stays and i.kind == "decl" and not i.definition]
    inside = [(k, i.names[0]) for k, i in each if id(i) not in stays and i.definition and i.names]
    if "--list" in sys.argv:
        for k, v in sorted(moved.items()):
            for n in modules[k].declared:
                if n in v:
                    print(f"{k}.{n}")
        print(f"{count} move, {len(inside)} of them definitions; {len(left)} that are not marked as definitions stay", file=sys.stderr)
        for k, n in left:
            print(f"stays: {k}.{n}", file=sys.stderr)
        for k, n in inside:
            print(f"moves: {k}.{n}", file=sys.stderr)
        return

    def retarget(text, line_prefix):
        """Splits the imports of a file after what moved, aliases too."""

        def one(m):
            lead, kind, path, names, alias, end = m[1], m[2] or "", m[3], m[4], m[5], m[6]
            if path not in modules:
                return m[0]
            if alias:
                used = set(re.findall(rf"(?<![\w.]){re.escape(alias)}\.([^\s(){{}}\[\].;,@\"]+)", text))
                there = {n for n in used if goes(path, n)}
                if not there:
                    return m[0]
                if there == used:
                    return f"{lead}{kind}use {proofs(path)} as {alias}{end}"
                renames.append((alias, there))
                return f"{lead}{kind}use {path} as {alias}{end}\n{lead}{kind}use {proofs(path)} as {alias}_laws{end}"
            here, there = [], []
            for n in listed(re.sub(r"\s*\n\s*", " ", names)):
                (there if goes(path, n.split(" as ")[0]) else here).append(n)
            out = [f"{lead}{kind}use {p}.{{{', '.join(ns)}}}{end}" for p, ns in ((path, here), (proofs(path), there)) if ns]
            return "\n".join(out)

        renames = []
        form = re.compile(r"(?m)^()((?:pub |ghost )?)use (Rattle\.\w+\.specs\.[\w.']*?)(?:\.\{([^}]*)\}| as (\w+))(;?)$")
        new = form.sub(one, text)
        for alias, there in renames:
            for n in there:
                new = re.sub(rf"(?<![\w.]){re.escape(alias)}\.{re.escape(n)}(?![^\s(){{}}\[\].;,@\"])", f"{alias}_laws.{n}", new)
        return new

    def pruned(items, text):
        """The use lines of items whose names the text has."""
        words = set(WORD.findall(bare(text)))
        short = {a for a, _ in named(text)[1]}
        out = []
        for it, u in uses(items):
            if u[4]:
                if u[4] in short or u[4] in words:
                    out.append(it.text())
                continue
            if not u[3]:
                out.append(it.text())
                continue
            keepers = []
            for n in listed(u[3]):
                if met(n.split(" as ")[-1], words):
                    keepers.append(n)
            if keepers:
                out.append(f"{u[1] or ''}use {u[2]}.{{{', '.join(keepers)}}}")
        return out

    def part(item, keeps):
        """The part of an item that stays, or that goes, or None."""
        if item.kind != "section":
            return item if (id(item) in stays) == keeps else None
        own = [i for i in item.own if (id(i) in stays) == keeps]
        if not own:
            return None
        if len(own) == len(item.own):
            out = Item(item.kind, item.pre, item.lines)
        else:
            inner = [line for i in own for line in i.pre + i.lines]
            if not keeps:
                left = {n for i in item.own if id(i) in stays for n in i.names}
                given = explicit(item.head)
                inner = [applied(line, left, given) for line in inner]
            while inner and not inner[0].strip():
                inner.pop(0)
            pre = item.pre if keeps or not any(line.startswith("-- ") for line in item.pre) else [""]
            out = Item(item.kind, pre, item.head.split("\n") + ["  " + line if line.strip() else line for line in inner])
        out.own, out.head = own, item.head
        out.names = [n for i in own for n in i.names]
        return out

    files = {}
    nodes = {}
    for k, m in modules.items():
        rest = [it for it in m.items if it.kind not in ("use", "mod")]
        here = [p for it in rest for p in [part(it, True)] if p]
        there = [p for it in rest for p in [part(it, False)] if p]
        again = [(it, u) for it, u in uses(m.items) if u[1] == "pub "]
        back = [(it, [n for n in listed(u[3]) if goes(u[2], n)], u) for it, u in again]
        if not there and not any(ns for _, ns, _ in back):
            continue
        mods = [it for it in m.items if it.kind == "mod"]
        plain = [it for it in m.items if it.kind == "use" and not it.text().startswith("pub ")]
        body = lambda items: "\n".join(line for it in items for line in it.pre + it.lines)
        # what the moved part names of its own module
        words = set(WORD.findall(bare(body(there))))
        needed = [n for it in here for n in it.names if met(n, words)]
        for it in here:
            for i in it.own if it.kind == "section" else [it]:
                if any(n in needed for n in i.names) and not re.match(r"(abbrev |unfoldable )?pub |infix", i.lines[0]):
                    new = re.sub(r"^((?:abbrev |unfoldable )?)", r"\1pub ", i.lines[0], 1)
                    if it.kind == "section":
                        it.lines = ["  " + new if line == "  " + i.lines[0] else line for line in it.lines]
                    else:
                        it.lines[0] = new
        text = body(there)
        assumes = [line for line in m.head if line.startswith("-- Assumes nothing")]
        out = ["-- What follows from the definitions of the same name in specs/."] if here or mods else m.head
        out = out + (assumes if here or mods else [])
        out += pruned(plain, text)
        if needed:
            out.append(f"use {k}.{{{', '.join(dict.fromkeys(needed))}}}")
        for it, ns, u in back:
            if ns:
                out += [line for line in it.pre if line.strip()] + [f"pub use {u[2]}.{{{', '.join(ns)}}}"]
        out += [""] + text.strip("\n").split("\n")
        name = beside(m.crate, m.name)
        files[f"crates/{m.crate}/proofs/{name.replace('.', '/')}.antt"] = "\n".join(out).rstrip("\n") + "\n"
        nodes.setdefault(m.crate, set()).add(name)
        # what is left
        stay = [it for it, u in again if any(not goes(u[2], n) for n in listed(u[3]))]
        if here or mods or stay:
            text = body(here)
            lines = list(m.head) + pruned(plain, text)
            for it in stay:
                u = USE.match(it.text())
                lines += it.pre + [f"pub use {u[2]}.{{{', '.join(n for n in listed(u[3]) if not goes(u[2], n))}}}"]
            lines += [line for it in mods for line in it.pre + it.lines]
            if text:
                lines += [""] + text.strip("\n").split("\n")
            files[m.path] = "\n".join(lines).rstrip("\n") + "\n"
        else:
            files[m.path] = None
    for path, text in files.items():
        if text is None:
            os.remove(path)
        else:
            write(path, text)
    # the lines that declare the modules
    for path, text in files.items():
        if text is None:
            folder, base = os.path.split(path)
            node = folder + "/Lib.antt" if folder.endswith("/specs") else folder + ".antt"
            name = base[: -len(".antt")]
            if os.path.isfile(node):
                write(node, re.sub(rf"(?m)^(pub )?mod {name}\n?", "", read(node)))
    for crate, names in nodes.items():
        wanted = {}
        for name in names:
            parts = name.split(".")
            for i in range(len(parts)):
                wanted.setdefault("/".join(parts[:i]), set()).add(parts[i])
        for folder, subs in wanted.items():
            node = f"crates/{crate}/proofs/{folder}.antt" if folder else f"crates/{crate}/proofs/Lib.antt"
            text = read(node) if os.path.isfile(node) else ""
            lines = [f"pub mod {s}" for s in sorted(subs) if not re.search(rf"(?m)^pub mod {s}$", text)]
            text = re.sub(rf"(?m)^mod ({'|'.join(sorted(subs))})$\n?", "", text)
            head, rest = [], text.rstrip("\n").split("\n") if text.strip() else []
            while rest and rest[0].startswith("--"):
                head.append(rest.pop(0))
            write(node, "\n".join(head + lines + rest) + "\n")
    # imports, everywhere
    for path in sorted(glob.glob("crates/*/*/**/*.antt", recursive=True) + glob.glob("crates/*/src/**/*.rt", recursive=True)):
        if "/out/" in path:
            continue
        text = read(path)
        new = retarget(text, "")
        if new != text:
            write(path, new)
    # the must-fail edits
    for path in sorted(glob.glob("crates/*/must-fail/*.edit")):
        folder = path.split("/must-fail/")[0]
        lines, out = read(path).split("\n"), []
        for i, line in enumerate(lines):
            if line.startswith("file: specs/"):
                old = next((it[5:] for it in lines[i:] if it.startswith("old: ")), None)
                file = line[6:].strip()
                inner = file[len("specs/") : -len(".antt")].replace("/", ".")
                other = f"proofs/{beside(folder.split('/')[1], inner).replace('.', '/')}.antt"
                has = lambda it: os.path.isfile(f"{folder}/{it}") and old is not None and old in read(f"{folder}/{it}")
                if not has(file) and (has(other) or not os.path.isfile(f"{folder}/{file}")):
                    line = f"file: {other}"
            out.append(line)
        if out != lines:
            write(path, "\n".join(out))
    print(f"{count} theorems and lemmas moved")


if __name__ == "__main__":
    main()
