#!/usr/bin/env python3
"""Gives the definitions and lemmas of the crates the spelling of the library: snake case, with a dash only behind a name.

usage: python3 tools/respell.py [--show]     at the top of the repository; --show prints the table and writes nothing

A name declared in specs/ or proofs/ in camel case becomes snake case. A dash stays where the word before it is a declared or an imported name, as
in `add_all-cells`, but in a field of a record and in a definition of specs/ it becomes `_`, as elsewhere. A lemma that would get the
name of a function ends in `_lem`. A name that is also imported from outside
the repository, or declared by the language, keeps its spelling. Types, modules and what stands in src/ outside clauses keep theirs.
"""

import collections
import os
import re
import sys

WORD = re.compile(r"[^\s(){}.;,@\"`]+")
DECLARED = re.compile(r"^(\s*)((?:abbrev |unfoldable |private |pub )*)([^\s(){}.;,@\"`]+(?: [^\s(){}.;,@\"`:]+)*) : ", re.M)
IMPORT = re.compile(r"^\s*(?:pub )?(?:ghost )?use\s+([^\s;{]+?)(?:\.\{([^}]*)\})?(?:\s+as\s+\S+)?;?\s*$", re.M)
CAMEL = re.compile(r"(?<=[a-z0-9])([A-Z])")
PLAIN = re.compile(r"^[a-z][A-Za-z0-9_'-]*$")


def files(root):
    for folder, dirs, names in os.walk(os.path.join(root, "crates")):
        dirs[:] = sorted(d for d in dirs if d not in ("out", ".git"))
        for name in sorted(names):
            if name.endswith((".rt", ".antt", ".edit")):
                yield os.path.join(folder, name)


def snake(word):
    return CAMEL.sub(lambda m: "_" + m.group(1).lower(), word)


def main():
    root = os.getcwd()
    texts = {path: open(path, encoding="utf-8").read() for path in files(root)}
    crates = set(os.listdir(os.path.join(root, "crates")))
    declared, fields, lemmas, external = set(), set(), set(), set()
    for path, text in texts.items():
        for head, names in IMPORT.findall(text):
            parts = head.split(".")
            if parts[0] == "Rattle" and len(parts) > 1 and parts[1] in crates:
                continue
            for item in (names or "").split(","):
                external.update(w for w in item.split() if w != "as")
        if not path.endswith(".antt") or re.search(r"/proofs/[^/]+/", path):
            continue
        for indent, marks, names in DECLARED.findall(text):
            for name in names.split(" "):
                if not PLAIN.match(name):
                    continue
                declared.add(name)
                (fields if "/specs/" in path else lemmas).add(name)
    heads = {snake(n) for n in declared} | external

    def spelled(name):
        parts = [snake(p) for p in name.split("-")]
        out = parts[0]
        for i, part in enumerate(parts[1:]):
            joins = name not in fields and i == 0 and parts[0] in heads and parts[0] not in ("and", "or")
            out += ("-" if joins else "_") + part
        return out

    table = {n: spelled(n) for n in declared if n not in external}
    back = collections.defaultdict(set)
    for name in declared:
        back[table.get(name, name)].add(name)
    for name, olds in sorted(back.items()):
        if len(olds) > 1:
            print("together:", name, "<-", ", ".join(sorted(olds)))
            camel = any(re.search(r"[a-z][A-Z]", old) for old in olds)
            for old in olds:
                if old in lemmas and ("-" in old or camel and not re.search(r"[a-z][A-Z]", old)):
                    table[old] = name + "_lem"
    table = {a: b for a, b in table.items() if a != b}
    for name in sorted(table.values()):
        if name in external:
            print("outside:", name)
    if "--show" in sys.argv:
        for a, b in sorted(table.items()):
            print(a, b)
        return

    def code(text, rust=False):
        def word(m):
            w = m.group()
            return w if rust and not re.search(r"-|[a-z][A-Z]", w) else table.get(w, w)

        return WORD.sub(word, text)

    def prose(text):
        def word(m):
            w = m.group()
            return table.get(w, w) if re.search(r"[a-z][A-Z]", w) else w

        pieces = text.split("`")
        for i, piece in enumerate(pieces):
            pieces[i] = code(piece) if i % 2 else WORD.sub(word, piece)
        return "`".join(pieces)

    mark = {".antt": "-- ", ".rt": "//", ".edit": "# "}
    changed = 0
    for path, text in texts.items():
        sign = mark[os.path.splitext(path)[1]]
        lines = []
        rust = path.endswith(".rt")
        for line in text.split("\n"):
            at = line.find(sign)
            if path.endswith(".edit") and at != 0:
                at = -1
            if path.endswith(".antt") and line.strip() == "--":
                at = -1
            lines.append(code(line, rust) if at < 0 else code(line[:at], rust) + prose(line[at:]))
        new = "\n".join(lines)
        if new != text:
            open(path, "w", encoding="utf-8").write(new)
            changed += 1
    pages = [os.path.join(root, "README.md")]
    docs = os.path.join(root, "docs")
    pages += [os.path.join(docs, n) for n in sorted(os.listdir(docs)) if n.endswith(".md")]
    for path in pages:
        text = open(path, encoding="utf-8").read()
        new = prose(text)
        if new != text:
            open(path, "w", encoding="utf-8").write(new)
            changed += 1
    print(f"respell: {len(table)} names, {changed} files")


main()
