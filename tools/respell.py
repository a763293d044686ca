#!/usr/bin/env python3
"""Respells the repository's own definitions, lemmas, record fields and bound variables in snake case.

usage: python3 tools/respell.py          at the top of the repository, once, after the toolchain's own script port.py
       python3 tools/respell.py --list   prints the names that it would respell, and writes nothing

A name is respelled where a file of specs/ or proofs/ declares or binds it with a dash or with a capital inside. Names that Rattle makes,
as those of goals, are left alone, and so are names of the library and functions of src/.
"""

import os
import re
import sys

NAME = r"[^\s(){}\[\],.:;λ→⟨⟩«»\"·∙]+"
DECLARED = re.compile(rf"^\s*(?:abbrev |unfoldable )?(?:pub )?({NAME}) : (?!goal\.)")
FIELD = re.compile(rf"^\s+pub ({NAME}) : ")
BINDERS = (
    re.compile(rf"[({{]((?:{NAME} )+): "),
    re.compile(r"λ ([^.()]*)\."),
    re.compile(rf"\blet ({NAME}) "),
    re.compile(rf"^\s*{NAME} ([^=]*) =(?: |$)"),
)
LIBRARY = re.compile(r"^\s*(?:ghost )?use (?:Rattle\.std|Prim|native|borrow|mathlib|lib)\b[^{]*\{([^}]*)\}")


def respelled(name):
    name = re.sub(r"(?<=[a-z])([A-Z])", lambda m: "-" + m.group(1).lower(), name) if name[0].islower() else name
    return name.replace("-", "_")


def is_plain(name):
    return re.fullmatch(r"[a-z][A-Za-z0-9'_-]*", name) and respelled(name) != name


def files():
    for folder, dirs, names in os.walk("crates"):
        dirs[:] = sorted(d for d in dirs if d not in ("out", "target"))
        for f in sorted(names):
            if f.endswith((".rt", ".antt")):
                yield os.path.join(folder, f)


def code(line):
    return "" if line.lstrip().startswith("--") else line


def collect():
    declared, fields, bound, library, source = set(), set(), set(), set(), set()
    for path in files():
        with open(path, encoding="utf-8") as f:
            lines = f.read().split("\n")
        for line in lines:
            m = LIBRARY.match(line)
            if m:
                library.update(n.strip() for n in m.group(1).split(","))
            if path.endswith(".rt"):
                source.update(re.findall(r"\bfn (\w+)", line))
                continue
            line = code(line)
            m = DECLARED.match(line)
            if m:
                declared.add(m.group(1))
            m = FIELD.match(line)
            if m:
                fields.add(m.group(1))
            for b in BINDERS:
                for m in b.finditer(line):
                    bound.update(re.findall(rf"(?<![.\w-]){NAME}", m.group(1)))
    own = {n for n in declared | bound if is_plain(n)} - library
    return own, {n for n in fields if is_plain(n)}, declared, library, source


def main():
    own, fields, declared, library, source = collect()
    table = {n: respelled(n) for n in sorted(own | fields)}
    if sys.argv[1:] == ["--list"]:
        for old, new in table.items():
            notes = []
            if new in declared:
                notes.append("falls together with a name that is declared")
            if new in library:
                notes.append("falls together with a name of the library")
            if new in source:
                notes.append("a function of src/ has this name")
            if [o for o, n in table.items() if n == new] != [old]:
                notes.append("two names become one")
            print(f"{old} {new}" + "".join(f" ({n})" for n in notes))
        return
    word = re.compile(r"(?<![\w'\-·«])(\.?)([A-Za-z][\w']*(?:-[\w'ℕ]+)*)(?![\w'\-»])")

    def turn(m):
        dot, name = m.group(1), m.group(2)
        if name not in table or (dot and name not in fields):
            return m.group(0)
        return dot + table[name]

    changed = 0
    for path in files():
        with open(path, encoding="utf-8") as f:
            text = f.read()
        if path.endswith(".rt"):
            new = clauses(text, lambda t: word.sub(turn, t))
        else:
            new = "\n".join(line if line.lstrip().startswith("--") else word.sub(turn, line) for line in text.split("\n"))
        if new != text:
            changed += 1
            with open(path, "w", encoding="utf-8") as f:
                f.write(new)
    print(f"respell: {len(table)} names, {changed} files")


def clauses(text, turn):
    """The text with `turn` over its ghost items and its clauses alone."""
    out = []
    for line in text.split("\n"):
        out.append(turn(line) if re.match(r"\s*(ghost|pub ghost|requires|ensures)\b", line) else line)
    return "\n".join(out)


main()
