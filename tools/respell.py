#!/usr/bin/env python3
"""Brings the repository's own definitions and lemmas to the spelling of today's Rattle, after its own script has run.

usage: tools/respell.py [--list]       at the top of the repository, once; --list prints what it would rename and writes nothing

Words of specs/ and proofs/ go to snake case: `workRoom` to `work_room`, `cell-lt` to `cell_lt`; a fact in lower case gets its capital. Types, modules,
constructors, functions of src/, strings and must-fail edits of code keep theirs. Where a lemma would fall together with another name it gets `_lem`.
The file specs/Contracts.antt of `cells` becomes specs/Promises.antt, since the prover makes a module of that name.
"""
import os
import re
import sys

NAME = r"[^\s:(){}\[\],;.λ⌜⌝\"`«»@=]+"
SIGNATURE = re.compile(r"(?m)^ *(?:abbrev |unfoldable |pub |data |record |ruleset )*(" + NAME + r")(?= *(?:\{[^}\n]*\} *|\([^)\n]*\) *)*:(?!:))")
APART = re.compile(r"--.*|//.*|\"(?:[^\"\\\n]|\\.)*\"")
TOKEN = re.compile(r"(?<![\w'₀-₉′-])[A-Za-z][\w'₀-₉-]*")
# facts whose names began in lower case
FACTS = {"acceptedTo": "AcceptedTo"}


def files():
    for folder, dirs, names in os.walk("crates"):
        dirs[:] = sorted(d for d in dirs if d != "out")
        for name in sorted(names):
            yield os.path.join(folder, name)


def snake(name):
    return re.sub(r"(?<=[a-z0-9₀-₉])[A-Z]", lambda m: "_" + m[0].lower(), name).replace("-", "_")


def own():
    """Every name that a file of specs/ or of proofs/ (but for the walks of a function, which are proved anew) declares."""
    names = set()
    for path in files():
        if path.endswith(".antt") and not path.endswith("Proof.antt"):
            with open(path, encoding="utf-8") as f:
                names |= set(SIGNATURE.findall(f.read()))
    return names


def library():
    """Names that files import from outside the repository: these stay."""
    crates = {c for c in os.listdir("crates")}
    names = set()
    for path in files():
        if path.endswith((".antt", ".rt")):
            with open(path, encoding="utf-8") as f:
                for where, items in re.findall(r"use ([\w.·]+?)\.\{([^}]*)\}", f.read()):
                    parts = re.split(r"[.·]", where)
                    if not (parts[0] == "Rattle" and len(parts) > 1 and parts[1] in crates):
                        names |= {i.strip().split(" as ")[0] for i in items.split(",")}
    return names


def plan():
    names = own()
    kept = library()
    taken = {n for n in names if n == snake(n)} | kept
    turned = {}
    for n in sorted(names, key=lambda n: ("-" in n, n)):
        if n in FACTS:
            turned[n] = FACTS[n]
            continue
        if n in kept or not n[:1].islower() or n == snake(n) or not re.fullmatch(r"[A-Za-z][\w'₀-₉-]*", n):
            continue
        to = snake(n)
        if to in taken:
            to += "_lem" if "-" in n else "_of"
        if to in taken:
            raise SystemExit(f"respell: {n} falls together with another name as {to}")
        taken.add(to)
        turned[n] = to
    return turned


def turn(text, turned):
    def word(m):
        n = m[0]
        to = turned.get(n, n)
        # behind a dot stands a field, or what a function of src/ left: that one has no `_lem`
        return snake(n) if to.endswith("_lem") and m.string[m.start() - 1 : m.start()] == "." else to

    def gap(m):
        s = m[0]
        if s.startswith('"'):
            return s
        # a comment: names in backticks, and names that are no words of plain text
        s = re.sub(r"`[^`\n]*`", lambda q: TOKEN.sub(word, q[0]), s)
        return TOKEN.sub(lambda w: turned.get(w[0], w[0]) if "-" not in w[0] and re.search(r"[a-z][A-Z]", w[0]) else w[0], s)

    out, at = [], 0
    for m in APART.finditer(text):
        out.append(TOKEN.sub(word, text[at : m.start()]))
        out.append(gap(m))
        at = m.end()
    out.append(TOKEN.sub(word, text[at:]))
    return "".join(out)


def clauses(text, turned):
    """A source: only `ghost use` lines, clauses and comments speak of the definitions."""
    out, at = [], 0
    for m in re.finditer(r"(?m)^ *ghost use [^;]*;|^ *(?:requires|ensures)\*? ?(?:[a-z_0-9]+ )?\{.*\}$|//.*$", text):
        out.append(text[at : m.start()])
        out.append(turn(m[0], turned))
        at = m.end()
    out.append(text[at:])
    return "".join(out)


def main():
    turned = plan()
    if "--list" in sys.argv:
        for n, to in turned.items():
            print(n, to)
        return
    old, new = "crates/cells/specs/Contracts.antt", "crates/cells/specs/Promises.antt"
    if os.path.exists(old):
        os.rename(old, new)
    for path in list(files()):
        if not path.endswith((".antt", ".rt")):
            continue
        with open(path, encoding="utf-8") as f:
            text = f.read()
        now = text.replace("Rattle.cells.specs.Contracts.", "Rattle.cells.specs.Promises.")
        if path == "crates/cells/specs/Lib.antt":
            now = now.replace("pub mod Contracts", "pub mod Promises")
        now = clauses(now, turned) if path.endswith(".rt") else turn(now, turned)
        if now != text:
            with open(path, "w", encoding="utf-8") as f:
                f.write(now)


main()
