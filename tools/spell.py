#!/usr/bin/env python3
"""Spells the names that the crates' specs/ and proofs/ declare as today's Rattle does: words in snake case, types and modules in camel case.

usage: spell.py [--list]        at the top of the repository, once, after the kit's port.py

- A definition, a lemma or a field in small camel case gets underscores: rowType, row_type.
- A dash stays between two names, as in length-drop, and before a capital; before a plain word it is an underscore: put-unique, put_unique.
  A name is what specs/ define, and what the files take from the kit's library.
- The theorem that a Proof.antt proves is called after its function: all-zero-spec, all_zero_spec.
A name that would meet another keeps its spelling; a line that begins 'kept:' says so. --list only prints the names, old and new.
It turns .antt and .rt files and the texts of must-fail/*.edit, comments too. Functions of src/, exported names, strings and outputs keep theirs.
"""

import glob
import os
import re
import sys

TOKEN = re.compile(r"[^\s(){}.;,@\"«»`\[\]|:…]+")
HEAD = re.compile(r"^ *(?:(?:abbrev|unfoldable|pub|record|data|ruleset|infixl|infixr|infix) +)*([^\s(){}.;,@\"«»:]+)(?: (?:\([^()]*(?:\([^()]*\)[^()]*)*\)|\{[^{}]*\}))* :(?= |$)", re.M)
VARIANT = re.compile(r"^ +(?:pub )?([^\s(){}.;,@\"«»:]+)(?: (?:\([^()]*\)|\{[^{}]*\}))* : ", re.M)
USE = re.compile(r"\buse ([^\s;{]+)\.\{([^}]*)\}")
# lemmas whose names were their definitions' with a dash, and that port.py has spelled as today's definitions are
LEMMAS = {"some_bytes": "cases/proofs", "open_row": "record/proofs", "too_long": "spadeswirl/proofs"}
LETTERS = re.compile(r"^[\w'₀-₉-]+$")


def snake(piece):
    if not piece or piece[0].isupper():
        return piece
    return re.sub(r"(?<=[a-z0-9])[A-Z]+", lambda m: "_" + m[0].lower(), piece)


def texts(top):
    for kind in ("specs", "proofs"):
        yield from sorted(glob.glob(f"{top}/crates/*/{kind}/**/*.antt", recursive=True))


def code(text):
    return re.sub(r"(?m)(?:^|(?<=\s))--.*$", "", text)


def main():
    top = "."
    declared, defined, fields, library, tokens, functions = {}, set(), set(), set(), set(), set()
    for p in texts(top):
        t = code(open(p, encoding="utf-8").read())
        by_hand = p.endswith("/Proof.antt")
        for m in HEAD.finditer(t):
            if not by_hand:
                declared.setdefault(m[1], p)
            if "/specs/" in p and re.match(r"abbrev|unfoldable|[^ ]", m[0].lstrip() if "abbrev" in m[0] or "unfoldable" in m[0] else m[0]):
                defined.add(m[1])
        if not by_hand:
            for m in VARIANT.finditer(t):
                fields.add(m[1])
        for m in USE.finditer(t):
            if not re.match(r"Rattle\.(?!std\b)|Rattle·", m[1]):
                library |= {it.strip().split(" as ")[-1] for it in m[2].split(",")}
        if not by_hand:
            tokens |= set(TOKEN.findall(re.sub(r"\b[A-Za-z]\w*(?:\.[\w+]+)+", "", t))) - set(LEMMAS)
    beside = set()
    for p in glob.glob(f"{top}/crates/*/src/**/*.rt", recursive=True):
        t = re.sub(r"(?m)//.*$", "", open(p, encoding="utf-8").read())
        functions |= set(re.findall(r"\bfn (\w+)", t))
        # parameters and fields, which a clause means before a definition of their name
        beside |= set(re.findall(r"\b([a-z_]\w*):(?!:)", t)) | set(re.findall(r"\b(?:let(?: mut)?|ghost) ([a-z_]\w*)", t))
    names = {snake(n) for n in defined | library if "-" not in n}

    def new(name):
        parts = name.split("-")
        out = snake(parts[0])
        for q in parts[1:]:
            q = snake(q)
            out += ("-" if q[:1].isupper() or q in names else "_") + q
        return out

    turned, taken = {}, {}
    for n in sorted(declared, key=lambda it: ("-" in it, it)):
        if not LETTERS.match(n) or n[0] in "-'" or n.endswith("-"):
            continue
        if n[0].isupper() and "-" not in n:
            continue
        it = new(n)
        if it == n:
            continue
        # a definition beside a parameter or a field of its name
        if "-" not in n and it in beside and n in defined:
            it += "_lem"
        # (the logic has a name_of, which the crate walk alone takes)
        if it != "name_of" and (it in tokens or it in taken or it in library):
            print(f"kept: {n} ({it} is {'a name already' if it not in taken else 'also ' + taken[it]})")
            continue
        turned[n], taken[it] = it, n
    if "--list" in sys.argv:
        for n in sorted(turned):
            print(n, turned[n])
        return
    word = re.compile(r"(?<![\w'-])(?:" + "|".join(sorted((re.escape(n) for n in turned), key=len, reverse=True)) + r")(?![\w'-])")

    def turn(t):
        return word.sub(lambda m: turned[m[0]], t)

    def turn_by_hand(t):
        # behind a dot after a variable a dashed name is one that Rattle makes
        return word.sub(lambda m: m[0] if "-" in m[0] and m[0] not in fields and re.search(r"(?:^|[\s({,])[a-z][\w'.₀-₉-]*\.$", t[max(0, m.start() - 80) : m.start()]) else turned[m[0]], t)

    for p in texts(top):
        t = before = open(p, encoding="utf-8").read()
        for n, where in LEMMAS.items():
            if where in p:
                t = re.sub(rf"(?<![\w'.-]){n}(?![\w'-])", n + "_lem", t)
        if p.endswith("/Proof.antt"):
            function = os.path.basename(os.path.dirname(p)).lstrip("+")
            old = function.replace("_", "-") + "-spec"
            it = re.sub(rf"(?<![\w'-]){re.escape(old)}(?![\w'-])", function + "_spec", turn_by_hand(t))
        else:
            it = turn(t)
        if it != before:
            open(p, "w", encoding="utf-8").write(it)
    for p in sorted(glob.glob(f"{top}/crates/*/src/**/*.rt", recursive=True)):
        t = open(p, encoding="utf-8").read()
        it = "".join(s if s[:1] == '"' else turn(s) for s in re.split(r'("[^"\n]*")', t))
        if it != t:
            open(p, "w", encoding="utf-8").write(it)
    for p in sorted(glob.glob(f"{top}/crates/*/must-fail/*.edit")):
        t = open(p, encoding="utf-8").read()
        it = "".join(s if s[:1] == '"' else turn(s) for s in re.split(r'("[^"\n]*")', t))
        if it != t:
            open(p, "w", encoding="utf-8").write(it)
    print(f"{len(turned)} names")


main()
