#!/usr/bin/env python3
"""Brings this repository's own definitions and lemmas to snake case, once, behind the kit's port.py.

usage: python3 tools/port/respell.py        at the top of the repository

Names that are declared in crates/*/specs and crates/*/proofs, in lower camel case or with hyphens, get
underscores: in definitions, proofs, clauses and must-fail edits wherever they stand, in pages and comments between
backticks. Types and modules keep their spelling, and so does all that is not declared there. A lemma that would fall
together with a definition ends in `_lem`.
"""

import os
import re
import sys

# a lemma, or a field, whose name in snake case a definition has
LEMMAS = [
    "four-at", "ending-bytes", "no-rule", "count-ok", "some-letter", "holds-byte", "mark-at", "mark-head",
    "none-held", "row-fields", "part-fields", "trailer-of", "list-trailer", "can-hold", "can-fail", "option-at",
    "group-begin", "own-opts", "read-up-to", "of-v", "head-end", "no-row",
]
# lemmas to which port.py gave the name that a definition gets here
TAKEN = {"count_at": "count_at_lem", "cut_inside": "cut_inside_lem", "second_run": "second_run_lem"}
NAME = r"[^\s(){}\[\]:;,.`'\"λ→∷≡×⊎←∙=+*/<>|&!@^⊢⟨⟩]+'*"
SIGNATURE = re.compile(r"\s*(?:pub |abbrev |unfoldable )*(?:(?:record|data) )?(" + NAME + r") :(?!\w)")
BLOCK = re.compile(r"(\s*)(?:pub |abbrev |unfoldable )*(record|data) (\S+).* where")
MEMBER = re.compile(r"\s*(?:pub )?(" + NAME + r"(?: " + NAME + r")*) : ")
TOKEN = re.compile(r"(?<![\w'-])([A-Za-z_][\w'-]*)")


def snake(n):
    return re.sub(r"(?<=[a-z0-9])([A-Z])", lambda m: "_" + m.group(1).lower(), n).replace("-", "_")


def wants(n):
    return n[0].islower() and ("-" in n or re.search(r"[a-z0-9][A-Z]", n))


def files(*ends, below=("crates",)):
    for top in below:
        if os.path.isfile(top):
            yield top
        for folder, dirs, names in os.walk(top):
            dirs[:] = sorted(d for d in dirs if d not in ("out", "target"))
            for n in sorted(names):
                if n.endswith(ends):
                    yield os.path.join(folder, n)


def declared():
    """Every name that a signature gives, and those of fields and constructors."""
    names, members = set(), set()
    for p in files(".antt"):
        indent = None
        for line in open(p, encoding="utf-8"):
            if not line.strip() or line.lstrip().startswith("--"):
                continue
            block = BLOCK.match(line)
            if block:
                indent = len(block.group(1))
            elif indent is not None and len(line) - len(line.lstrip()) <= indent:
                indent = None
            if indent is not None and not block:
                m = MEMBER.match(line)
                members.update(m.group(1).split() if m else [])
            m = SIGNATURE.match(line)
            if m:
                names.add(m.group(1))
    return names, members


def table():
    names, members = declared()
    to = {n: snake(n) for n in names | members if wants(n)}
    for n in LEMMAS:
        to[n] = snake(n) + "_lem"
    to.update(TAKEN)
    seen = {}
    for n in sorted(to):
        if to[n] in seen or to[n] in names - set(to):
            sys.exit(f"respell: {n} would be {to[n]}, which {seen.get(to[n], 'another')} is")
        seen[to[n]] = n
    return to, members


def turn(text, to, members, ported=()):
    """`ported`: names that port.py gave already, where it does not go itself."""

    def one(m):
        n = m.group(1)
        if m.start() and text[m.start() - 1] == "." and n not in members:
            return n
        return to.get(n, snake(n) if wants(n) and snake(n) in ported else n)

    return TOKEN.sub(one, text)


def ticked(text, to, members, ported=()):
    return re.sub(r"`[^`\n]+`", lambda m: turn(m.group(0), to, members, ported), text)


def antt(text, to, members, ported):
    lines = []
    for line in text.split("\n"):
        at = 0 if line.lstrip().startswith("-- ") or line.strip() == "--" else len(line)
        lines.append(turn(line[:at], to, members) + ticked(line[at:], to, members, ported))
    return "\n".join(lines)


def rattle(text, to, members, ported):
    """Ghost lines and clauses whole, comments between backticks, code not at all."""
    lines, inside = [], 0
    for line in text.split("\n"):
        s = line.strip()
        ghost = s.startswith("ghost ") or re.match(r"(requires|ensures)\b", s) or inside > 0
        if s.startswith("//"):
            line = ticked(line, to, members, ported)
        elif ghost:
            inside += line.count("{") - line.count("}")
            line = turn(line, to, members)
        lines.append(line)
    return "\n".join(lines)


def edit(text, to, members, ported):
    """An edit's text has the spelling of the file that it changes: port.py turns no edits."""
    text = re.sub(r"\((\w+) \.(\w+)\)", r"\1.\2", text)
    text = re.sub(r"(\w) \.(\w)", r"\1.\2", text)
    return turn(text.replace("getD", "get_or").replace("\u2032", "'"), to, members, ported)


def main():
    if not os.path.isdir("crates"):
        sys.exit(__doc__)
    to, members = table()
    ported = declared()[0]
    jobs = [(p, antt) for p in files(".antt")] + [(p, rattle) for p in files(".rt")]
    jobs += [(p, edit) for p in files(".edit")]
    jobs += [(p, ticked) for p in files(".md", below=("docs", "README.md", "CONTRIBUTING.md"))]
    changed = 0
    for p, how in jobs:
        old = open(p, encoding="utf-8").read()
        new = how(old, to, members, ported)
        if new != old:
            changed += 1
            with open(p, "w", encoding="utf-8") as f:
                f.write(new)
    print(f"respell: {len(to)} names, {changed} files")


main()
