#!/usr/bin/env python3
"""Brings the repository's own definitions and lemmas to one spelling: words in snake case, types and facts in camel case.

usage: python3 tools/respell.py      at the top of the repository, once, after the kit's own port.py

The names are those that specs/ and proofs/ define, with the fields of their records; the library's names and those that
Rattle makes of the code (what an answer's `goal.` names, and the steps below `c.`) keep theirs. Only .antt files and the
ghost parts of .rt files are written; functions, strings and exported names stay.
"""

import os
import re

DEFINED = re.compile(r"^\s*(?:abbrev |unfoldable |pub |data |record )*([^\s:(){}\[\].,;@\"]+)(?: \([^()]*\))* :(.*)$")
TOKEN = re.compile(r"[^\s:(){}\[\].,;=@\"λ]+")
GHOST = re.compile(r"^\s*(?:\||(?:pub )?(?:ghost |requires\b|ensures\b))")


def files(ending):
    for folder, dirs, names in os.walk("crates"):
        dirs[:] = sorted(d for d in dirs if d != "out")
        for name in sorted(names):
            if name.endswith(ending):
                yield os.path.join(folder, name)


def spelled(name):
    words = name.replace("\u2032", "'").split("-")
    if name[0].isupper():
        return "".join(w[:1].upper() + w[1:] for w in words)
    return "_".join(words)


def own():
    """The names to turn, each with its new spelling."""
    found = {}
    for path in files(".antt"):
        generated = os.path.basename(path) in ("Answers.antt", "Invariants.antt", "Choices.antt")
        for line in open(path, encoding="utf-8"):
            m = DEFINED.match(line)
            if not m or m[1] in ("use", "let"):
                continue
            if generated and re.match(r"\s*(goal|given|need)\.", m[2]):
                continue
            if spelled(m[1]) != m[1]:
                found[m[1]] = spelled(m[1])
    return found


def turned(text, names):
    return TOKEN.sub(lambda m: names.get(m[0], m[0]), text)


def main():
    names = own()
    for path in files(".antt"):
        old = open(path, encoding="utf-8").read()
        # a comment keeps its words
        new = "\n".join(
            turned(code, names) + dash + comment
            for code, dash, comment in (re.match(r"(?s)(.*?)(^--|(?<=\s)--)?((?<=--).*)?$", l).groups(default="") for l in old.split("\n"))
        )
        if new != old:
            open(path, "w", encoding="utf-8").write(new)
    for path in files(".rt"):
        old = open(path, encoding="utf-8").read()
        new = "\n".join(turned(l, names) if GHOST.match(l) else l for l in old.split("\n"))
        if new != old:
            open(path, "w", encoding="utf-8").write(new)
    for name in sorted(names):
        print(name, names[name])


main()
