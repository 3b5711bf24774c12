#!/usr/bin/env python3
"""Brings the names of definitions and laws to snake case, once.

usage: python3 tools/respell.py [FOLDER]

Reads crates/*/specs and crates/*/proofs, the clauses in crates/*/src, the wrong versions and the pages. A word of Rattle's
is in snake case; types, modules and variants are in camel case. Functions of src/ are in snake case already, so that every
word that begins small and has a capital inside is a word of the definitions. respell.txt, beside this script, lists the
names with dashes: laws, fields and local names of the laws' files. A law that would get the name of a definition ends in
_lem.
"""

import os
import re
import sys

# a word that begins small and has a capital inside; a dash joins the parts of a name
PART = re.compile(r"(?<![\w'])[a-z][a-z0-9]*(?:[A-Z][A-Za-z0-9]*)+(?![\w'])")


def snake(word):
    return re.sub(r"(?<=[a-z0-9])([A-Z])", r"_\1", word).lower()


def files(top):
    for folder, dirs, names in os.walk(top):
        dirs[:] = sorted(d for d in dirs if d not in ("out", "target", ".git", "documents"))
        for name in sorted(names):
            path = os.path.join(folder, name)
            inside = os.path.relpath(path, top)
            if inside.startswith("crates" + os.sep) and name.endswith((".antt", ".rt", ".edit")):
                yield path
            elif name.endswith(".md") and not inside.startswith(os.path.join("docs", "PORT")):
                yield path


def dashed():
    with open(os.path.join(os.path.dirname(os.path.realpath(__file__)), "respell.txt"), encoding="utf-8") as f:
        return f.read().split()


def main():
    top = sys.argv[1] if len(sys.argv) > 1 else "."
    sources = []
    for path in files(top):
        with open(path, encoding="utf-8", newline="") as f:
            sources.append((path, f.read()))
    small = {snake(w) for _, text in sources for w in PART.findall(text)}
    renamed = {}
    for word in dashed():
        name = word.replace("-", "_")
        renamed[word] = name + "_lem" if name in small else name
    listed = re.compile(r"(?<![\w'-])(?:" + "|".join(sorted(map(re.escape, renamed), key=len, reverse=True)) + r")(?![\w'-])")
    for path, text in sources:
        said = PART.sub(lambda m: snake(m.group()), text)
        said = listed.sub(lambda m: renamed[m.group()], said) if not path.endswith((".rt", ".edit")) else said
        # an operator's words are one name
        said = said.replace("◌andThen◌", "◌and_then◌")
        if said != text:
            with open(path, "w", encoding="utf-8", newline="") as f:
                f.write(said)
    return 0


if __name__ == "__main__":
    sys.exit(main())
