#!/usr/bin/env python3
"""Respells this repository's definitions and lemmas: lowerCamel to snake_case, in crates/*/{src,specs,proofs}.

usage: tools/respell.py [TOP]

Types and modules begin with a capital and stay. Strings and paths of files stay. Seven lemmas that would then have the name of the
definition that they speak of get `_lem` first.
"""

import os
import re
import sys

CAMEL = re.compile(r"(?<![\w'\"])([a-z_][a-z0-9_]*[A-Z][\w]*'*)(?![\w\"])")
# a lemma with the name that a definition in its file is to get: (crate or None for all, name)
LEMMAS = {
    "at_leaf": ["walk_laws/proofs/Hard.antt"],
    "best_of": ["demands/proofs/Searching.antt"],
    "by_lines": ["demands/proofs/Demands.antt", "demands/proofs/Lines.antt"],
    "in_order": ["demands/proofs/Refusing.antt"],
    "is_found": ["looking/proofs/", "hunts/proofs/", "groups/proofs/"],
    "laid_out": ["desk_laws/proofs/", "rewrites/proofs/", "laying/proofs/", "step_laws/proofs/Rewritings.antt"],
    "row_words": ["text_laws/proofs/", "wcnf_laws/proofs/", "wcnf_reader/proofs/", "reader/proofs/"],
}


def snake(word):
    return re.sub(r"(?<=[a-z0-9_])([A-Z])", lambda m: "_" + m.group(1).lower(), word)


def respelled(text, path):
    for name, places in LEMMAS.items():
        if any(p in path for p in places):
            text = re.sub(r"(?<![\w'.-])" + name + r"(?![\w'-]|\.ensures|\.result)", name + "_lem", text)
    parts = re.split(r'("(?:[^"\\\n]|\\.)*")', text)
    return "".join(p if i % 2 else CAMEL.sub(lambda m: snake(m.group(1)), p) for i, p in enumerate(parts))


def main():
    top = sys.argv[1] if len(sys.argv) > 1 else "."
    changed = 0
    for folder, dirs, files in os.walk(os.path.join(top, "crates")):
        dirs[:] = sorted(d for d in dirs if d != "out")
        for f in sorted(files):
            if not f.endswith((".antt", ".rt")):
                continue
            p = os.path.join(folder, f)
            with open(p, encoding="utf-8") as it:
                old = it.read()
            new = respelled(old, p)
            if new != old:
                changed += 1
                with open(p, "w", encoding="utf-8") as it:
                    it.write(new)
    print(f"respell: {changed} files")


main()
