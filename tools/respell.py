#!/usr/bin/env python3
"""Brings the repository's own definitions and lemmas to the kit's spelling: words in snake case, a dash between two names only.

usage: tools/respell.py [FOLDER]     once, right after the kit's port.py, in FOLDER or here

The names stand in respelled.txt, old and new. Code and strings keep theirs: in a .rt file and in a page only names in camel case and
what stands between backquotes are turned.
"""
import os
import re
import sys

HERE = os.path.dirname(os.path.realpath(__file__))
NAMES = dict(line.split() for line in open(os.path.join(HERE, "respelled.txt"), encoding="utf-8"))
# a lemma that would have its definition's name, in the one file that has it
LEMMAS = {
    "crates/model/proofs/Registers.antt": ["register_of"],
    "crates/histories/proofs/Files.antt": ["good_book"],
    "crates/delivery/proofs/divide/Proof.antt": ["in_buffer"],
    "crates/consistency/proofs/PreviewFacts.antt": ["answer_at"],
}
TOKEN = re.compile(r"[A-Za-z◌⊎ℕ𝓤][A-Za-z0-9_'₀-₉ℕℤ-]*")
QUOTED = re.compile(r"`[^`\n]*`")


def turned(text, names):
    return TOKEN.sub(lambda m: names.get(m.group(0), m.group(0)), text)


def antt(text, path):
    names = dict(NAMES)
    for lemma in LEMMAS.get(path, []):
        names[lemma] = lemma + "_lem"
    lines = []
    for line in text.split("\n"):
        code, dashes, comment = line.partition("--")
        lines.append(turned(code, names) + dashes + prose(comment))
    return "\n".join(lines)


def prose(text):
    text = QUOTED.sub(lambda m: turned(m.group(0), NAMES), text)
    return turned(text, CAMEL)


CAMEL = {a: b for a, b in NAMES.items() if re.search(r"[a-z][A-Z]", a) and "-" not in a}


def main():
    root = os.path.abspath(sys.argv[1] if len(sys.argv) > 1 else ".")
    for folder, dirs, files in os.walk(root):
        dirs[:] = [d for d in dirs if d not in (".git", "out", "target", "bindings", "compare", "workbench", "tools")]
        for name in files:
            path = os.path.join(folder, name)
            if not name.endswith((".antt", ".rt", ".md")):
                continue
            with open(path, encoding="utf-8") as f:
                old = f.read()
            new = antt(old, os.path.relpath(path, root)) if name.endswith(".antt") else prose(old)
            if new != old:
                with open(path, "w", encoding="utf-8") as f:
                    f.write(new)


main()
