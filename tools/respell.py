#!/usr/bin/env python3
"""Brings the repository's own definitions and lemmas to the spelling of the library: words in snake case, a dash between two names.

usage: python3 tools/respell.py [TOP]

Reads tools/respell.tsv, a line for each name: the old one, a tab, the new one. A third column '_lem' marks a law that gives way to a
definition of its name: it is renamed in proofs/ alone, and only where it is not a field. Run it once.
"""
import os
import re
import sys

TOP = sys.argv[1] if len(sys.argv) > 1 else "."
HERE = os.path.dirname(os.path.realpath(__file__))
WORD = re.compile(r"(\.?)([^\s(){}\[\]:;,.|=λ`\"]+)")
names, laws = {}, {}
for line in open(os.path.join(HERE, "respell.tsv"), encoding="utf-8"):
    old, new, *mark = line.rstrip("\n").split("\t")
    (laws if mark else names)[old] = new
PLAIN = {o: n for o, n in names.items() if "-" not in o}


def respelled(text, proof, law, table=names):
    """Each word of the text by the table. In a function's own proof a dashed word behind a dot is one that was generated."""
    def one(m):
        dot, word = m.groups()
        if word in table and not (proof and dot and "-" in word):
            return dot + table[word]
        if law and not dot and word in laws:
            return dot + laws[word]
        return m.group(0)
    return WORD.sub(one, text)


def of_antt(text, proof, law):
    out = []
    for line in text.split("\n"):
        m = re.search(r"(^|\s)--(\s|$)", line)
        code, comment = (line[:m.start()], line[m.start():]) if m else (line, "")
        out.append(respelled(code, proof, law) + respelled(comment, False, False, PLAIN))
    return "\n".join(out)


def of_source(text):
    """Clauses, `ghost use` lines and comments of a .rt file; the code's own names stay."""
    def clause(m):
        return m.group(1) + respelled(m.group(2), False, False)
    text = re.sub(r"(\b(?:requires|ensures)\*? ?\w* )(\{(?:[^{}]|\{[^{}]*\})*\})", clause, text)
    text = re.sub(r"(ghost use )([^;]*;)", clause, text)
    text = re.sub(r"(ghost \w+: )(\{(?:[^{}]|\{[^{}]*\})*\})", clause, text)
    return re.sub(r"(//)([^\n]*)", lambda m: m.group(1) + respelled(m.group(2), False, False, PLAIN), text)


for folder, dirs, found in os.walk(os.path.join(TOP, "crates")):
    dirs[:] = sorted(d for d in dirs if d != "out")
    for name in sorted(found):
        path = os.path.join(folder, name)
        if not name.endswith((".antt", ".rt")):
            continue
        with open(path, encoding="utf-8") as f:
            old = f.read()
        law = "/proofs/" in path
        new = of_source(old) if name.endswith(".rt") else of_antt(old, name == "Proof.antt", law)
        if new != old:
            with open(path, "w", encoding="utf-8") as f:
                f.write(new)
