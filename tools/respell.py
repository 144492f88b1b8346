#!/usr/bin/env python3
"""Brings the repository's own definitions and lemmas to today's spelling, once, after the older spelling was turned:
words in snake case, types in camel case. A name with a dash that an .antt file of the repository defines or binds
changes everywhere in .antt files and in the clauses of .rt files. Names of the library and of generated statements stay.
It stops if two names would fall together.

usage: python3 tools/respell.py     at the top of the repository
"""

import os
import re
import sys

WORD = re.compile(r"[^\s(){}\[\];,.\"λ|:=`]+")
CLAUSE = re.compile(r"^\s*(ghost|requires|ensures)\b")
ANSWERS = ("Answers.antt", "Invariants.antt")
# a name whose plain new spelling is another one's: the library's bit_xor
CHOSEN = {"bit-xor": "crc_bit_xor"}


def files(ending):
    for folder, dirs, names in os.walk("crates"):
        dirs[:] = sorted(d for d in dirs if d != "out")
        for n in sorted(names):
            if n.endswith(ending):
                yield os.path.join(folder, n)


def read(path):
    with open(path, encoding="utf-8") as f:
        return f.read()


def code(text):
    return "\n".join("" if l.lstrip().startswith("--") else l for l in text.split("\n"))


def imports(text):
    for path, names in re.findall(r"^(?:ghost )?use ([^\s{;]+)\.\{([^}]*)\}", text, re.M):
        for n in names.split(","):
            yield path, n.strip().split(" as ")


def own_path(path):
    return bool(re.match(r"Rattle\.(?!std\b)\w+\.(specs|proofs)\b", path)) and not re.search(r"\.(Goals|Given)$", path) and ".declared." not in path


def spelled(name):
    if name in CHOSEN:
        return CHOSEN[name]
    if name.startswith("getD-"):
        name = "get_or-" + name[len("getD-"):]
    if name[0].isupper() and "-" in name and not name.split("-")[0].isupper():
        return "".join(p[:1].upper() + p[1:] for p in name.split("-"))
    return name.replace("-", "_")


def own_names():
    """The names with a dash that are the repository's own, by where they stand."""
    foreign, found = set(), {}
    for p in files(".antt"):
        text = code(read(p))
        foreign |= {names[0] for path, names in imports(text) if not own_path(path)}
        for w in WORD.findall(text):
            if "-" in w.strip("-") and re.match(r"\w", w):
                found.setdefault(w, set()).add(os.path.basename(p) in ANSWERS)
    own = {w for w, only in found.items() if only != {True}} - foreign
    for p in files(".rt"):
        for path, names in imports(read(p)):
            own |= {n for n in names if "-" in n and own_path(path)}
    return own


def main():
    new = {n: spelled(n) for n in own_names()}
    back = {}
    for n, s in sorted(new.items()):
        if s in back:
            sys.exit(f"respell: {n} and {back[s]} would both be {s}")
        back[s] = n
    for p in files(".antt"):
        used = set(WORD.findall(re.sub(r"^use [^{\n]*", "", code(read(p)), flags=re.M)))
        for s in sorted(used & set(back)):
            if back[s] in used and s != back[s]:
                sys.exit(f"respell: {p} has both {back[s]} and {s}")

    def turn(line):
        comment = line.lstrip().startswith("--")

        def one(m):
            s = new.get(m[1])
            if s is None:
                return m[0]
            gap = m[2]
            if comment and len(gap) > 1:
                gap += " " * (len(m[1]) - len(s))
            return s + gap

        return re.sub(r"(" + WORD.pattern + r")( *)", one, line)

    changed = 0
    for p in [*files(".antt"), *files(".rt")]:
        text = read(p)
        every = p.endswith(".antt")
        out = "\n".join(turn(l) if every or CLAUSE.match(l) else l for l in text.split("\n"))
        if out != text:
            with open(p, "w", encoding="utf-8") as f:
                f.write(out)
            changed += 1
    print(f"respell: {len(new)} names, {changed} files")


main()
