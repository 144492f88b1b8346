#!/usr/bin/env python3
"""Lists where the code could take a newer form of the language, for each point of docs/DESIGN-PASS.md.

    python3 tools/design_count.py [POINT ..]

Run it from the repository's root. It reads the Rattle code that git tracks (crates/*/src, and the crates below
compare/) and prints the candidates of each point as `file:line text`, with their number. It goes by text: whether a
candidate is a place is for a reader to say, and docs/DESIGN-PASS.md says it.
"""
import collections
import itertools
import re
import subprocess
import sys

FUNCTION = re.compile(r"^\s*(?:pub(?:\(crate\))? )?(?:extern \"C\" )?fn (\w+)")
CLAUSE = re.compile(r"^\s*(?:requires|ensures)\b[^{]*\{(.*)\}\s*$")


def tracked(*patterns):
    names = subprocess.run(["git", "ls-files", *patterns], check=True, capture_output=True, text=True).stdout.split()
    return [(name, open(name, encoding="utf-8").read().split("\n")) for name in names]


CODE = [(n, t) for n, t in tracked("crates/*/src/*.rt", "compare/*.rt.in") if not n.endswith("crc/src/tables.rt")]


def lines(pattern, code=CODE):
    found = re.compile(pattern)
    return [f"{n}:{i + 1} {s.strip()}" for n, t in code for i, s in enumerate(t)
            if found.search(s) and not s.strip().startswith("//")]


def functions():
    """Each function: where, name, parameters, clauses, body."""
    for name, text in CODE:
        i = 0
        while i < len(text):
            m = FUNCTION.match(text[i])
            if not m:
                i += 1
                continue
            indent = len(text[i]) - len(text[i].lstrip())
            j = i
            while CLAUSE.match(text[j]) or not re.search(r"[{;]\s*$|\}\s*$", text[j]):
                j += 1
            if text[j].rstrip().endswith("{"):
                while not re.match(r"^ {%d}\}" % indent, text[j + 1]):
                    j += 1
                j += 1
            whole = text[i:j + 1]
            clauses = [c.group(1).strip() for c in map(CLAUSE.match, whole) if c]
            plain = "\n".join(s for s in whole if not CLAUSE.match(s))
            head, _, body = plain.partition("{")
            yield f"{name}:{i + 1}", m.group(1), head, clauses, body
            i = j + 1


def twins():
    """Functions that are alike once names of types, fields, functions and constants, and numbers, are left out."""
    alike = collections.defaultdict(list)
    for where, name, head, _, body in functions():
        words = re.findall(r"\w+|[^\w\s]", re.sub(r"//.*", "", body))
        shape = " ".join("_" if re.match(r"\w", w) and w not in KEPT else w for w in words)
        if len(words) > 6:
            alike[shape].append(f"{where} {name}")
    return [" | ".join(found) for found in alike.values() if len(found) > 1]


KEPT = {"if", "else", "match", "for", "in", "let", "mut", "return", "self", "Ok", "Err", "Some", "None", "while"}


def repeated_clauses():
    """Facts that stand in the clauses of three functions or more."""
    seen = collections.defaultdict(set)
    for where, name, _, clauses, _ in functions():
        for clause in clauses:
            seen[re.sub(r"\s+", " ", clause)].add(f"{where.split(':')[0]} {name}")
    return [f"{len(found)} functions: {clause}" for clause, found in seen.items() if len(found) > 2]


def travelling():
    """Parameters that three functions or more of a crate take together."""
    seen = collections.defaultdict(list)
    for where, name, head, _, _ in functions():
        crate = "/".join(where.split("/")[:2])
        head = re.sub(r"fn \w+<[^(]*>\(", "fn f(", head)
        taken = re.findall(r"(\w+): (&?(?:'a )?(?:mut )?[\w\[\];<>, ()]+?)(?=, \w+:|,?\s*\)|,\s*\n)", head)
        named = sorted({f"{n}: {t.strip()}" for n, t in taken})
        for size in (2, 3, 4):
            for group in itertools.combinations(named, size):
                seen[(crate, group)].append(name)
    many = {k: v for k, v in seen.items() if len(v) > 2}
    return [f"{crate}: {', '.join(group)} in {len(found)}: {', '.join(found)}"
            for (crate, group), found in many.items()
            if not any(c == crate and set(group) < set(g) and f == found for (c, g), f in many.items())]


def answers():
    proofs = tracked("crates/*/proofs/**/Answers.antt")
    lemmas = tracked("crates/*/proofs/*.antt")
    return [f"{n.split('/')[1]}: {c} answers" for n, c in count(proofs, r"^pub ")] + \
        [f"{n.split('/')[1]}: {c} lemmas and definitions" for n, c in count(lemmas, r"^(abbrev |unfoldable )?(pub )?[\w'◌-]+ : ")]


def count(files, pattern):
    per = collections.Counter()
    for name, text in files:
        crate = "/".join(name.split("/")[:2])
        per[crate] += sum(1 for s in text if re.search(pattern, s))
    return sorted(per.items())


POINTS = {
    "1": ("Option and Result", lambda: lines(r"^\s*(pub(\(crate\))? )?enum ") + lines(r"^\s*(pub )?\w+: bool,")
          + lines(r"\b(number|refusal): u8|Refused\(u8|Refused \{ number") + lines(r"\.number\(\)|\bcode\(")
          + lines(r"-> bool$|-> bool \{")),
    "2": ("twins", twins),
    "3": ("index loops", lambda: lines(r"\bfor \w+ in |\bfor \(.*\) in |\bwhile |\bloop\b")),
    "4": ("equality, order, copying, conversion and printing", lambda: lines(
        r"[%/] 256\b|256 \*|\* 256\b|<< 8\b|>> 8\b|>> 16\b|>> 24\b") + lines(r"^\s*impl.* for ") + lines(r"fn same|fn equal|-> &'static str")
        + lines(r"fn \w+\((self|\w+: \w+(<.*>)?)\) -> [A-Z]\w+\b(?!.*Self)")),
    "5": ("repeated facts, parameters that travel together", lambda: repeated_clauses() + travelling()),
    "6": ("lengths beside buffers", lambda: lines(r"^\s*(pub )?(count|length|filled|used|len): |count: u8|\[\w+; \d+\],")),
    "7": ("steps", lambda: lines(r"\bmatch .*\{") + lines(r"\bfn\(|dyn |impl Fn|: Fn|FnMut|FnOnce|\|\w*\| ")),
    "8": ("proofs", answers),
}


def main():
    for point in sys.argv[1:] or POINTS:
        title, find = POINTS[point]
        found = find()
        print(f"{point}. {title}: {len(found)} candidates")
        for text in found:
            print(f"    {text}")


main()
