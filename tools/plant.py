#!/usr/bin/env python3
"""Plants bugs in a crate's code, one at a time, and asks the check about each.

    python3 tools/plant.py CRATE [--limit N] [--seed S] [--file NAME]

Run it from the repository's root. Each bug is an edit of one place in crates/CRATE/src, or in one file of it, never in a
contract, a definition or a proof: another comparison, `&&` for `||`, a test turned round, another constant, a statement
left out. Of a generated table only some lines are taken. It works on a copy in a temporary folder, which takes the
crates' out/ along so that a check costs seconds.

A bug is refused by a promise if the first complaint is about the code, refused by a proof file if it is about the
hand-written part of a proof, not compiled if it never reached the prover. One that is still proved has survived:
either it changes no behaviour, or a contract is too weak. The run fails if one survived.
"""
import argparse
import pathlib
import random
import re
import shutil
import subprocess
import sys
import tempfile

SWAPS = [
    (" < ", " <= "), (" <= ", " < "), (" > ", " >= "), (" >= ", " > "), (" == ", " != "), (" != ", " == "),
    (" && ", " || "), (" || ", " && "), ("if !", "if "), (" + ", " ^ "), (" % ", " / "), (" / ", " % "),
    ("true", "false"), ("false", "true"), (" | ", " & "),
]
NUMBER = re.compile(r"(?<![\w.])(0x[0-9A-Fa-f_]+|\d[\d_]*)(?![\w.])")
NOT_CODE = re.compile(r"^\s*(//|ghost |use |pub use |ensures |requires |mod |pub mod |#|law |type )")
SIGNATURE = re.compile(r"^\s*(pub(\(crate\))? )?(fn|impl|struct|enum|trait|unsafe extern)\b|^\s*pub impl\b")
STATEMENT = re.compile(r"^\s*(?!let |return|break|continue)[\w*].*;\s*$")


def bugs_of(line):
    """The lines that one edit makes of a line of code, each with the edit's name."""
    for old, new in SWAPS:
        for m in re.finditer(re.escape(old), line):
            yield f"{old.strip()} -> {new.strip() or 'nothing'}", line[:m.start()] + new + line[m.end():]
    for m in NUMBER.finditer(line):
        text = m.group(1).replace("_", "")
        value = int(text, 0)
        for other in {value + 1, max(value - 1, 0)} - {value}:
            yield f"{m.group(1)} -> {other}", line[:m.start()] + str(other) + line[m.end():]
    if STATEMENT.match(line) and not line.strip().startswith("const "):
        yield "statement left out", ""


def places(src):
    """Every bug of a crate's code: file, line number, name, new line."""
    for path in sorted(src.rglob("*.rt")):
        if path.name == "tests.rt":
            continue
        sparse = 40 if path.name == "tables.rt" else 1
        for number, line in enumerate(path.read_text().split("\n")):
            if NOT_CODE.match(line) or SIGNATURE.match(line):
                continue
            if number % sparse == 0:
                for name, new in bugs_of(line):
                    yield path.relative_to(src), number, name, new


def verdict(root, crate):
    said = subprocess.run(["rt", "check"], cwd=root / "crates" / crate, capture_output=True, text=True, timeout=900)
    text = said.stdout + said.stderr
    last = [line for line in text.split("\n") if line.startswith("logic=")]
    if last and last[-1].startswith("logic=proved") and f"crate {crate}:" in text:
        return "SURVIVED"
    if not last or not last[-1].startswith("logic=not-proved"):
        return "not compiled"
    first = re.search(r"(?m)^(?:so far: |note: )?(?:\./)?(src|proofs)/", text)
    return "refused by a proof file" if first and first.group(1) == "proofs" else "refused by a promise"


def main():
    options = argparse.ArgumentParser()
    options.add_argument("crate")
    options.add_argument("--limit", type=int, default=40)
    options.add_argument("--seed", type=int, default=1)
    options.add_argument("--file", default="")
    given = options.parse_args()
    tally = {}
    with tempfile.TemporaryDirectory() as folder:
        root = pathlib.Path(folder) / "repository"
        shutil.copytree(".", root, ignore=shutil.ignore_patterns(".git", "compare"))
        src = root / "crates" / given.crate / "src"
        bugs = [bug for bug in places(src) if str(bug[0]).endswith(given.file)]
        random.Random(given.seed).shuffle(bugs)
        for file, number, name, new in bugs[:given.limit]:
            path = src / file
            whole = path.read_text()
            lines = whole.split("\n")
            lines[number] = new
            path.write_text("\n".join(lines))
            result = verdict(root, given.crate)
            path.write_text(whole)
            tally[result] = tally.get(result, 0) + 1
            print(f"{given.crate}/src/{file}:{number + 1}: {name}: {result}", flush=True)
    print(f"{given.crate}: {len(bugs)} places, planted {sum(tally.values())}: " + ", ".join(f"{n} {r}" for r, n in sorted(tally.items())))
    sys.exit(1 if "SURVIVED" in tally else 0)


main()
