#!/usr/bin/env python3
"""Brings the repository's own definitions and lemmas to today's spelling: words in snake case, types in camel case.

tools/respellings.tsv has a line for each name, old and new. Run it once, at the top, right after the kit's port.py:

    python3 tools/respell.py            in the repository, or: python3 tools/respell.py FOLDER

It goes over specifications, proofs, clauses, must-fail edits, and names between backticks in README.md and docs/.
Comments, strings and the code itself stay as they are; afterwards each crate is laid out by `rt fmt`.
"""
import re
import subprocess
import sys
from pathlib import Path

here = Path(__file__).resolve().parent
top = Path(sys.argv[1]).resolve() if len(sys.argv) > 1 else here.parent
table = dict(line.split("\t") for line in (here / "respellings.tsv").read_text(encoding="utf-8").splitlines())
word = re.compile(r"[^\s(){}\[\],;.:«»`·]+")


def respelt(text):
    return word.sub(lambda m: table.get(m.group(), m.group()), text)


def of_proofs(text):
    """All but comments, which begin with two dashes that stand alone."""
    parts = []
    for line in text.split("\n"):
        cut = re.search(r"(^|\s)--(\s|$)", line)
        at = cut.start() if cut else len(line)
        parts.append(respelt(line[:at]) + line[at:])
    return "\n".join(parts)


def of_code(text):
    """All but comments and strings; a name with a dash stands only in clauses and ghost items."""
    kept = re.compile(r'//[^\n]*|b?"(?:[^"\\]|\\.)*"', re.S)
    parts, at = [], 0
    for m in kept.finditer(text):
        parts += [respelt(text[at:m.start()]), m.group()]
        at = m.end()
    return "".join(parts) + respelt(text[at:])


def of_pages(text):
    return re.sub(r"`[^`\n]+`", lambda m: respelt(m.group()), text)


def turn(path, how):
    old = path.read_text(encoding="utf-8")
    new = how(old)
    if new != old:
        path.write_text(new, encoding="utf-8")
        return 1
    return 0


def main():
    crates = top / "crates"
    inside = lambda pattern: sorted(p for p in crates.rglob(pattern) if "out" not in p.relative_to(crates).parts)
    changed = sum(turn(p, of_proofs) for p in inside("*.antt"))
    changed += sum(turn(p, of_code) for p in inside("*.rt"))
    changed += sum(turn(p, respelt) for p in inside("*.edit"))
    changed += sum(turn(p, of_pages) for p in [top / "README.md", *sorted((top / "docs").glob("*.md"))] if p.exists())
    for folder in sorted(p.parent for p in crates.glob("*/src")):
        subprocess.run(["rt", "fmt"], cwd=folder, stdout=subprocess.DEVNULL, stderr=subprocess.DEVNULL)
    print(f"{len(table)} names, {changed} files changed")


main()
