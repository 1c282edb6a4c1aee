#!/usr/bin/env python3
"""Says what docs/DEFINITIONS.md lacks: each file of the crates' specs/ has one line there, and the numbered lines are the files
that the contract of the top call names, directly or through files that it names. Ends with 1 where something is wrong.
"""
import re
import sys
from pathlib import Path

TOP = Path(__file__).resolve().parent.parent
CONTRACT = "crates/atac_top/src/top.rt"


def spec(crate, name):
    return TOP / "crates" / crate / "specs" / (name + ".antt")


def named(path):
    """The files of specs/ that a file imports, as crate/file."""
    text = path.read_text(encoding="utf-8")
    found = re.findall(r"^\s*(?:ghost |pub )?use Rattle\.(\w+)\.specs\.(\w+)", text, re.M)
    return {c + "/" + n for c, n in found if spec(c, n).is_file()}


def main():
    text = (TOP / "docs" / "DEFINITIONS.md").read_text(encoding="utf-8")
    numbered = re.findall(r"^\d+\. `(\w+/\w+)`:", text, re.M)
    others = re.findall(r"^- `(\w+/\w+)`:", text, re.M)
    files = {p.parent.parent.name + "/" + p.stem for p in TOP.glob("crates/*/specs/*.antt")} - {
        p.name + "/Lib" for p in (TOP / "crates").iterdir()}
    read, todo = set(), named(TOP / CONTRACT)
    while todo:
        name = todo.pop()
        if name not in read:
            read.add(name)
            todo |= named(spec(*name.split("/")))
    wrong = ["no line: " + n for n in sorted(files - set(numbered) - set(others))]
    wrong += ["no such file: " + n for n in sorted(set(numbered + others) - files)]
    wrong += ["listed twice: " + n for n in sorted({n for n in numbered + others if (numbered + others).count(n) > 1})]
    wrong += ["to be numbered: " + n for n in sorted((read & set(others)))]
    wrong += ["not to be numbered: " + n for n in sorted(set(numbered) - read)]
    for line in wrong:
        print(line)
    return 1 if wrong else 0


if __name__ == "__main__":
    sys.exit(main())
