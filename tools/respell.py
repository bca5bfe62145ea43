#!/usr/bin/env python3
"""Brings the repository's own definitions and lemmas to snake case, by the rows of respell.tsv beside it: old, a tab, new.

It was run once, at the top, after the kit's port.py. Whole words alone turn: in the specs, proofs and sources of the crates,
in must-fail edits, and in code spans of README.md and docs/. Names of functions, inputs and outputs are not in the table.
"""
import os
import re
import subprocess

HERE = os.path.dirname(os.path.realpath(__file__))
WORD = re.compile(r"[^\s(){}.;,@\"«»`:]+")
SPAN = re.compile(r"`[^`\n]+`")


def main():
    with open(os.path.join(HERE, "respell.tsv"), encoding="utf-8") as f:
        table = dict(line.rstrip("\n").split("\t") for line in f)
    turn = lambda text: WORD.sub(lambda m: table.get(m[0], m[0]), text)
    root = os.path.dirname(HERE)
    for folder, dirs, files in os.walk(root):
        dirs[:] = [d for d in dirs if d not in ("out", ".git", "tools", "oracle", "examples")]
        for name in files:
            path = os.path.join(folder, name)
            if not name.endswith((".antt", ".rt", ".edit", ".md")) or name == "PORT.md":
                continue
            with open(path, encoding="utf-8") as f:
                old = f.read()
            new = SPAN.sub(lambda m: turn(m[0]), old) if name.endswith(".md") else turn(old)
            if new != old:
                with open(path, "w", encoding="utf-8") as f:
                    f.write(new)
    for crate in sorted(os.listdir(os.path.join(root, "crates"))):
        subprocess.run(["rt", "fmt"], cwd=os.path.join(root, "crates", crate), check=False)


main()
