#!/usr/bin/env python3
"""Lists the functions, types and impls in crates/*/src that have one shape: the same tokens but for names,
numbers and texts, each of which is told only by where it first stands. Contracts and comments do not count.

Usage: tools/shapes.py [LEAST]    LEAST: the fewest tokens that count, 24 where it is not given.
Prints a line for each shape that stands in two places or more, and last how many shapes and places there are."""
import glob
import re
import sys

KEYWORDS = set(
    """fn pub crate self Self impl struct enum trait for in if else match let mut return while loop where use mod
    const type as ref move true false Ok Err Some None ghost""".split()
)
TOKEN = re.compile(r"'[a-z_]+\b|[A-Za-z_][A-Za-z0-9_]*|\d[\d_]*|\"(?:[^\"\\]|\\.)*\"|b?'.'|[^\s]")


def bare(text):
    """The text without comments and clauses."""
    text = re.sub(r"//[^\n]*", "", text)
    return re.sub(r"^\s*(requires|ensures)\b[^\n]*\}\s*$", "", text, flags=re.M)


def items(text):
    """Each function, type and impl: its head, and its text up to the closing brace."""
    head = re.compile(r"^[ \t]*(?:pub(?:\([a-z]+\))? )?(fn|struct|enum|impl)\b[^;{]*\{", re.M)
    for found in head.finditer(text):
        depth, end = 1, found.end()
        while depth and end < len(text):
            depth += {"{": 1, "}": -1}.get(text[end], 0)
            end += 1
        yield found.group(0).split("{")[0].strip(), text[found.start() : end]


def shape(text):
    """The tokens, each name, number and text by the place where it first stands."""
    seen, out = {}, []
    for token in TOKEN.findall(text):
        if token in KEYWORDS or not re.match(r"[A-Za-z_0-9\"']", token):
            out.append(token)
        else:
            out.append(str(seen.setdefault(token, len(seen))))
    return out


def main():
    least = int(sys.argv[1]) if len(sys.argv) > 1 else 24
    places = {}
    for name in sorted(glob.glob("crates/*/src/**/*.rt", recursive=True)):
        for head, text in items(bare(open(name, encoding="utf-8").read())):
            tokens = shape(text)
            if len(tokens) >= least:
                where = f"{name[7:]}: {' '.join(head.split())[:60]}"
                places.setdefault(" ".join(tokens), []).append(where)
    twins = [rows for rows in places.values() if len(rows) > 1]
    for rows in twins:
        print(" ~ ".join(rows))
    print(f"{len(twins)} shapes in {sum(map(len, twins))} places")


main()
