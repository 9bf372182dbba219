#!/usr/bin/env python3
"""Functions of the source that are alike but for names, types, numbers and texts: python3 tools/twins.py [LINES]

Prints each group of functions, of LINES body lines at least (3 if not said), whose bodies are equal with every name, number and text blanked."""
import collections
import pathlib
import re
import sys

least = int(sys.argv[1]) if len(sys.argv) > 1 else 3
root = pathlib.Path(__file__).resolve().parent.parent
KEPT = {"let", "mut", "if", "else", "match", "while", "for", "in", "return", "as", "fn", "loop", "break"}
groups = collections.defaultdict(list)
for path in sorted(root.glob("crates/*/src/*.rt")):
    text = re.sub(r"//[^\n]*", "", path.read_text())
    for found in re.finditer(r'^( *)(?:pub )?(?:extern "C" )?fn (\w+)[^\n]*?(?:\n.*?)?\n?\1?\{\n(.*?)\n\1\}', text, re.M | re.S):
        body = found[3]
        if len([line for line in body.split("\n") if line.strip()]) < least:
            continue
        words = re.findall(r'b?"(?:[^"\\]|\\.)*"|b?\'(?:[^\'\\]|\\.)\'|\w+|[^\w\s]', body)
        shape = " ".join(word if word in KEPT or not re.match(r'\w|b?["\']', word) else "x" for word in words)
        groups[shape].append(f"{path.parent.parent.name}::{found[2]}")
alike = [names for names in groups.values() if len(names) > 1]
for names in sorted(alike):
    print(" ".join(names))
print(f"{len(alike)} groups, {sum(map(len, alike))} functions")
