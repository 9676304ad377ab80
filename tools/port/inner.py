#!/usr/bin/env python3
"""The second pass of spelling.py: the lemmas that stand inside a section or a where, by the rows of inner.tsv.

usage: python3 tools/port/inner.py        at the top of the repository, after spelling.py; a second run changes nothing
"""
import os
import re
import subprocess

WORD = re.compile(r"[^\s(){}.;,@\"«»\[\]|`]+")
root = subprocess.run(["git", "rev-parse", "--show-toplevel"], capture_output=True, text=True, check=True).stdout.strip()
with open(os.path.join(root, "tools", "port", "inner.tsv"), encoding="utf-8") as f:
    table = dict(line.rstrip("\n").split("\t") for line in f)
for folder, dirs, names in os.walk(os.path.join(root, "crates")):
    dirs[:] = [d for d in dirs if d != "out"]
    for name in names:
        path = os.path.join(folder, name)
        if not name.endswith(".antt"):
            continue
        with open(path, encoding="utf-8") as f:
            text = f.read()
        new = WORD.sub(lambda m: table.get(m.group(), m.group()), text)
        if new != text:
            with open(path, "w", encoding="utf-8") as f:
                f.write(new)
