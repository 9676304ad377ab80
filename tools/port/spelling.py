#!/usr/bin/env python3
"""Brings the repository's own definitions and lemmas to the spelling of today's Rattle: words in snake case.

usage: python3 tools/port/spelling.py [--look]        at the top of the repository, once, after the kit's port.py

What turns, in .antt files, in the clauses and ghost items of .rt files, and in must-fail edits and pages that name them:
- words in camel case with a small first letter: sizeAt is size_at, answersIn32 is answers_in32;
- a dash between the words of a lemma's or definition's name: one-padding is one_padding. Names that Rattle makes of a function's
  code keep theirs (they stand in proofs/F alone), and so do the library's.
Types and modules keep their capitals, and so do A, B, M, R and p, the letters of the papers' formulas.
Where a turned name would fall together with another of the same file, the lemma gets the ending _lem.
--look writes nothing, and prints each pair that would fall together.
"""
import collections
import os
import re
import subprocess
import sys

WORD = re.compile(r"[^\s(){}.;,@\"«»\[\]|`]+")
CAMEL = re.compile(r"[a-z][a-zA-Z0-9]*[A-Z][a-zA-Z0-9]*$")
TOP = re.compile(r"((?:(?:unfoldable|abbrev|opaque|pub)\s+)*)((?:record|data|ruleset)\s+)?([^\s(){}.;,@\"«»:]+)(.*)$")
NOT_TOP = (" ", "--", "use ", "pub use", "mod ", "pub mod", "unfolding", "infix")
# what the library calls so, and what Rattle makes
KEPT = {"uint_Tells", "uint_Makes", "mut_Tells", "walk_Meets", "shr_slice_Tells", "shr_slice_Lawful"}


def snake(word):
    word = re.sub(r"([a-z0-9])([A-Z])", r"\1_\2", word)
    return re.sub(r"([A-Z])([A-Z][a-z])", r"\1_\2", word).lower()


def files(root, *endings):
    for folder, dirs, names in os.walk(root):
        dirs[:] = sorted(d for d in dirs if d not in ("out", ".git", "port"))
        for name in sorted(names):
            if name.endswith(endings):
                yield os.path.join(folder, name)


def of_function(path):
    """a proof of one function, in a folder of its own: most of its names are Rattle's"""
    inside = path.split("/proofs/")
    return len(inside) == 2 and "/" in inside[1]


def tops(text):
    for line in text.split("\n"):
        m = TOP.match(line)
        if m and not line.startswith(NOT_TOP) and (m.group(2) or re.match(r"\s*:", m.group(4))):
            yield m.group(3)


def code(line):
    """a line of antt and its comment"""
    m = re.match(r"(.*?(?:^|\s))(--(?:\s.*)?)$", line)
    return (m.group(1), m.group(2)) if m else (line, "")


def words(text):
    for line in text.split("\n"):
        for m in WORD.finditer(code(line)[0]):
            yield m.group()


def gather(root):
    """the turned spelling of each name"""
    table = {}
    dashed = set()
    for path in files(os.path.join(root, "crates"), ".antt"):
        with open(path, encoding="utf-8") as f:
            text = f.read()
        for word in words(text):
            if word not in KEPT and CAMEL.match(word):
                table[word] = snake(word)
        if not of_function(path):
            for name in tops(text):
                if "-" in name and name not in KEPT:
                    dashed.add(name)
    for name in dashed:
        parts = [snake(p) if CAMEL.match(p) else p for p in name.split("-")]
        table[name] = "_".join(parts)
    return table


def fallen(root, table):
    """pairs of words of one file that are one word after the turn"""
    found = collections.defaultdict(set)
    for path in files(os.path.join(root, "crates"), ".antt", ".rt"):
        with open(path, encoding="utf-8") as f:
            text = f.read()
        at = collections.defaultdict(set)
        for word in set(words(text)):
            at[table.get(word, word)].add(word)
        for new, olds in at.items():
            if len(olds) > 1:
                found[(new, tuple(sorted(olds)))].add(os.path.relpath(path, root))
    return found


def settled(root, table):
    """the table with the ending _lem where a lemma's name would fall together with another"""
    own = {n for p in files(os.path.join(root, "crates"), ".antt") if not of_function(p) for n in tops(open(p, encoding="utf-8").read())}
    # lemmas that stand inside a where
    own |= {"is_normal", "count_cut", "length_to"}
    for (new, olds), where in fallen(root, table).items():
        if all(p.endswith(".rt") for p in where):
            continue
        lemmas = [o for o in olds if "-" in o and o in table] or [o for o in olds if o == new and o in own]
        if any(CAMEL.match(o) for o in olds) or len(lemmas) < len(olds):
            for lemma in lemmas:
                table[lemma] = new + "_lem"
    return table


def turned(text, table):
    return WORD.sub(lambda m: table.get(m.group(), m.group()), text)


def main():
    root = subprocess.run(["git", "rev-parse", "--show-toplevel"], capture_output=True, text=True, check=True).stdout.strip()
    table = settled(root, gather(root))
    left = [(new, olds, sorted(where)) for (new, olds), where in fallen(root, table).items() if not all(p.endswith(".rt") for p in where)]
    for new, olds, where in sorted(left):
        print("falls together:", new, *olds, where[0])
    if "--look" in sys.argv:
        for old, new in sorted(table.items()):
            print(old, new, sep="\t")
        return
    with open(os.path.join(root, "tools", "port", "spelling.tsv"), "w", encoding="utf-8") as f:
        f.writelines(f"{old}\t{new}\n" for old, new in sorted(table.items()))
    camel = {o: n for o, n in table.items() if CAMEL.match(o)}
    for path in files(os.path.join(root, "crates"), ".antt", ".rt", ".edit"):
        with open(path, encoding="utf-8") as f:
            text = f.read()
        of_proofs = path.endswith(".antt") or (path.endswith(".edit") and re.search(r"^file: \S+\.antt$", text, re.M))
        new = turned(text, table if of_proofs else camel)
        if new != text:
            with open(path, "w", encoding="utf-8") as f:
                f.write(new)


main()
