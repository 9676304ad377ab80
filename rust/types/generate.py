#!/usr/bin/env python3
"""Writes random repr(C) structs as a Rust source, which main.rs beside this script includes.

    generate.py OUT_FILE CASES SEED

A struct has up to six members: scalars, arrays of them, and structs before it; in one case of three the last is a slice
or a struct that ends in one. It asks for a packing, an alignment or neither: the compiler takes no packed struct that
holds an aligned one, at any depth.
"""

import random
import sys
from dataclasses import dataclass

SCALARS = ["u8", "u16", "u32", "u64", "u128", "f32", "f64", "char", "bool", "usize"]
# How deep structs stand in structs.
DEPTH = 4


@dataclass
class Type:
    name: str
    ends_in_slice: bool = False
    # Whether it or something in it asked for an alignment.
    aligned: bool = False
    depth: int = 0


def one_in(times):
    return random.randrange(times) == 0


def scalar_or_array():
    scalar = random.choice(SCALARS)
    return Type(f"[{scalar}; {random.randrange(6)}]" if one_in(3) else scalar)


def draw(name, before):
    """A struct whose members may be among the structs before it, and its text."""
    packing = random.choice([1, 2, 4, 8, 16]) if one_in(3) else 0
    align = 2 ** random.randrange(9) if not packing and one_in(3) else 0
    usable = [struct for struct in before if struct.depth < DEPTH and not (packing and struct.aligned)]
    whole = [struct for struct in usable if not struct.ends_in_slice]
    ending = [struct for struct in usable if struct.ends_in_slice]

    def fixed():
        return random.choice(whole) if whole and one_in(4) else scalar_or_array()

    members = [fixed() for _ in range(random.randrange(6))]
    ends_in_slice = one_in(3)
    if ends_in_slice and ending and one_in(2):
        members.append(random.choice(ending))
    elif ends_in_slice:
        element = fixed()
        members.append(Type(f"[{element.name}]", True, element.aligned, element.depth))

    aligned = align > 0 or any(member.aligned for member in members)
    depth = 1 + max((member.depth for member in members), default=0)
    asked = f", packed({packing})" if packing else f", align({align})" if align else ""
    fields = ", ".join(f"f{at}: {member.name}" for at, member in enumerate(members))
    form = "ends_in_slice" if ends_in_slice else "fixed"
    text = f"{form}!(repr(C{asked}), {align}, {packing}, {name} {{ {fields} }});"
    return Type(name, ends_in_slice, aligned, depth), text


def main():
    if len(sys.argv) != 4:
        sys.exit("generate.py: usage: generate.py OUT_FILE CASES SEED")
    cases = int(sys.argv[2])
    random.seed(int(sys.argv[3]))
    structs, lines = [], []
    for at in range(cases):
        struct, text = draw(f"S{at}", structs)
        structs.append(struct)
        lines.append(text)
    checks = [f"    {struct.name}::check," for struct in structs]
    lines += ["const CHECKS: &[Check] = &[", *checks, "];"]
    with open(sys.argv[1], "w", encoding="utf-8") as out:
        out.write("\n".join(lines) + "\n")


main()
