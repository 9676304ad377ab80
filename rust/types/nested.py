#!/usr/bin/env python3
"""Writes random types inside types as a Rust source, which nested.rs beside this script includes.

    nested.py OUT_FILE CASES SEED

A type is a repr(C) struct of up to six members: scalars, structs before it, and arrays of these and of arrays; in one
case of four the last is a slice of such, or a struct that ends in one. It asks for a packing, an alignment or neither,
and no packed one holds an aligned one, which rustc refuses. Up to sixteen structs, arrays and slices are open at once,
as in a description. One of a hundred has 256 to 300 members more, mostly scalars.
"""

import random
import sys
from dataclasses import dataclass

# Those that have a code.
SCALARS = {"u8": 1, "u16": 2, "u32": 4, "u64": 8, "f32": 4, "f64": 8, "char": 4, "bool": 1, "usize": 8}
DEPTH = 16
# No type has more bytes, its last elements aside, so that some of them stand in main.rs's bytes.
MOST_BYTES = 1 << 18
# One type of so many has more members than a count of one byte has room for.
MANY_IN = 100


@dataclass
class Type:
    name: str
    # It has no more bytes.
    bytes: int
    ends_in_slice: bool = False
    # Whether it or something in it asked for an alignment.
    aligned: bool = False
    # How many structs, arrays and slices are open in it at once.
    depth: int = 0


def one_in(times):
    return random.randrange(times) == 0


def array_of(element):
    """An array of it, or the element itself where that would be too much."""
    count = random.choice([0, 1, 1, 2, 3, 5, 17])
    if element.depth == DEPTH - 1 or element.bytes * count > MOST_BYTES // 8:
        return element
    return Type(f"[{element.name}; {count}]", element.bytes * count, False, element.aligned, element.depth + 1)


def draw(name, before):
    """A struct whose members may be among the structs before it, and its text."""
    packing = random.choice([1, 2, 4, 8, 16]) if one_in(4) else 0
    align = 2 ** random.randrange(9) if not packing and one_in(4) else 0
    usable = [struct for struct in before if struct.depth < DEPTH - 1 and not (packing and struct.aligned)]
    whole = [struct for struct in usable if not struct.ends_in_slice and struct.bytes < MOST_BYTES // 8]
    ending = [struct for struct in usable if struct.ends_in_slice and struct.bytes < MOST_BYTES // 2]

    def scalar():
        name = random.choice(list(SCALARS))
        return Type(name, SCALARS[name])

    def fixed():
        member = random.choice(whole[-40:]) if whole and one_in(2) else scalar()
        while one_in(3):
            member = array_of(member)
        return member

    members = [fixed() for _ in range(random.randrange(6))]
    if one_in(MANY_IN):
        members = [scalar() if random.randrange(8) else fixed() for _ in range(256 + random.randrange(45))] + members
    ends_in_slice = one_in(4)
    if ends_in_slice and ending and one_in(2):
        members.append(random.choice(ending[-20:]))
    elif ends_in_slice:
        element = fixed()
        while element.depth >= DEPTH - 2:
            element = scalar()
        members.append(Type(f"[{element.name}]", 0, True, element.aligned, element.depth + 1))

    aligned = align > 0 or any(member.aligned for member in members)
    depth = 1 + max((member.depth for member in members), default=0)
    # No member is aligned to more than 2^8.
    most = sum(member.bytes + 256 for member in members) + 256
    asked = f", packed({packing})" if packing else f", align({align})" if align else ""
    fields = ", ".join(f"f{at}: {member.name}" for at, member in enumerate(members))
    form = "ends_in_slice" if ends_in_slice else "fixed"
    text = f"{form}!(repr(C{asked}), {align}, {packing}, {name} {{ {fields} }});"
    return Type(name, most, ends_in_slice, aligned, depth), text


def main():
    if len(sys.argv) != 4:
        sys.exit("nested.py: usage: nested.py OUT_FILE CASES SEED")
    random.seed(int(sys.argv[3]))
    structs, lines = [], []
    for at in range(int(sys.argv[2])):
        struct, text = draw(f"N{at}", structs)
        structs.append(struct)
        lines.append(text)
    checks = [f"    {struct.name}::check," for struct in structs]
    lines += ["const CHECKS: &[Check] = &[", *checks, "];"]
    depths = [f"    {struct.name}::DEPTH," for struct in structs]
    lines += ["const DEPTHS: &[usize] = &[", *depths, "];"]
    members = [f"    {struct.name}::MEMBERS," for struct in structs]
    lines += ["const MEMBERS: &[usize] = &[", *members, "];"]
    with open(sys.argv[1], "w", encoding="utf-8") as out:
        out.write("\n".join(lines) + "\n")


main()
