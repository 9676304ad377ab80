#!/usr/bin/env python3
"""Writes random repr(C) types, and what rustc itself says of each, as a Rust source.

    refusals.py OUT_DIR CASES SEED RUSTC...

A type asks for an alignment, a packing, both or neither. It has up to four members: scalars, types before it and arrays
of these; the last may be a slice, or a type that ends in one. OUT_DIR/judged.rs has them all, a line each, for rustc to
judge, and strict.rs beside this script includes OUT_DIR/refusals.rs. Each type is judged on its own: what the Reference
forbids is no member of another.
"""

import json
import random
import subprocess
import sys
from dataclasses import dataclass

SCALARS = ["u8", "u16", "u32", "u64", "u128", "f32", "f64", "char", "bool", "usize"]
# How deep types stand in types.
DEPTH = 4
# E0587: an alignment and a packing on one type. E0588: an aligned type inside a packed one.
CODES = ["E0587", "E0588"]


@dataclass
class Member:
    # A scalar's name, or the type.
    element: object
    # As "[T; 3]" and "array({}, 3)" with T in place of the braces; alone, the element itself.
    written: str = "{}"
    told: str = "alone({})"

    def type(self):
        return self.element if isinstance(self.element, Type) else None

    def in_rust(self):
        return self.written.format(self.type().name() if self.type() else self.element)

    def in_cases(self):
        element = f"Type({self.type().index})" if self.type() else f"scalar::<{self.element}>()"
        return self.told.format(element)


def array(element, count):
    return Member(element, f"[{{}}; {count}]", f"array({{}}, {count})")


def slice_of(element):
    return Member(element, "[{}]", "slice({})")


@dataclass
class Type:
    index: int
    align: int
    packing: int
    members: list
    ends_in_slice: bool = False

    def __post_init__(self):
        inner = [member.type() for member in self.members if member.type()]
        self.depth = 1 + max((one.depth for one in inner), default=0)
        # Whether it or something in it, at any depth, asks for an alignment.
        self.aligned = self.align > 0 or any(one.aligned for one in inner)
        # Whether the Reference allows it, which allows its members.
        self.allowed = not (self.packing and self.aligned)

    def name(self):
        return f"T{self.index}"

    def in_rust(self):
        packed = random.choice(["packed", "packed(1)"]) if self.packing == 1 else f"packed({self.packing})"
        asked = [f"align({self.align})"] * (self.align > 0) + [packed] * (self.packing > 0)
        random.shuffle(asked)
        fields = ", ".join(f"f{at}: {member.in_rust()}" for at, member in enumerate(self.members))
        return f"#[repr({', '.join(['C', *asked])})] struct {self.name()} {{ {fields} }}"

    def in_cases(self, code):
        members = ", ".join(member.in_cases() for member in self.members)
        asked = f"align: {self.align}, packing: {self.packing}, members: &[{members}]"
        return f'Case {{ {asked}, allowed: {str(self.allowed).lower()}, rustc: "{code}" }},'


def one_in(times):
    return random.randrange(times) == 0


def given():
    """What is easily missed: alignment 1, a packing that lowers nothing, and aligned types in arrays, of none too."""
    one = Type(0, 1, 0, [Member("u8")])
    holds_array = Type(1, 0, 0, [Member("u8"), array(one, 2)])
    holds_it = Type(2, 0, 0, [Member(one), Member("u32")])
    return [
        one,
        holds_array,
        holds_it,
        Type(3, 1, 1, []),
        Type(4, 8, 2, [Member(one)]),
        Type(5, 0, 1, [Member(one)]),
        Type(6, 0, 16, [Member("u8"), Member(holds_it)]),
        Type(7, 0, 1, [array(one, 0)]),
        Type(8, 0, 1, [Member(holds_array)]),
        Type(9, 0, 2, [Member("u8"), slice_of(one)], True),
        Type(10, 0, 1, [array(one, 3), Member(one)]),
    ]


def draw(index, before):
    """A type whose members may be among those before it."""
    packing = random.choice([1, 1, 2, 4, 8, 16]) if one_in(2) else 0
    align = 2 ** random.randrange(7) if one_in(8 if packing else 2) else 0
    usable = [other for other in before if other.depth < DEPTH and other.allowed]
    whole = [other for other in usable if not other.ends_in_slice]
    ending = [other for other in usable if other.ends_in_slice]

    def element():
        return random.choice(whole) if whole and one_in(2) else random.choice(SCALARS)

    def fixed():
        return array(element(), random.randrange(4)) if one_in(3) else Member(element())

    members = [fixed() for _ in range(random.randrange(4))]
    ends_in_slice = one_in(4)
    if ends_in_slice:
        members.append(Member(random.choice(ending)) if ending and one_in(2) else slice_of(element()))
    return Type(index, align, packing, members, ends_in_slice)


def rustc_says(rustc, source, types):
    """The code by which rustc refuses each type, "" where it takes it."""
    command = [*rustc, "--edition", "2021", "--crate-type", "lib", "--emit=metadata", "--error-format=json"]
    ran = subprocess.run([*command, "-o", f"{source}.rmeta", source], stderr=subprocess.PIPE, text=True)
    codes = [""] * len(types)
    for said in map(json.loads, ran.stderr.splitlines()):
        # The last one only counts the others.
        if said["level"] != "error" or said["message"].startswith("aborting due to"):
            continue
        code = said["code"] and said["code"]["code"]
        if code not in CODES:
            sys.exit(f"refusals.py: rustc refuses {source} by something else: {said['rendered']}")
        at = next(span["line_start"] for span in said["spans"] if span["is_primary"])
        # The first line is none of a type.
        codes[at - 2] = code
    if (ran.returncode != 0) != any(codes):
        sys.exit(f"refusals.py: rustc ends with {ran.returncode} on {source}:\n{ran.stderr}")
    return codes


def main():
    if len(sys.argv) < 5:
        sys.exit("refusals.py: usage: refusals.py OUT_DIR CASES SEED RUSTC...")
    out, cases = sys.argv[1], int(sys.argv[2])
    random.seed(int(sys.argv[3]))
    types = given()
    while len(types) < cases:
        types.append(draw(len(types), types))
    source = f"{out}/judged.rs"
    with open(source, "w", encoding="utf-8") as file:
        file.write("\n".join(["#![allow(dead_code)]", *(one.in_rust() for one in types)]) + "\n")
    lines = [one.in_cases(code) for one, code in zip(types, rustc_says(sys.argv[4:], source, types))]
    with open(f"{out}/refusals.rs", "w", encoding="utf-8") as file:
        file.write("\n".join(["const CASES: &[Case] = &[", *lines, "];"]) + "\n")


main()
