//! Descriptions to read.

use super::random::Random;
use super::sets::{Bits, Set};

/// A struct of as many members, each at least one byte, the last of them a slice.
pub fn wide(random: &mut Random, set: Set, tag: u8, members: u8) -> Vec<u8> {
    let mut out = head(random, set, tag, members);
    for _ in 1..members {
        match random.below(8) {
            0 => {
                out.extend(head(random, set, tag, 3));
                out.extend((0..3).map(|_| scalar(random)));
            }
            1 => {
                out.push(16);
                out.extend((random.below(1 << 16) as u32).to_le_bytes());
                out.push(scalar(random));
            }
            _ => out.push(scalar(random)),
        }
    }
    out.extend([18, scalar(random)]);
    out
}

/// Structs of two members, each in the one before: with the slice in the last there are 15 parts open.
pub fn deep(random: &mut Random, set: Set, tag: u8) -> Vec<u8> {
    let mut out = Vec::new();
    for _ in 0..14 {
        out.extend(head(random, set, tag, 2));
        out.push(scalar(random));
    }
    out.extend([18, scalar(random)]);
    out
}

fn scalar(random: &mut Random) -> u8 {
    random.below(9) as u8
}

/// The head of a struct with this tag, typically without alignment and packing.
fn head(random: &mut Random, set: Set, tag: u8, members: u8) -> Vec<u8> {
    let power = |random: &mut Random| match set {
        Set::Typical | Set::Refused if random.one_in(8) => 1 + random.below(6),
        Set::Typical | Set::Refused => 0,
        Set::Random => random.below(1 + Bits::ALL.exponent(30)),
        Set::Worst => Bits::ALL.exponent(20) + random.below(1 + Bits::ALL.exponent(10)),
    };
    let mut out = vec![tag, power(random) as u8, power(random) as u8, members];
    if tag == 19 {
        out.push(0);
    }
    out
}
