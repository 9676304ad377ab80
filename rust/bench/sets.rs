//! The sets of inputs.

use super::width::{BITS, M, NARROW};

#[derive(Clone, Copy, PartialEq)]
pub enum Set {
    /// As records of pages have them: a few small members, small elements, some hundred of them.
    Typical,
    /// Alignments up to 2^29, and numbers of any length in bits.
    Random,
    /// Great alignments, phases and counts, and conversions that are found by the second way.
    Worst,
    /// Typical ones, each spoilt for the function that is called: it refuses them by each of its numbers in turn.
    Refused,
}

pub const SETS: [Set; 4] = [Set::Typical, Set::Random, Set::Worst, Set::Refused];

impl Set {
    pub fn name(self) -> &'static str {
        match self {
            Set::Typical => "typical",
            Set::Random => "random",
            Set::Worst => "worst",
            Set::Refused => "refused",
        }
    }
}

/// How many bits the numbers of a case have to fit in. The exponents that the random and the worst set have at 64 bits
/// are taken in proportion: at 32 bits they are halved, so that an alignment is at most 2^14. Typical numbers fit as
/// they are.
#[derive(Clone, Copy)]
pub struct Bits(u64);

impl Bits {
    pub const ALL: Bits = Bits(BITS);

    /// Those of a number of which so many are added up. At 64 bits that many have room as they are.
    pub fn of_each(len: u64) -> Bits {
        if NARROW {
            Bits((M / len).ilog2().into())
        } else {
            Bits::ALL
        }
    }

    /// What has this exponent at 64 bits.
    pub fn exponent(self, at_64: u64) -> u64 {
        at_64 * self.0 / 64
    }
}
