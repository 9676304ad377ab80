//! What a parameter stands for, which decides the values that are worth trying.

use crate::cases;
use crate::inputs::Input;
use crate::layouts;
use crate::lists;
use crate::moves::{FROM, TO};
use crate::random::Random;
use crate::runs;
use crate::shorts;
use crate::width::{BITS, M, NARROW, TOP};

pub struct Kind {
    /// The names of its numbers, where it has several and always as many.
    pub names: &'static [&'static str],
    /// What its numbers are.
    pub holds: Holds,
    /// A good value, and bad ones to try in its place.
    pub good: &'static [u64],
    pub bad: &'static [&'static [u64]],
    /// Every small value; the level says how many numbers count as small.
    pub small: fn(u64) -> Vec<Vec<u64>>,
    pub boundaries: Boundaries,
    /// Appends a random value to the numbers drawn so far.
    pub draw: fn(&mut Random, &mut Vec<u64>),
}

#[derive(Clone, Copy, PartialEq, Eq)]
pub enum Holds {
    /// Numbers that are handed over, which have the width.
    Words,
    /// Bytes, or lengths of them, which have 64 bits at any width.
    Bytes,
}

/// The values at the boundaries of the numbers: so few that they are listed, or drawn.
pub enum Boundaries {
    Listed(&'static [u64]),
    Drawn(fn(&mut Random, &mut Vec<u64>)),
}

impl Boundaries {
    pub fn draw(&self, random: &mut Random, case: &mut Vec<u64>) {
        match self {
            Boundaries::Listed(values) => case.push(random.one_of(values)),
            Boundaries::Drawn(draw) => draw(random, case),
        }
    }
}

/// 2^29 is the greatest alignment of a type, and HALF the least number whose square does not fit.
pub const BOUNDARIES: [u64; 16] = [
    0,
    1,
    2,
    3,
    (1 << 29) - 1,
    1 << 29,
    (1 << 29) + 1,
    1 << 30,
    HALF - 1,
    HALF,
    HALF + 1,
    TOP - 1,
    TOP,
    TOP + 1,
    M - 1,
    M,
];

pub const HALF: u64 = 1 << (BITS / 2);

const NUMBER: Kind = Kind {
    names: &[],
    holds: Holds::Words,
    good: &[9],
    bad: &[],
    small: numbers,
    boundaries: Boundaries::Listed(&BOUNDARIES),
    draw: |random, case| {
        let number = if !case.is_empty() && random.one_in(4) {
            // Next to one before it, so that numbers meet.
            let before = random.one_of(case);
            random.near(before)
        } else {
            any(random)
        };
        case.push(number);
    },
};

const ALIGN: Kind = Kind {
    good: &[8],
    bad: &[&[0], &[3]],
    draw: |random, case| case.push(if random.one_in(8) { any(random) } else { power_of_two(random) }),
    ..NUMBER
};

const WORD: Kind = Kind {
    good: &[12],
    bad: &[&[0]],
    draw: |random, case| case.push(if random.one_in(16) { 0 } else { rounding_word(random) }),
    ..NUMBER
};

/// An alignment or packing where 0 means that none was asked for.
const MODIFIER: Kind = Kind {
    good: &[0],
    bad: &[&[3], &[1 << 30], &[3 << 29]],
    boundaries: Boundaries::Listed(&[0, 1, 2, 3, 1 << 29, (1 << 29) + 1, 1 << 30, 3 << 29, TOP, M]),
    draw: |random, case| {
        let modifier = match random.below(16) {
            0 => any(random),
            1 => power_of_two(random),
            2..=6 => 1 << random.below(5),
            _ => 0,
        };
        case.push(modifier);
    },
    ..NUMBER
};

const FLAG: Kind = Kind {
    good: &[0],
    small: |_| vec![vec![0], vec![1]],
    boundaries: Boundaries::Listed(&[0, 1]),
    draw: |random, case| case.push(random.below(2)),
    ..NUMBER
};

/// Which conversion its parameters are for.
const VARIANT: Kind = Kind {
    good: &[2],
    small: |_| vec![vec![0], vec![1], vec![2], vec![3]],
    draw: |random, case| case.push(if random.one_in(16) { any(random) } else { random.below(3) }),
    ..NUMBER
};

/// The length of a lent buffer: a record's or another, and a small one, since so many bytes are lent.
const LENGTH: Kind = Kind {
    good: &[48],
    bad: &[&[0], &[47], &[49], &[96]],
    small: |_| vec![vec![0], vec![47], vec![48], vec![49]],
    boundaries: Boundaries::Listed(&[0, 1, 47, 48, 49, 96]),
    draw: |random, case| case.push(if random.one_in(8) { random.below(128) } else { 48 }),
    ..NUMBER
};

/// The same of a short record.
const SHORT_LENGTH: Kind = Kind {
    good: &[32],
    bad: &[&[0], &[31], &[33], &[48], &[64]],
    small: |_| vec![vec![0], vec![31], vec![32], vec![33]],
    boundaries: Boundaries::Listed(&[0, 1, 31, 32, 33, 48, 64]),
    draw: |random, case| case.push(if random.one_in(8) { random.below(128) } else { 32 }),
    ..NUMBER
};

/// The length in bytes of what is lent somewhere else. It has 64 bits at any width.
const BYTES_LEN: Kind = Kind {
    holds: Holds::Bytes,
    boundaries: Boundaries::Listed(if NARROW { &[0, 1, 2, M - 1, M, M + 1, M + 2, u64::MAX] } else { &BOUNDARIES }),
    draw: |random, case| {
        (NUMBER.draw)(random, case);
        if NARROW {
            let number = case.pop().unwrap() & M;
            case.push(if random.one_in(16) { number + M + 1 } else { number });
        }
    },
    ..NUMBER
};

const LAYOUT: Kind = Kind {
    names: &["align", "kind", "size_base", "offset", "elem_size", "word"],
    holds: Holds::Words,
    good: &[8, 1, 16, 0, 0, 0],
    bad: &[
        &[8, 8, 16, 0, 0, 0],
        &[0, 1, 16, 0, 0, 0],
        &[3, 4, 16, 0, 0, 0],
        &[8, 0, 16, 1, 0, 0],
        &[8, 5, 16, 0, 1, 0],
        &[8, 4, 16, 0, 0, 1],
        &[8, 2, 16, 9, 9, 0],
        &[8, 7, 16, 9, 9, 0],
        // Two at once.
        &[3, 8, 16, 0, 0, 0],
        &[3, 1, 16, 0, 0, 1],
        &[3, 6, 16, 9, 9, 0],
        &[8, 12, 16, 9, 9, 0],
    ],
    small: |level| layouts::small(level).into_iter().map(Vec::from).collect(),
    boundaries: Boundaries::Drawn(|random, case| case.extend(layouts::at_boundaries(random))),
    draw: |random, case| case.extend(layouts::draw(random)),
};

/// A layout that a member is added to, mostly fixed.
const PRECEDING: Kind = Kind {
    small: |level| layouts::small_preceding(level).into_iter().map(Vec::from).collect(),
    boundaries: Boundaries::Drawn(|random, case| case.extend(layouts::preceding_at_boundaries(random))),
    draw: |random, case| case.extend(layouts::draw_preceding(random)),
    ..LAYOUT
};

/// The bytes of a record.
const RECORD: Kind = Kind {
    names: &[],
    holds: Holds::Bytes,
    good: &[48, 8, 3, 16, 9, 9, 12],
    bad: &[],
    small: lists::small_records,
    boundaries: Boundaries::Drawn(|random, case| {
        let layout = layouts::at_boundaries(random);
        let layout = lists::widened(random, layout);
        case.extend(lists::record(random, layout));
    }),
    draw: |random, case| {
        let layout = layouts::draw(random);
        let layout = lists::widened(random, layout);
        case.extend(lists::record(random, layout));
    },
};

/// The bytes of a member list.
const LIST: Kind = Kind {
    names: &[],
    holds: Holds::Bytes,
    good: &[96, 8, 1, 16, 0, 0, 0, 1, 3, 0, 0, 1, 1],
    bad: &[&[95, 8, 1, 16, 0, 0, 0, 1, 3, 0, 0, 1, 1], &[48, 8, 8, 16, 0, 0, 0]],
    small: lists::small,
    boundaries: Boundaries::Drawn(|random, case| case.extend(lists::at_boundaries(random))),
    draw: |random, case| case.extend(lists::draw(random)),
};

/// The lengths of two lent slices, an index, and the bytes of a member list. They come together, since the lengths are
/// mostly the member count.
const LENT_LIST: Kind = Kind {
    good: &[2, 2, 1, 96, 8, 1, 16, 0, 0, 0, 1, 3, 0, 0, 1, 1],
    bad: &[
        &[2, 2, 1, 95, 8, 1, 16, 0, 0, 0, 1, 3, 0, 0, 1, 1],
        &[3, 2, 0, 96, 8, 1, 16, 0, 0, 0, 1, 3, 0, 0, 1, 1],
        &[2, 1, 0, 96, 8, 1, 16, 0, 0, 0, 1, 3, 0, 0, 1, 1],
        &[1, 1, 0, 48, 8, 8, 16, 0, 0, 0],
    ],
    small: lists::small_lent,
    boundaries: Boundaries::Drawn(|random, case| case.extend(lists::lent_at_boundaries(random))),
    draw: |random, case| case.extend(lists::draw_lent(random)),
    ..LIST
};

/// A run of additions to a working layout.
const RUN: Kind = Kind {
    good: &[0, 48, 8, 1, 16, 0, 0, 0, 1, 48, 1, 3, 0, 0, 1, 1],
    bad: &[
        &[0, 48, 8, 8, 16, 0, 0, 0, 1, 48, 1, 3, 0, 0, 1, 1],
        &[0, 48, 8, 1, 16, 0, 0, 0, 1, 47, 1, 3, 0, 0, 1, 1],
        &[2, 3, 1, 16, 0, 0, 0, 48, 8, 1, 16, 0, 0, 0],
        &[3, 1, 6, 16, 9, 9, 0, 48, 8, 1, 16, 0, 0, 0],
    ],
    small: runs::small,
    boundaries: Boundaries::Drawn(|random, case| case.extend(runs::at_boundaries(random))),
    draw: |random, case| case.extend(runs::draw(random)),
    ..LIST
};

/// The bytes of a short record. The last word has the rounding word, the power, the kind and two bytes more.
const SHORT_RECORD: Kind = Kind {
    good: &[32, 16, 9, 9, 0x303_0000_000c],
    bad: &[],
    small: shorts::small_records,
    boundaries: Boundaries::Drawn(|random, case| case.extend(shorts::record_at_boundaries(random))),
    draw: |random, case| case.extend(shorts::draw_record(random)),
    ..LIST
};

/// The length of the output, the word from which on it is looked at, and the bytes of records to move. They come
/// together, since the length is mostly the one that the records take.
const RECORDS_TO_MOVE: Kind = Kind {
    good: &[64, 0, 96, 8, 1, 16, 0, 0, 0, 1, 3, 0, 0, 1, 1],
    bad: &[
        &[64, 0, 95, 8, 1, 16, 0, 0, 0, 1, 3, 0, 0, 1, 1],
        &[63, 0, 96, 8, 1, 16, 0, 0, 0, 1, 3, 0, 0, 1, 1],
        &[64, 0, 96, 8, 1, 16, 0, 0, 0, 1, 3, 0, 0, 1, 1 << 32],
    ],
    small: |level| shorts::small(&TO, level),
    boundaries: Boundaries::Drawn(|random, case| case.extend(shorts::at_boundaries(random, &TO))),
    draw: |random, case| case.extend(shorts::draw(random, &TO)),
    ..LIST
};

const SHORTS_TO_MOVE: Kind = Kind {
    good: &[96, 0, 64, 16, 0, 0, 0x103_0000_0000, 0, 0, 1, 0x300_0000_0001],
    bad: &[
        &[96, 0, 63, 16, 0, 0, 0x103_0000_0000, 0, 0, 1, 0x300_0000_0001],
        &[95, 0, 64, 16, 0, 0, 0x103_0000_0000, 0, 0, 1, 0x300_0000_0001],
        &[96, 0, 64, 16, 0, 0, 0x103_0000_0000, 0, 0, 1, 0x340_0000_0001],
    ],
    small: |level| shorts::small(&FROM, level),
    boundaries: Boundaries::Drawn(|random, case| case.extend(shorts::at_boundaries(random, &FROM))),
    draw: |random, case| case.extend(shorts::draw(random, &FROM)),
    ..LIST
};

/// The length of lists, the length of the output, and the word from which on it is looked at.
const CASES_WANTED: Kind = Kind {
    good: &[1, 200, 15],
    bad: &[&[7, 200, 0], &[1, 199, 15]],
    small: cases::small,
    boundaries: Boundaries::Drawn(cases::draw),
    draw: cases::draw,
    ..LIST
};

pub const fn number(name: &'static str) -> Input {
    Input { name, kind: &NUMBER }
}

pub const fn align(name: &'static str) -> Input {
    Input { name, kind: &ALIGN }
}

pub const fn word(name: &'static str) -> Input {
    Input { name, kind: &WORD }
}

pub const fn modifier(name: &'static str) -> Input {
    Input { name, kind: &MODIFIER }
}

pub const fn flag(name: &'static str) -> Input {
    Input { name, kind: &FLAG }
}

pub const fn variant(name: &'static str) -> Input {
    Input { name, kind: &VARIANT }
}

pub const fn length(name: &'static str) -> Input {
    Input { name, kind: &LENGTH }
}

pub const fn bytes_len(name: &'static str) -> Input {
    Input { name, kind: &BYTES_LEN }
}

pub const fn layout(name: &'static str) -> Input {
    Input { name, kind: &LAYOUT }
}

pub const fn preceding(name: &'static str) -> Input {
    Input { name, kind: &PRECEDING }
}

pub const fn record(name: &'static str) -> Input {
    Input { name, kind: &RECORD }
}

pub const fn list(name: &'static str) -> Input {
    Input { name, kind: &LIST }
}

pub const fn lent_list(name: &'static str) -> Input {
    Input { name, kind: &LENT_LIST }
}

pub const fn additions(name: &'static str) -> Input {
    Input { name, kind: &RUN }
}

pub const fn short_length(name: &'static str) -> Input {
    Input { name, kind: &SHORT_LENGTH }
}

pub const fn short_record(name: &'static str) -> Input {
    Input { name, kind: &SHORT_RECORD }
}

pub const fn cases_wanted(name: &'static str) -> Input {
    Input { name, kind: &CASES_WANTED }
}

pub const fn records_to_move(name: &'static str) -> Input {
    Input { name, kind: &RECORDS_TO_MOVE }
}

pub const fn shorts_to_move(name: &'static str) -> Input {
    Input { name, kind: &SHORTS_TO_MOVE }
}

/// The numbers from 0 up.
fn numbers(level: u64) -> Vec<Vec<u64>> {
    (0..level).map(|number| vec![number]).collect()
}

pub fn any(random: &mut Random) -> u64 {
    match random.below(4) {
        0 => random.below(32),
        1 => random.one_of(&BOUNDARIES),
        2 => {
            let power = 1 << random.below(BITS);
            random.near(power)
        }
        _ => random.log_uniform(),
    }
}

/// Half of them up to 128, since those meet sizes that are not huge.
pub fn power_of_two(random: &mut Random) -> u64 {
    let powers = if random.one_in(2) { 8 } else { BITS };
    1 << random.below(powers)
}

/// Any alignment with a phase, often 0, 1 or the greatest.
pub fn rounding_word(random: &mut Random) -> u64 {
    let align = power_of_two(random);
    let phase = match random.below(4) {
        0 => 0,
        1 => 1,
        2 => align - 1,
        _ => random.next(),
    };
    align + (phase & (align - 1))
}
