//! The front part of a map, or of a spare copy of it.

use super::{answered, apart, layout_of, refused_for, Row};
use crate::answer::Answer;
use crate::exports::*;
use crate::kinds::{bytes_len, layout, number};
use crate::layouts::size_at;
use crate::random::Random;
use crate::table::{self, first};
use crate::width::{BITS, M, NARROW};

const SPARE: &str = "the spare serves";
const NEITHER: &str = "neither serves";

pub const ROWS: &[Row] = &[Row {
    number: 50,
    name: "which_serves",
    inputs: &[&[
        layout("layout"),
        number("map_addr"),
        bytes_len("map_len"),
        number("spare_addr"),
        bytes_len("spare_len"),
    ]],
    values: 4,
    cells: &[
        answered("the map serves"),
        answered("the map serves, with no bytes"),
        refused_for(10, NEITHER),
        refused_for(11, SPARE),
        refused_for(12, SPARE),
        refused_for(13, SPARE),
        refused_for(11, NEITHER),
        refused_for(12, NEITHER),
        refused_for(13, NEITHER),
        apart(1),
        apart(2),
        apart(21),
        apart(22),
    ],
    modifier: None,
    label: which,
    pages: &[
        &[4, 3, 8, 9, 1, 5, 0, 16, 0, 16],
        &[4, 3, 8, 9, 1, 5, 1, 16, 0, 15],
        &[4, 3, 8, 9, 1, 5, 1, 16, 2, 15],
        &[4, 3, 8, 9, 1, 5, 0, 11, 4, 12],
        &[1, 3, 0, 0, 1, 1, 7, 0, 8, 8],
        &[4, 3, 8, 9, 0, 5, 0, 16, 0, 16],
    ],
    aim: at_two_casts,
    ours: |i| lukaripe_which_serves(Words(layout_of(i)), i[6], i[7], i[8], i[9]).into(),
    apart: |i| first(&table::layout(layout_of(i))).map(|layout| neither(layout.refusal, layout.refusal)),
    rust: by_the_casts,
}];

fn neither(map: u64, spare: u64) -> Answer {
    Told { refusal: map, values: [spare, 0, 0, 0] }.into()
}

/// "The map serves when its prefix cast is granted, the spare when its own is and the map's is not", by the Rust.
fn by_the_casts(inputs: &[u64]) -> Answer {
    let cast = |addr, len| {
        // A length that does not fit is lent on a machine of 64 bits alone, and its sum with any address passes M.
        let (addr, len) = if len > M { (M, M) } else { (addr, len) };
        oracle::said(|| oracle::validate_cast_and_convert_metadata(layout_of(inputs), addr, len, false))
    };
    match (cast(inputs[6], inputs[7]), cast(inputs[8], inputs[9])) {
        (Ok([count, split]), _) => Told { refusal: 0, values: [0, 1, count, split] }.into(),
        (Err(map), Ok([count, split])) => Told { refusal: map, values: [0, 2, count, split] }.into(),
        (Err(map), Err(spare)) => neither(map, spare),
    }
}

fn which(_: &[u64], answer: &Answer) -> &'static str {
    match (answer.values[1], answer.values[3]) {
        (0, _) => NEITHER,
        (1, 0) => "the map serves, with no bytes",
        (1, _) => "the map serves",
        _ => SPARE,
    }
}

/// Lengths near a size, and addresses that are mostly aligned or a little off, the map's more often.
fn at_two_casts(random: &mut Random, inputs: &mut [u64]) {
    for at in [6, 8] {
        let counts = random.one_of(&[4, 64, 1 << 20, 1 << (BITS - 2)]);
        let count = random.below(counts);
        inputs[at + 1] = random.near(size_at(layout_of(inputs), count));
        let aligned = inputs[0].wrapping_mul(random.below(1 << 8));
        inputs[at] = match random.below(4) {
            0 => random.near(aligned),
            1 if at == 6 => random.near(aligned),
            // Up to M, or just past it.
            2 => random.near(M.wrapping_sub(inputs[at + 1])),
            _ => aligned,
        };
        if NARROW && random.one_in(16) {
            inputs[at + 1] += (M + 1) << random.below(3);
        }
    }
}
