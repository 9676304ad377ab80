//! A layout that is built member by member.

use super::layout::{at_the_last_place, STEP, STEPS};
use super::{answered, apart, layout_kind, layout_of, no_label, nowhere, refused, which_layout, Row, ANSWER};
use crate::answer::Answer;
use crate::exports::lukaripe_working_begin;
use crate::kinds::{additions, layout, modifier, preceding, record};
use crate::lent::RECORD;
use crate::random::Random;
use crate::runs;
use crate::table::{has_modifier, two_layouts};
use crate::width::M;

pub const ROWS: &[Row] = &[
    Row {
        number: 38,
        name: "working_begin",
        inputs: &[&[modifier("repr_align")]],
        values: 6,
        cells: &[ANSWER, refused(1)],
        modifier: Some(|i| i[0] != 0),
        label: no_label,
        pages: &[&[0]],
        aim: nowhere,
        ours: |i| lukaripe_working_begin(i[0]).into(),
        apart: |_| None,
        rust: |i| oracle::new_zst(i[0]).into(),
    },
    Row {
        number: 36,
        name: "working_add",
        inputs: &[&[preceding("working"), layout("field"), modifier("repr_packed")]],
        values: 6,
        cells: STEP,
        modifier: Some(|i| has_modifier(i[1]) || has_modifier(i[7])),
        label: which_layout,
        pages: STEPS,
        aim: at_the_last_place,
        ours: |i| altered(runs::add(layout_of(i), layout_of(&i[6..]), i[12])),
        apart: |i| {
            let refused = two_layouts(layout_of(i), layout_of(&i[6..]))?;
            Some(Answer::refused_beside(refused.refusal, layout_of(i)))
        },
        rust: |i| by_the_rust(layout_of(i), &whole(&i[6..12]), i[12]),
    },
    Row {
        number: 37,
        name: "working_add_record",
        // The bytes come last.
        inputs: &[&[preceding("working"), modifier("repr_packed"), record("member")]],
        values: 6,
        cells: &[
            answered("fixed"),
            answered("trailing"),
            answered("fixed, modifier"),
            answered("trailing, modifier"),
            refused(5),
            refused(6),
            refused(7),
            refused(8),
            refused(9),
            apart(1),
            apart(2),
            apart(20),
            apart(21),
            apart(22),
            apart(43).only_at(32),
        ],
        modifier: Some(|i| has_modifier(i[1]) || has_modifier(i[9])),
        label: which_layout,
        pages: &[
            &[4, 1, 9, 0, 0, 0, 0, 48, 1, 3, 0, 0, 1, 1],
            &[4, 5, 8, 0, 0, 0, 2, 48, 4, 6, 8, 9, 1, 5],
            &[1, 3, 0, 0, 1, 1, 0, 48, 1, 1, 1, 0, 0, 0],
            // Whatever else is wrong: the lent words, then the length, then the member's record, then the step.
            &[3, 8, 9, 0, 0, 0, 3, 0],
            &[3, 1, 9, 0, 0, 0, 3, 47, 4, 8, 8, 0, 0, 0],
            &[4, 1, 9, 1, 0, 0, 3, 47, 4, 8, 8, 0, 0, 0],
            &[4, 3, 9, 9, 1, 0, 3, 47, 4, 8, 8, 0, 0, 0],
            &[4, 3, 9, 9, 1, 1, 3, 47, 4, 8, 8, 0, 0, 0],
            &[4, 3, 9, 9, 1, 1, 3, 0],
            &[4, 3, 9, 9, 1, 1, 3, 96, 4, 8, 8, 0, 0, 0, 4, 8, 8, 0, 0, 0],
            &[4, 3, 9, 9, 1, 1, 3, 48, 3, 8, 8, 0, 0, 1],
            &[4, 3, 9, 9, 1, 1, 3, 48, 3, 1, 8, 0, 0, 1],
            &[4, 3, 9, 9, 1, 1, 3, 48, 1 << 30, 1, 8, 0, 0, 1],
            &[4, 3, 9, 9, 1, 1, 3, 48, 1 << 30, 3, 8, 0, 0, 0],
            &[4, 3, 9, 9, 1, 1, 3, 48, 1 << 30, 1, 8, 0, 0, 0],
            &[4, 3, 9, 9, 1, 1, 1, 48, 1 << 30, 1, 8, 0, 0, 0],
            &[4, 3, 9, 9, 1, 1, 1, 48, 4, 1, M, 0, 0, 0],
            &[4, 1, M, 0, 0, 0, 0, 48, 4, 1, M, 0, 0, 0],
            &[4, 1, 9, 0, 0, 0, 0, 48, 4, 1, M, 0, 0, 0],
        ],
        aim: at_the_last_place_by_record,
        ours: |i| altered(runs::add_record(layout_of(i), &i[7..], i[6])),
        apart: |i| {
            let refusal = runs::refusal_apart(layout_of(i), &i[7..])?;
            Some(Answer::refused_beside(refusal, layout_of(i)))
        },
        rust: |i| by_the_rust(layout_of(i), &i[7..], i[6]),
    },
    // What comes of the last step of a run; each one is looked at.
    Row {
        number: 0,
        name: "working",
        inputs: &[&[modifier("repr_align"), modifier("repr_packed"), additions("additions")]],
        values: 7,
        cells: &[
            answered("no additions"),
            answered("fixed"),
            answered("trailing"),
            answered("fixed, modifier"),
            answered("trailing, modifier"),
            refused(1),
            refused(5),
            refused(6),
            refused(7),
            refused(8),
            refused(9),
            apart(20),
            apart(21),
            apart(1),
            apart(22),
            apart(2),
            apart(43).only_at(32),
        ],
        modifier: Some(runs::modifier),
        label: |i, answer| match answer.refusal {
            0 if i.len() == 2 => "no additions",
            0 => layout_kind(answer.values[2]),
            _ => "",
        },
        pages: RUNS,
        aim: nowhere,
        ours: runs::run,
        apart: runs::apart,
        rust: runs::rust,
    },
];

/// Runs as a maker types them.
const RUNS: &[&[u64]] = &[
    &[0, 0],
    // u32, u8, one that has no room, and a run of bytes, behind which nothing comes.
    &[0, 0, 0, 48, 4, 1, 4, 0, 0, 0, 1, 48, 1, 1, 1, 0, 0, 0, 0, 48, 1, 1, M, 0, 0, 0],
    &[0, 0, 0, 48, 4, 1, 4, 0, 0, 0, 0, 48, 1, 1, M, 0, 0, 0, 1, 48, 1, 3, 0, 0, 1, 1],
    &[0, 0, 0, 48, 4, 1, 4, 0, 0, 0, 1, 48, 1, 3, 0, 0, 1, 1, 0, 48, 1, 1, 1, 0, 0, 0],
    // A packing that is no power of two refuses each, and leaves the empty layout; so an own alignment above 2^29.
    &[8, 3, 0, 48, 4, 1, 4, 0, 0, 0, 1, 48, 1, 1, 1, 0, 0, 0],
    &[1 << 30, 0, 0, 48, 4, 1, 4, 0, 0, 0, 1, 48, 1, 1, 1, 0, 0, 0],
    &[3, 0, 0, 48, 4, 1, 4, 0, 0, 0],
    // A member that was refused is right the next time, and other words in between leave no trace.
    &[0, 2, 0, 48, 4, 8, 4, 0, 0, 0, 0, 48, 4, 4, 4, 0, 0, 0],
    &[0, 2, 1, 47, 4, 1, 4, 0, 0, 0, 1, 48, 4, 1, 4, 0, 0, 0],
    &[0, 0, 0, 48, 4, 1, 4, 0, 0, 0, 2, 3, 1, 0, 0, 0, 0, 48, 1, 1, 1, 0, 0, 0, 0, 48, 1, 1, 1, 0, 0, 0],
    &[0, 0, 0, 48, 4, 1, 4, 0, 0, 0, 3, 1, 8, 0, 0, 0, 0, 48, 1, 1, 1, 0, 0, 0],
];

fn altered((refusal, after, broken): (u64, [u64; 6], Option<&'static str>)) -> Answer {
    Answer { broken, ..Answer::refused_beside(refusal, after) }
}

/// The bytes of a member that is handed over by value.
fn whole(field: &[u64]) -> Vec<u64> {
    [&[RECORD as u64], field].concat()
}

fn by_the_rust(lent: [u64; 6], member: &[u64], repr_packed: u64) -> Answer {
    match runs::by_the_rust(lent, member, repr_packed).0 {
        Ok(words) => Answer::of(words),
        Err(refusal) => Answer::refused_beside(refusal, lent),
    }
}

/// As where the member comes by value, if its bytes are a record.
fn at_the_last_place_by_record(random: &mut Random, inputs: &mut [u64]) {
    if inputs[7] != RECORD as u64 {
        return;
    }
    let mut by_value = [&inputs[..6], &inputs[8..], &inputs[6..7]].concat();
    at_the_last_place(random, &mut by_value);
    inputs[..6].copy_from_slice(&by_value[..6]);
    inputs[8..].copy_from_slice(&by_value[6..12]);
}
