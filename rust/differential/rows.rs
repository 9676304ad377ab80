//! The table of functions: a row each, in the order of include/lukaripe.h, a file for each layer.

mod cases;
mod cast;
mod convert;
mod describe;
mod front;
mod full;
mod layout;
mod record;
mod rewrite;
mod rounding;
mod share;
mod short;
mod trailing;
mod util;
mod wide;
mod working;

use crate::answer::Answer;
use crate::inputs::{Aim, Input};
use crate::kinds::{number, word};
use crate::random::Random;
use crate::table::{has_modifier, is_fixed};
use crate::width::BITS;
use std::fmt;

pub const LAYERS: &[&[Row]] = &[
    util::ROWS,
    rounding::ROWS,
    trailing::ROWS,
    share::ROWS,
    layout::ROWS,
    record::ROWS,
    working::ROWS,
    describe::ROWS,
    short::ROWS,
    rewrite::ROWS,
    cases::ROWS,
    cast::ROWS,
    convert::ROWS,
    full::ROWS,
    front::ROWS,
];

pub struct Row {
    /// The function's number in recorded answers. It never changes and is not given to another. 0: it is not recorded,
    /// since it is of several functions.
    pub number: u64,
    /// The export's name without its prefix, or that of what several of them do.
    pub name: &'static str,
    /// What is handed over, in the order of the C parameters.
    pub inputs: &'static [&'static [Input]],
    /// How many numbers the answer has besides the refusal.
    pub values: usize,
    /// What can come of a call.
    pub cells: &'static [Cell],
    /// Whether an answer that is a layout has the alignment modifier, by document 02 alone: the Rust has none. None:
    /// the answer is no layout, or the Rust is never asked.
    pub modifier: Option<fn(&[u64]) -> bool>,
    /// Which answer it is, or which reason for a refusal, where cells tell several apart. The Rust was asked.
    pub label: fn(&[u64], &Answer) -> &'static str,
    /// Its cases in document 01, "Pages from the proof table", and others that are easily misread.
    pub pages: &'static [&'static [u64]],
    pub aim: Aim,
    /// The export.
    pub ours: fn(&[u64]) -> Answer,
    /// What the documents say of inputs that the Rust is not handed; None: the Rust is.
    pub apart: fn(&[u64]) -> Option<Answer>,
    pub rust: fn(&[u64]) -> Answer,
}

/// What can come of a call. Each cell of a row must be reached, at each of its places.
#[derive(Clone, Copy)]
pub struct Cell {
    /// The refusal number, 0 for an answer.
    refusal: u64,
    /// Whether it is checked against the documents alone, since the Rust has no answer.
    pub apart: bool,
    label: &'static str,
    /// The least and the greatest place of a list's refusal.
    places: Option<(u64, u64)>,
    /// The width at which alone it can come; None: at any.
    width: Option<u64>,
}

pub const fn answered(label: &'static str) -> Cell {
    Cell { refusal: 0, apart: false, label, places: None, width: None }
}

pub const ANSWER: Cell = answered("");

pub const fn refused(refusal: u64) -> Cell {
    Cell { refusal, ..ANSWER }
}

pub const fn refused_for(refusal: u64, label: &'static str) -> Cell {
    Cell { refusal, label, ..ANSWER }
}

/// A refusal, or by 0 an answer, that the Rust is not asked for.
pub const fn apart(refusal: u64) -> Cell {
    Cell { refusal, apart: true, ..ANSWER }
}

pub const fn apart_for(refusal: u64, label: &'static str) -> Cell {
    Cell { label, ..apart(refusal) }
}

impl Cell {
    pub const fn at(self, least: u64, greatest: u64) -> Cell {
        Cell { places: Some((least, greatest)), ..self }
    }

    pub const fn only_at(self, width: u64) -> Cell {
        Cell { width: Some(width), ..self }
    }

    /// Whether it can come.
    pub fn can_come(&self) -> bool {
        self.width.is_none_or(|width| width == BITS)
    }

    /// Its places, one where it has none.
    fn each_place(&self) -> Vec<Option<u64>> {
        match self.places {
            None => vec![None],
            Some((least, greatest)) => (least..=greatest).map(Some).collect(),
        }
    }
}

impl fmt::Display for Cell {
    fn fmt(&self, out: &mut fmt::Formatter) -> fmt::Result {
        match self.refusal {
            0 => write!(out, "answer")?,
            number => write!(out, "refused {number}")?,
        }
        match self.places {
            None => {}
            Some((least, greatest)) if least == greatest => write!(out, " at {least}")?,
            Some((least, greatest)) => write!(out, " at {least} to {greatest}")?,
        }
        match self.label {
            "" => Ok(()),
            label => write!(out, ": {label}"),
        }
    }
}

/// A cell at one of its places: what is counted.
pub struct Slot {
    /// The cell's index in its row.
    pub cell: usize,
    what: Cell,
    place: Option<u64>,
}

impl Slot {
    pub fn holds(&self, answer: &Answer, apart: bool, label: &str) -> bool {
        self.what.refusal == answer.refusal
            && self.what.apart == apart
            && self.place.is_none_or(|place| place == answer.values[0])
            && (apart || self.what.label == label)
    }
}

impl fmt::Display for Slot {
    fn fmt(&self, out: &mut fmt::Formatter) -> fmt::Result {
        Cell { places: self.place.map(|place| (place, place)), ..self.what }.fmt(out)
    }
}

impl Row {
    pub fn slots(&self) -> Vec<Slot> {
        let mut slots = Vec::new();
        for (cell, what) in self.cells.iter().enumerate().filter(|(_, what)| what.can_come()) {
            slots.extend(what.each_place().into_iter().map(|place| Slot { cell, what: *what, place }));
        }
        slots
    }

    /// Its own cases, and those that a width adds.
    pub fn all_pages(&self) -> Vec<&'static [u64]> {
        self.pages.iter().chain(wide::pages(self.name)).copied().collect()
    }

    /// Whether it is tried: it has the width, and all exports that it calls are in the library.
    pub fn is_tried(&self) -> bool {
        (BITS == 64 || !NO_WIDTH.contains(&self.name)) && self.missing().next().is_none()
    }

    /// The exports that it calls and the library has not.
    pub fn missing(&self) -> impl Iterator<Item = &'static str> + '_ {
        let besides = BESIDES.iter().filter(|(row, _)| *row == self.name).flat_map(|(_, exports)| exports.iter());
        let own = (self.number != 0).then_some(&self.name);
        own.into_iter().chain(besides).copied().filter(|export| MISSING.split(' ').any(|missing| missing == *export))
    }

    /// The answer as the Rust can give it, without the alignment modifier, and whether it had that. The six words of a
    /// layout come first, of a composition behind the place; beside a refusal they are all 0.
    pub fn without_modifier(&self, mut answer: Answer) -> (Answer, bool) {
        if self.modifier.is_none() || answer.refusal != 0 {
            return (answer, false);
        }
        let kind = &mut answer.values[if self.values > 6 { 2 } else { 1 }];
        let had = has_modifier(*kind);
        *kind &= !4;
        (answer, had)
    }
}

/// Moves between the forms of records and the short lists choose no width: they are tried once.
const NO_WIDTH: [&str; 3] = ["records_to_short", "records_from_short", "write_cases"];

/// The exports that tools/build.sh did not find in the library, without their prefix.
const MISSING: &str = match option_env!("MISSING") {
    Some(names) => names,
    None => "",
};

/// The exports that a row calls besides the one of its name.
const BESIDES: &[(&str, &[&str])] = &[
    ("sizes_agree", &["has_same_size_sequence", "normal_form"]),
    ("normal_form", &["sizes_agree", "size_for_elems"]),
    ("size_sequences_match_full", &["size_sequences_match"]),
    ("try_compute_full", &["try_compute"]),
    ("convert_and_cast_full", &["try_compute"]),
    ("padding_of_counts", &["size_for_elems", "padding_for_elems"]),
    ("working", &["working_begin", "working_add", "working_add_record", "compose"]),
    ("read", &["for_repr_c_struct", "for_slice_of"]),
    ("lengthen_counts", &["shorten_counts", "read"]),
    ("shorten_counts", &["lengthen_counts", "read"]),
];

// ---- what rows of several layers share ----

const TRAILING: &[Input] = &[number("size_base"), number("offset"), number("elem_size"), word("word")];

/// The trailing layout that the inputs start with.
fn trailing_of(inputs: &[u64]) -> [u64; 4] {
    [inputs[0], inputs[1], inputs[2], inputs[3]]
}

/// The layout that the inputs start with.
fn layout_of(inputs: &[u64]) -> [u64; 6] {
    [inputs[0], inputs[1], inputs[2], inputs[3], inputs[4], inputs[5]]
}

fn no_label(_: &[u64], _: &Answer) -> &'static str {
    ""
}

/// What an answer of this kind is.
fn layout_kind(kind: u64) -> &'static str {
    match (is_fixed(kind), has_modifier(kind)) {
        (true, false) => "fixed",
        (true, true) => "fixed, modifier",
        (false, false) => "trailing",
        (false, true) => "trailing, modifier",
    }
}

/// The same of an answer that is a layout alone.
fn which_layout(_: &[u64], answer: &Answer) -> &'static str {
    match answer.refusal {
        0 => layout_kind(answer.values[1]),
        _ => "",
    }
}

fn no_modifier(_: &[u64]) -> bool {
    false
}

fn yes_or_no(_: &[u64], answer: &Answer) -> &'static str {
    match (answer.refusal, answer.values[0]) {
        (0, 0) => "no",
        (0, _) => "yes",
        _ => "",
    }
}

fn nowhere(_: &mut Random, _: &mut [u64]) {}
