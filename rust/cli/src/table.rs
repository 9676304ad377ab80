//! Tables: of the members, and of the sizes at some counts.

use crate::record::{Inner, PlacedMember, Record, SizeAt};
use std::fmt::Write;

pub struct Table {
    /// Names of columns, and whether their words start at the left; numbers end at the right.
    pub heads: &'static [(&'static str, bool)],
    pub rows: Vec<Vec<String>>,
}

/// The longest name that is shown whole.
const LONGEST: usize = 40;

impl Table {
    pub fn members(record: &Record) -> Table {
        let row = |(index, member): (usize, &PlacedMember)| {
            let outer = vec![
                index.to_string(),
                shortened(&member.name, LONGEST),
                member.place.to_string(),
                member.size(),
                member.shape.align.to_string(),
                member.gap.to_string(),
            ];
            [outer].into_iter().chain(member.inner.iter().map(inner_row)).collect::<Vec<_>>()
        };
        let heads = &[
            ("member", false),
            ("name", true),
            ("place", false),
            ("size", false),
            ("align", false),
            ("gap before", false),
        ];
        Table { heads, rows: record.members.iter().enumerate().flat_map(row).collect() }
    }

    /// The sizes of a whole that ends in a run of elements.
    pub fn sizes(record: &Record) -> Table {
        let none = || "-".to_string();
        let row = |at: &SizeAt| {
            let (size, remark) = match at.size {
                Ok(size) if at.padding.is_none() => (size.to_string(), "the elements end past it".to_string()),
                Ok(size) => (size.to_string(), String::new()),
                Err(refusal) => (none(), format!("{refusal} (refusal {})", refusal.number())),
            };
            vec![at.count.to_string(), size, at.padding.map_or_else(none, |padding| padding.to_string()), remark]
        };
        let heads = &[("elements", false), ("size", false), ("padding", false), ("", true)];
        Table { heads, rows: record.sizes.iter().map(row).collect() }
    }

    /// The letters of each column.
    pub fn widths(&self) -> Vec<usize> {
        let width = |(at, head): (usize, &(&str, bool))| {
            let cells = self.rows.iter().map(|row| letters(&row[at]));
            cells.chain([letters(head.0)]).max().unwrap_or(0)
        };
        self.heads.iter().enumerate().map(width).collect()
    }

    /// The lines of the table.
    pub fn text(&self) -> String {
        if self.rows.is_empty() {
            return "no members\n".to_string();
        }
        let widths = self.widths();
        let mut text = String::new();
        let heads = self.heads.iter().map(|head| head.0.to_string()).collect();
        for row in [&heads].into_iter().chain(&self.rows) {
            let mut line = String::new();
            for (at, cell) in row.iter().enumerate() {
                let space = if at == 0 { "" } else { "  " };
                let width = widths[at];
                let _ = match self.heads[at].1 {
                    true => write!(line, "{space}{cell:width$}"),
                    false => write!(line, "{space}{cell:>width$}"),
                };
            }
            text += line.trim_end();
            text.push('\n');
        }
        text
    }
}

/// What a member holds is indented, by two letters for each that holds it.
fn inner_row(inner: &Inner) -> Vec<String> {
    let (align, gap) =
        inner.align_and_gap.map_or_else(Default::default, |(align, gap)| (align.to_string(), gap.to_string()));
    let name = "  ".repeat(inner.depth) + &shortened(&inner.name, LONGEST);
    vec![inner.path.clone(), name, inner.place.to_string(), inner.size.clone(), align, gap]
}

pub fn letters(text: &str) -> usize {
    text.chars().count()
}

/// A text of no more letters than these.
pub fn shortened(text: &str, most: usize) -> String {
    match letters(text) > most {
        true => text.chars().take(most - 2).chain("..".chars()).collect(),
        false => text.to_string(),
    }
}
