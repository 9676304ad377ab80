//! The bar of bytes, in letters: a member begins with its index, and gaps, closing padding and an open end have each a
//! letter of their own.

use crate::columns::Columns;
use crate::record::{notes, Part, Record, Sort};
use crate::scale::{fold, share, Fragment, Room};
use lukaripe::Fraction;

const GAP: char = '.';
const CLOSING: char = 'x';
const REST: char = '-';
const OPEN: char = '>';

/// What the letters of a bar of a share mean.
pub const SHARE_LEGEND: &str = "- used   x padding";

/// A share of padding in so many letters, to the nearest. What is there is seen: padding has a letter, and so has what
/// is none.
pub fn share_bar(padding: Fraction, cells: usize) -> String {
    let [part, whole] = [padding.numerator, padding.denominator].map(u128::from);
    let nearest = (2 * part * cells as u128 + whole) / (2 * whole);
    let least = usize::from(part > 0);
    let most = cells - usize::from(part < whole);
    let shown = (nearest as usize).clamp(least, most);
    REST.to_string().repeat(cells - shown) + &CLOSING.to_string().repeat(shown)
}

/// The bar and what its letters mean.
pub fn bar(record: &Record, columns: Columns) -> String {
    let Columns(width) = columns;
    let pieces = record.pieces();
    let sizes: Vec<u128> = pieces.iter().map(|piece| piece.bytes).collect();
    let total: u128 = sizes.iter().sum();
    // The open end takes a place of its own behind the last cell.
    let line = width - usize::from(record.is_open());
    let room = Room { line: line as u64, least: 1, most: 8, pieces: (width / 5) as u64 };
    let shared = share(&sizes, &room);
    let mut text = String::new();
    let lines = fold(&shared.cells, shared.line);
    for (at, fragments) in lines.iter().enumerate() {
        let is_last = at + 1 == lines.len();
        let mut labels = Vec::new();
        let mut cells = String::new();
        for fragment in fragments {
            let piece = &pieces[fragment.piece];
            if fragment.first {
                labels.push((fragment.at as usize, piece.start.to_string()));
            }
            cells += &drawn(piece.part, fragment);
        }
        let mut end = None;
        if is_last && record.is_open() {
            cells.push(OPEN);
        } else if is_last {
            end = Some((cells.len(), total.to_string()));
        }
        if !pieces.is_empty() {
            text += &format!("{}\n", ruler(labels, end, width).trim_end());
        }
        if !cells.is_empty() {
            text += &format!("{cells}\n");
        }
    }
    text += &legend(record);
    for said in notes(record, &shared, "letter") {
        text += &format!("{said}\n");
    }
    text
}

fn drawn(part: Part, fragment: &Fragment) -> String {
    let cells = fragment.cells as usize;
    let (label, rest) = match part {
        Part::Gap => (String::new(), GAP),
        Part::Closing => (String::new(), CLOSING),
        Part::Member(index) | Part::Open(index) if fragment.first => (index.to_string(), REST),
        Part::Member(_) | Part::Open(_) => (String::new(), REST),
    };
    // The last digits, where there is no room for all.
    let label = &label[label.len().saturating_sub(cells)..];
    let rest = rest.to_string().repeat(cells - label.len());
    format!("{label}{rest}")
}

/// The line above the cells: where pieces start, as far as the numbers have room beside each other, and the end.
fn ruler(labels: Vec<(usize, String)>, end: Option<(usize, String)>, width: usize) -> String {
    let mut line = String::new();
    let (end_at, end) = end.unwrap_or((width + 1, String::new()));
    let end_at = end_at.min((width + usize::from(end.is_empty())).saturating_sub(end.len()));
    for (at, label) in labels {
        let is_free = at == 0 || at > line.len();
        if is_free && at + label.len() < end_at {
            line += &" ".repeat(at - line.len());
            line += &label;
        }
    }
    line += &" ".repeat(end_at.saturating_sub(line.len()));
    line + &end
}

/// What the letters mean, of those that were drawn.
fn legend(record: &Record) -> String {
    let said = record.legend().into_iter().map(|(sort, means)| match sort {
        Sort::Member => format!("0{REST}{REST} {means}, from its index on"),
        Sort::Gap => format!("{GAP} {means}"),
        Sort::Closing => format!("{CLOSING} {means}"),
        Sort::Open => format!("{OPEN} {means}"),
    });
    let line = said.collect::<Vec<_>>().join("   ");
    if line.is_empty() {
        line
    } else {
        line + "\n"
    }
}

#[cfg(test)]
mod tests {
    use super::*;

    #[test]
    fn shares_to_the_nearest_letter() {
        let bar = |numerator, denominator| share_bar(Fraction { numerator, denominator }, 10);
        assert_eq!(bar(0, 1), "----------");
        assert_eq!(bar(1, 4), "-------xxx");
        assert_eq!(bar(1, 1), "xxxxxxxxxx");
        // What is small is seen, on either side.
        assert_eq!(bar(1, u64::MAX), "---------x");
        assert_eq!(bar(u64::MAX - 1, u64::MAX), "-xxxxxxxxx");
    }
}
