//! How wide a line may be.

use crate::words::{quoted, Words};
use crate::{End, Result};
use std::ops::RangeInclusive;

/// The letters of a line.
#[derive(Clone, Copy)]
pub struct Columns(pub usize);

impl Default for Columns {
    fn default() -> Columns {
        Columns(80)
    }
}

impl Columns {
    const TAKEN: RangeInclusive<u64> = 40..=1000;

    /// The value of an option.
    pub fn read(words: &mut Words, option: &str) -> Result<Columns> {
        let columns = words.count(option)?;
        match Columns::TAKEN.contains(&columns) {
            true => Ok(Columns(columns as usize)),
            false => {
                let takes = format!("a number from {} to {}", Columns::TAKEN.start(), Columns::TAKEN.end());
                Err(End::Wrong(format!("{option} takes {takes}, not {}; see --help", quoted(&columns.to_string()))))
            }
        }
    }
}
