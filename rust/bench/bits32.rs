//! The same at 32 bits, by the same sources. An answer that has one shape at 64 bits has several here.

#[path = "cases.rs"]
mod cases;
#[path = "../lukaripe/src/exports32.rs"]
pub mod exports;
#[path = "refused.rs"]
mod refused;
#[path = "rows.rs"]
mod rows;

pub use rows::rows;

use super::row::Answer;
use exports::{Moved, Placed, Serving, Share};

type Word = u32;

impl Answer for Placed {
    fn refusal(&self) -> u64 {
        self.refusal
    }

    fn values(&self) -> Vec<u64> {
        [self.place].into_iter().chain(self.layout.map(u64::from)).collect()
    }
}

impl Answer for Moved {
    fn refusal(&self) -> u64 {
        self.refusal
    }

    fn values(&self) -> Vec<u64> {
        vec![self.place, self.written]
    }
}

impl Answer for Share {
    fn refusal(&self) -> u64 {
        self.refusal
    }

    fn values(&self) -> Vec<u64> {
        let padding = [self.padding_numerator, self.padding_denominator].map(u64::from);
        let mean = [self.mean_numerator.into(), self.mean_denominator];
        vec![self.place, padding[0], padding[1], mean[0], mean[1], self.greatest.into(), self.index]
    }
}

impl Answer for Serving {
    fn refusal(&self) -> u64 {
        self.map_refusal
    }

    fn values(&self) -> Vec<u64> {
        [self.spare_refusal].into_iter().chain([self.serves, self.count, self.split].map(u64::from)).collect()
    }
}
