//! The padding over counts.

use super::{Inputs, OTHER};

/// Its number.
pub const FUNCTION: u64 = 48;

/// So many other numbers stand before the counts and behind them: none of them may enter.
const AROUND: usize = 4;

pub fn call(i: &mut Inputs) -> Vec<u64> {
    let (layout, len) = (i.trailing(), i.length());
    let mut all = vec![OTHER; AROUND + len + AROUND];
    let counts = &mut all[AROUND..][..len];
    counts.fill_with(|| i.number());
    match layout.padding_of_counts(counts) {
        Ok(share) => {
            let (padding, mean) = (share.padding, share.mean);
            let fractions = [padding.numerator, padding.denominator, mean.numerator, mean.denominator];
            [&[0, 0], &fractions[..], &[share.greatest.into(), share.index as u64]].concat()
        }
        Err(refused) => vec![refused.refusal.number(), refused.place, 0, 0, 0, 0, 0, 0],
    }
}
