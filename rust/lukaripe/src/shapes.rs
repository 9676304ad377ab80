//! Answers that at 32 bits hold numbers of more than one width, in the structs that exports32.rs has for them. At 64
//! bits exports.rs tells all numbers in a row.

use crate::exports::Told;

pub(crate) struct Placed {
    pub refusal: u64,
    pub place: u64,
    pub layout: [u64; 6],
}

impl From<Told<7>> for Placed {
    fn from(told: Told<7>) -> Placed {
        let [place, layout @ ..] = told.values;
        Placed { refusal: told.refusal, place, layout }
    }
}

pub(crate) struct Moved {
    pub refusal: u64,
    pub place: u64,
    pub written: u64,
}

impl From<Told<2>> for Moved {
    fn from(told: Told<2>) -> Moved {
        let [place, written] = told.values;
        Moved { refusal: told.refusal, place, written }
    }
}

pub(crate) struct Share {
    pub refusal: u64,
    pub place: u64,
    pub padding_numerator: u64,
    pub padding_denominator: u64,
    pub mean_numerator: u64,
    pub mean_denominator: u64,
    pub greatest: u64,
    pub index: u64,
}

impl From<Told<7>> for Share {
    fn from(told: Told<7>) -> Share {
        let [place, padding_numerator, padding_denominator, mean_numerator, mean_denominator, greatest, index] =
            told.values;
        Share {
            refusal: told.refusal,
            place,
            padding_numerator,
            padding_denominator,
            mean_numerator,
            mean_denominator,
            greatest,
            index,
        }
    }
}

pub(crate) struct Serving {
    pub map_refusal: u64,
    pub spare_refusal: u64,
    pub serves: u64,
    pub count: u64,
    pub split: u64,
}

impl From<Told<4>> for Serving {
    fn from(told: Told<4>) -> Serving {
        let [spare_refusal, serves, count, split] = told.values;
        Serving { map_refusal: told.refusal, spare_refusal, serves, count, split }
    }
}
