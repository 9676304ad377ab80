//! The inputs that a function is tried on.

use crate::kinds::{Boundaries, Holds, Kind};
use crate::random::Random;
use crate::width::M;
use std::iter::{repeat, repeat_n};

/// A parameter, or a member of one that is a struct.
#[derive(Clone, Copy)]
pub struct Input {
    pub name: &'static str,
    pub kind: &'static Kind,
}

/// Moves random inputs to where the answer changes or is seldom reached.
pub type Aim = fn(&mut Random, &mut [u64]);

/// Where inputs come from, in the order tried.
#[derive(Clone, Copy, PartialEq, Eq, Debug)]
pub enum Phase {
    /// Document 01's own cases; and each bad value, as an alignment 3 or a rounding word 0, among good ones and beside
    /// each bad value of another input.
    Given,
    /// Every combination of the small values, to a limit.
    Small,
    /// Every combination of the boundaries; where there are too many, random ones of them.
    Boundaries,
    Random,
}

pub const PHASES: [Phase; 4] = [Phase::Given, Phase::Small, Phase::Boundaries, Phase::Random];

/// The most combinations that are tried one and all, and what part of the cases they may be.
const MOST_COMBINATIONS: u64 = 1 << 24;
const PART: u64 = 4;
/// The greatest level of small values, and the most values of one input.
const MOST_LEVEL: u64 = 1 << 8;
const MOST_VALUES: usize = 1 << 18;
/// How many combinations of boundaries are drawn where they are too many.
const MOST_DRAWN: u64 = 1 << 21;

/// What to try a function on.
pub struct Plan {
    pub inputs: Vec<Input>,
    /// Document 01's own cases. Those with a number past M are left out.
    pub pages: Vec<&'static [u64]>,
    pub aim: Aim,
    pub seed: u64,
    /// How many cases of all phases: as many are random as the other phases leave.
    pub cases: u64,
}

/// What is done with each case; it can put an end to them.
pub type Visit<'a> = &'a mut dyn FnMut(&[u64]) -> Result<(), String>;

/// The values of each input.
type Values = Vec<Vec<Vec<u64>>>;

impl Plan {
    /// Every case of one phase in turn, up to as many as are left.
    pub fn each(&self, phase: Phase, left: u64, visit: Visit) -> Result<(), String> {
        match phase {
            Phase::Given => self.given(left, visit),
            Phase::Small => combinations(&self.small(), left, visit),
            Phase::Boundaries => match self.boundaries() {
                Some(values) => combinations(&values, left, visit),
                None => self.some_boundaries(left, visit),
            },
            Phase::Random => self.random(left, visit),
        }
    }

    fn given(&self, left: u64, visit: Visit) -> Result<(), String> {
        let bad = self.bad();
        let fits = |page: &&[u64]| page.iter().zip(self.greatest()).all(|(number, greatest)| *number <= greatest);
        let pages = self.pages.iter().copied().filter(fits);
        let cases = pages.chain(bad.iter().map(Vec::as_slice));
        cases.take(left as usize).try_for_each(visit)
    }

    /// Good inputs but for one, which is bad, or two.
    fn bad(&self) -> Vec<Vec<u64>> {
        let good: Vec<&[u64]> = self.inputs.iter().map(|input| input.kind.good).collect();
        let mut cases = vec![good.concat()];
        for (at, input) in self.inputs.iter().enumerate() {
            for bad in input.kind.bad {
                let mut case = good.clone();
                case[at] = bad;
                cases.push(case.concat());
                for (after, other) in self.inputs.iter().enumerate().skip(at + 1) {
                    let both = other.kind.bad.iter().map(|bad| [&case[..after], &[*bad], &case[after + 1..]].concat());
                    cases.extend(both.map(|case| case.concat()));
                }
            }
        }
        cases
    }

    /// The greatest of each number of a case. Only the last input has no length of its own.
    fn greatest(&self) -> impl Iterator<Item = u64> + '_ {
        let of = |kind: &Kind| match kind.holds {
            Holds::Words => M,
            Holds::Bytes => u64::MAX,
        };
        let each = self.inputs.iter().flat_map(move |input| repeat_n(of(input.kind), input.kind.good.len()));
        each.chain(repeat(self.inputs.last().map_or(0, |last| of(last.kind))))
    }

    fn most_combinations(&self) -> u64 {
        MOST_COMBINATIONS.min(self.cases / PART)
    }

    fn fits(&self, values: &Values) -> bool {
        let combinations = values.iter().try_fold(1u64, |product, list| product.checked_mul(list.len() as u64));
        combinations.is_some_and(|combinations| combinations <= self.most_combinations())
            && values.iter().all(|list| list.len() <= MOST_VALUES)
    }

    /// The small values of the greatest level that can be combined.
    fn small(&self) -> Values {
        let at = |level| self.inputs.iter().map(|input| (input.kind.small)(level)).collect();
        (1..=MOST_LEVEL).map(at).take_while(|values| self.fits(values)).last().unwrap_or_else(|| at(1))
    }

    /// The boundaries, where they are listed and can be combined.
    fn boundaries(&self) -> Option<Values> {
        let listed = |input: &Input| match input.kind.boundaries {
            Boundaries::Listed(values) => Some(values.iter().map(|value| vec![*value]).collect()),
            Boundaries::Drawn(_) => None,
        };
        self.inputs.iter().map(listed).collect::<Option<Values>>().filter(|values| self.fits(values))
    }

    fn some_boundaries(&self, left: u64, visit: Visit) -> Result<(), String> {
        let mut random = Random::new(self.seed);
        let mut case = Vec::new();
        for _ in 0..MOST_DRAWN.min(self.most_combinations()).min(left) {
            case.clear();
            for input in &self.inputs {
                input.kind.boundaries.draw(&mut random, &mut case);
            }
            visit(&case)?;
        }
        Ok(())
    }

    fn random(&self, left: u64, visit: Visit) -> Result<(), String> {
        let mut random = Random::new(self.seed);
        let mut case = Vec::new();
        for _ in 0..left {
            case.clear();
            for input in &self.inputs {
                (input.kind.draw)(&mut random, &mut case);
            }
            if random.one_in(2) {
                (self.aim)(&mut random, &mut case);
            }
            // What aims at something works modulo 2^64; what is left of that is modulo M + 1.
            case.iter_mut().zip(self.greatest()).for_each(|(number, greatest)| *number &= greatest);
            visit(&case)?;
        }
        Ok(())
    }
}

/// Every choice of one value for each input, up to as many as are left.
fn combinations(values: &Values, left: u64, visit: Visit) -> Result<(), String> {
    let mut chosen = vec![0; values.len()];
    let mut case = Vec::new();
    for _ in 0..left {
        case.clear();
        for (list, at) in values.iter().zip(&chosen) {
            case.extend(&list[*at]);
        }
        visit(&case)?;
        // Count up by one, as a number whose digits are the choices.
        let mut at = 0;
        while at < values.len() && chosen[at] + 1 == values[at].len() {
            chosen[at] = 0;
            at += 1;
        }
        if at == values.len() {
            return Ok(());
        }
        chosen[at] += 1;
    }
    Ok(())
}
