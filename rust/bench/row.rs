//! A row of the table: a function, its inputs, and the sides that are called on them.

use super::sets::Set;
use std::rc::Rc;

/// What a function answers.
pub trait Answer {
    /// The number of its refusal, or 0.
    fn refusal(&self) -> u64;
    /// The numbers beside it.
    fn values(&self) -> Vec<u64>;
}

impl Answer for u8 {
    fn refusal(&self) -> u64 {
        0
    }

    fn values(&self) -> Vec<u64> {
        vec![(*self).into()]
    }
}

/// What is given and what is written.
impl<const N: usize> Answer for (u64, [u8; N]) {
    fn refusal(&self) -> u64 {
        self.0
    }

    fn values(&self) -> Vec<u64> {
        self.1.map(u64::from).to_vec()
    }
}

/// What a call gave, and the lent numbers and bytes after it.
#[derive(PartialEq)]
pub struct Given {
    pub refusal: u64,
    pub values: Vec<u64>,
    pub numbers: Vec<u64>,
    pub bytes: Vec<u8>,
}

/// The number of a refusal, and what makes a case one that is refused by it.
pub type Spoil<C> = (u64, fn(&mut C));

/// A function that is called on cases.
pub struct Side<C> {
    /// Goes through the cases as often as said.
    pub go: Rc<dyn Fn(&[C], u64)>,
    /// What it gives on a case; None for the Rust as it is, which refuses by panics.
    pub given: Option<Rc<dyn Fn(&C) -> Given>>,
}

impl<C: 'static> Side<C> {
    fn on(&self, cases: &Rc<Vec<C>>) -> SideOn {
        let (go, on) = (self.go.clone(), cases.clone());
        SideOn {
            go: Box::new(move |times| go(&on, times)),
            given: self.given.clone().map(|given| {
                let on = cases.clone();
                Box::new(move |at| given(&on[at])) as Box<dyn Fn(usize) -> Given>
            }),
        }
    }
}

pub struct Row<C: 'static> {
    pub name: &'static str,
    pub cases: fn(Set) -> Vec<C>,
    /// How a case is spoilt for it.
    pub spoils: &'static [Spoil<C>],
    /// None where there is nothing like the function.
    pub sides: Vec<Option<Side<C>>>,
}

impl<C: 'static> Row<C> {
    /// The inputs of a set. None where the function refuses nothing.
    pub fn on(&self, set: Set) -> Option<Inputs> {
        let mut cases = (self.cases)(set);
        let mut expected = vec![0; cases.len()];
        if set == Set::Refused {
            if self.spoils.is_empty() {
                return None;
            }
            let spoils = self.spoils.iter().cycle();
            for ((case, expected), (number, spoil)) in cases.iter_mut().zip(&mut expected).zip(spoils) {
                spoil(case);
                *expected = *number;
            }
        }
        let cases = Rc::new(cases);
        let taken = |side: &&Side<C>| set != Set::Refused || side.given.is_some();
        let sides = self.sides.iter().map(|side| side.as_ref().filter(taken).map(|side| side.on(&cases))).collect();
        Some(Inputs { expected, sides })
    }
}

/// The inputs of a set, whatever their width.
pub struct Inputs {
    /// The refusal of each, or 0.
    pub expected: Vec<u64>,
    pub sides: Vec<Option<SideOn>>,
}

/// A side on the inputs.
pub struct SideOn {
    /// Goes through them as often as said.
    pub go: Box<dyn Fn(u64)>,
    /// What it gives on one of them.
    pub given: Option<Box<dyn Fn(usize) -> Given>>,
}
