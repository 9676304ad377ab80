//! How the sizes of a run of elements are written: base, element, alignment and phase.

use super::library::{NormalForm, Refusal, RoundingAlignAndPhase, Trailing};
use super::Word;
use crate::formula::rounded;
use crate::table::Table;

/// Base, element size, alignment and phase, and the word that the last two make.
pub struct Form {
    base: Word,
    elem_size: Word,
    align: Word,
    phase: Word,
    word: Word,
}

impl Form {
    fn new(base: Word, elem_size: Word, word: RoundingAlignAndPhase) -> Result<Form, Refusal> {
        let (align, phase) = word.components()?;
        Ok(Form { base, elem_size, align, phase, word: word.0 })
    }

    pub fn written(run: Trailing) -> Result<Form, Refusal> {
        Form::new(run.size_base, run.elem_size, run.size_rounding_align_and_phase)
    }

    pub fn normal(run: Trailing) -> Result<Form, Refusal> {
        let NormalForm { size_base, elem_size, size_rounding_align_and_phase } = run.normal_form()?;
        Form::new(size_base, elem_size, size_rounding_align_and_phase)
    }

    /// The size with n elements.
    pub fn formula(&self) -> String {
        rounded(self.base.into(), self.phase.into(), self.elem_size.into(), self.align.into())
    }
}

/// A row for each form, or why there is none.
pub fn table(forms: &[(&str, &Result<Form, Refusal>)]) -> Table {
    let row = |(name, form): &(&str, &Result<Form, Refusal>)| {
        let (numbers, remark) = match form {
            Ok(form) => {
                let numbers = [form.base, form.elem_size, form.align, form.phase, form.word];
                (numbers.map(|number| number.to_string()), String::new())
            }
            Err(refusal) => (["-"; 5].map(str::to_string), format!("{refusal} (refusal {})", refusal.number())),
        };
        [name.to_string()].into_iter().chain(numbers).chain([remark]).collect()
    };
    let heads = &[
        ("", true),
        ("base", false),
        ("element", false),
        ("alignment", false),
        ("phase", false),
        ("word", false),
        ("", true),
    ];
    Table { heads, rows: forms.iter().map(row).collect() }
}
