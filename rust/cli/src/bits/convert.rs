//! `lukaripe convert`: whether one record may be read as another, and with how many elements.

use super::library::{CastParams, Layout, Mode, NoSize, Refusal, Trailing};
use super::member::refused;
use super::sizes::{first_difference, nearest, size_at, Difference};
use super::types::type_of;
use super::Word;
use crate::formula::sum;
use crate::shape::{bytes, Shape};
use crate::table::Table;
use crate::words::{types, unknown, Given, Words};
use crate::{print, End, Result};

pub fn run(mut words: Words) -> Result<()> {
    let (mut others, mut count, mut mode) = (Vec::new(), None, Mode::Ported);
    while let Some(word) = words.next()? {
        match word {
            Given::Other(word) => others.push(word),
            Given::Option(option) => match option.as_str() {
                "--count" => count = Some(words.number(&option)?),
                "--full" => mode = Mode::Full,
                _ => return Err(unknown(&option)),
            },
        }
    }
    let [from, to] = types(others)?;
    let pair = Pair { source: type_of(&from)?, target: type_of(&to)?, mode };
    let params = pair.params()?;
    let [source, target] = [pair.source, pair.target].map(|layout| Shape::from(layout).said());
    let mut text = format!("from: {source}\nto: {target}\n{}\n", said(params));
    // A fixed source has one count.
    if let Some(count) = count.or(pair.source.size().map(|_| 0)) {
        text += &format!("\n{}", pair.sizes(params, count)?.text());
    }
    print(&text)
}

/// The parameters in words.
fn said(params: CastParams) -> String {
    match params {
        CastParams::SizedToSized => "both are of the same fixed size".to_string(),
        CastParams::SizedToUnsized { dst_meta } => format!("the count is always {dst_meta}"),
        CastParams::UnsizedToUnsized { offset_delta_elems, elem_multiple } => {
            format!("count n becomes {}", sum(offset_delta_elems.into(), elem_multiple.into()))
        }
    }
}

struct Pair {
    source: Layout,
    target: Layout,
    mode: Mode,
}

impl Pair {
    fn params(&self) -> Result<CastParams> {
        CastParams::try_compute_in(self.source, self.target, self.mode)
            .map_err(|refusal| End::Fail(format!("{}: {}", refused("no conversion", refusal), self.why(refusal))))
    }

    /// Both counts, and the size at each.
    fn sizes(&self, params: CastParams, count: Word) -> Result<Table> {
        let no = |what: String, refusal| {
            let most = size_at(self.source, count).err().and_then(|none| none.greatest);
            let most = most.map(|most| format!(": the greatest count of the source is {most}")).unwrap_or_default();
            End::Fail(refused(&what, refusal) + &most)
        };
        let converted = params.cast_metadata(count).map_err(|refusal| no(format!("count {count}"), refusal))?;
        let row = |name: &str, sort: &str, layout: Layout, count: Word| {
            let size =
                size_at(layout, count).map_err(|none| no(format!("count {count} of the {sort}"), none.refusal))?;
            let count = layout.trailing().map_or("-".to_string(), |_| count.to_string());
            Ok(vec![name.to_string(), count, size.to_string()])
        };
        let rows = vec![row("from", "source", self.source, count)?, row("to", "target", self.target, converted)?];
        Ok(Table { heads: &[("", true), ("count", false), ("size", false)], rows })
    }

    /// The numbers that a refusal is about.
    fn why(&self, refusal: Refusal) -> String {
        let (source, target) = (self.source, self.target);
        match (source.trailing(), target.trailing()) {
            _ if refusal == Refusal::SourceAlignLower => {
                format!("the source has alignment {}, the target {}", source.align, target.align)
            }
            (Some(from), Some(to)) if refusal == Refusal::NoShift => self.no_shift(from, to),
            (Some(from), Some(to)) => {
                let [from, to] = [from.elem_size, to.elem_size];
                format!("the source has elements of {}, the target of {to}", bytes(from.into()))
            }
            (Some(from), None) => {
                let (each, size) = (bytes(from.elem_size.into()), target.size().unwrap_or(0));
                format!("the source has elements of {each}, the target the size {size}")
            }
            (None, Some(_)) => {
                let size = source.size().unwrap_or(0);
                format!("the source has size {size}; of the target {}", nearest(target, size))
            }
            (None, None) => {
                let [from, to] = [source, target].map(|layout| layout.size().unwrap_or(0));
                format!("the source has size {from}, the target {to}")
            }
        }
    }

    /// Why no shift lines two runs up: how they are rounded, where the full mode converts them, or where they differ.
    fn no_shift(&self, from: Trailing, to: Trailing) -> String {
        if let Ok(params) = CastParams::try_compute_in(self.source, self.target, Mode::Full) {
            let [source, target] = [from, shifted(from, to, params).unwrap_or(to)].map(rounding);
            return format!("the sizes are equal, but rounded {source} and {target}; --full converts");
        }
        let size = match from.size_for_elems(0) {
            Ok(size) => size,
            Err(NoSize { refusal, .. }) => return refused("the source", refusal),
        };
        let Ok(shift) = self.target.metadata_for_exact_size(size) else {
            return format!(
                "without elements the source has size {size}; of the target {}",
                nearest(self.target, size)
            );
        };
        let same = format!("0 elements of the source and {shift} of the target have size {size}");
        match difference(from, to, shift) {
            Some(Difference { counts: [count, others], sizes: [one, other] }) => {
                format!("{same}, but {count} and {others} have {one} and {other}")
            }
            None => format!("{same}, but further on the sizes differ"),
        }
    }
}

/// How the sizes of a run are rounded.
fn rounding(run: Trailing) -> String {
    let (align, phase) = run.size_rounding_align_and_phase.components().unwrap_or((1, 0));
    format!("to {align} from phase {phase}")
}

/// Where the sizes differ with this shift.
fn difference(from: Trailing, to: Trailing, shift: Word) -> Option<Difference> {
    let params = CastParams::UnsizedToUnsized { offset_delta_elems: shift, elem_multiple: multiple(from, to)? };
    first_difference(from, to, |count| params.cast_metadata(count).ok())
}

/// How many elements of the target one of the source is.
fn multiple(from: Trailing, to: Trailing) -> Option<Word> {
    Layout::for_slice(to.elem_size, 1).ok()?.metadata_for_exact_size(from.elem_size).ok()
}

/// The target with the elements before it that a count of 0 becomes, and with the source's elements.
fn shifted(from: Trailing, to: Trailing, params: CastParams) -> Option<Trailing> {
    let before = Layout::for_array(Layout::for_type(to.elem_size, 1).ok()?, params.cast_metadata(0).ok()?).ok()?;
    to.advance(before.size()?, from.elem_size).ok()
}
