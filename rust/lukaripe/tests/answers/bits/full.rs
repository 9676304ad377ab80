//! The full comparison of sizes, normal forms, and conversions in the full mode.

use super::layouts::{carried, cast_params};
use super::library::*;
use super::{decision, told, Inputs};

/// A form gives the layouts that have it, and itself again.
fn form(layout: Trailing) -> Vec<u64> {
    let answer = layout.normal_form();
    if let Ok(form) = answer {
        let again = form.with_offset(layout.offset);
        assert_eq!(again.normal_form(), answer);
        assert_eq!(again.sizes_agree(layout), Ok(true));
    }
    told(answer.map(|form| [form.size_base, form.elem_size, form.size_rounding_align_and_phase.0]))
}

/// The mode that the functions without one have is the ported one.
fn params(src: Layout, dst: Layout) -> Vec<u64> {
    assert_eq!(CastParams::try_compute_in(src, dst, Mode::Ported), CastParams::try_compute(src, dst));
    cast_params(CastParams::try_compute_in(src, dst, Mode::Full))
}

fn matched(i: &mut Inputs) -> Vec<u64> {
    let (src, dst, dst_base) = (i.trailing(), i.trailing(), i.number());
    let ported = size_sequences_match_in(src, dst, dst_base, Mode::Ported);
    assert_eq!(ported, size_sequences_match(src, dst, dst_base));
    decision(size_sequences_match_in(src, dst, dst_base, Mode::Full))
}

fn converted(i: &mut Inputs) -> Option<Vec<u64>> {
    let (src, dst) = (i.layout()?, i.layout()?);
    let [src_meta, addr, bytes_len, more_len] = std::array::from_fn(|_| i.number());
    let ported = convert_and_cast_in(src, dst, src_meta, addr, bytes_len, more_len, Mode::Ported);
    assert_eq!(ported, convert_and_cast(src, dst, src_meta, addr, bytes_len, more_len));
    Some(carried(convert_and_cast_in(src, dst, src_meta, addr, bytes_len, more_len, Mode::Full)))
}

pub fn call(function: u64, i: &mut Inputs) -> Option<Vec<u64>> {
    Some(match function {
        43 => decision(i.trailing().sizes_agree(i.trailing())),
        44 => form(i.trailing()),
        45 => matched(i),
        46 => params(i.layout()?, i.layout()?),
        _ => converted(i)?,
    })
}
