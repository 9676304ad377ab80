//! Records and layouts of this width in the plain numbers that are drawn.

use super::library::{for_repr_c_struct_places, Layout, Placed, Refusal, Refused, SizeInfo};
use super::member::Member;
use super::{NonZeroWord, Word};
use crate::record::{heading, Asked, Record, SizeAt, ELEMENTS};
use crate::shape::{Extent, Run, Shape};
use std::num::NonZeroU64;

impl From<Layout> for Shape {
    fn from(layout: Layout) -> Shape {
        let extent = match layout.size_info {
            SizeInfo::Sized { size } => Extent::Size(size.into()),
            SizeInfo::SliceDst(run) => Extent::Run(Run { offset: run.offset.into(), elem_size: run.elem_size.into() }),
        };
        Shape {
            align: layout.align.into(),
            extent,
            is_unpadded: layout.statically_shallow_unpadded,
            has_align_modifier: layout.has_align_modifier(),
        }
    }
}

/// Alignment and packing as numbers of this width. Of a description that the library has accepted they fit.
pub fn fitting(asked: Asked) -> Result<[Option<NonZeroWord>; 2], Refusal> {
    let fit = |asked: Option<NonZeroU64>| asked.map(NonZeroWord::try_from).transpose();
    match (fit(asked.align), fit(asked.packed)) {
        (Ok(align), Ok(packed)) => Ok([align, packed]),
        _ => Err(Refusal::NumberPassesWidth),
    }
}

/// The composition of members, with their places.
pub fn compose(asked: Asked, layouts: &[Layout]) -> Result<Placed, Refused> {
    let [align, packed] = fitting(asked)?;
    for_repr_c_struct_places(align, packed, layouts)
}

/// The record of members that are placed.
pub fn record(asked: Asked, placed: Placed, members: Vec<Member>) -> Record {
    let heading = heading(asked, members.len());
    let places = placed.places.into_iter().zip(placed.gaps);
    let members = members.into_iter().zip(places).map(|(member, (place, gap))| member.placed(place, gap)).collect();
    Record { heading, whole: placed.layout.into(), members, sizes: sizes(placed.layout) }
}

/// What is no struct, as a record that has nothing else.
pub fn record_of_one(heading: String, member: Member) -> Record {
    let layout = member.layout;
    Record { heading, whole: layout.into(), members: vec![member.placed(0, 0)], sizes: sizes(layout) }
}

/// The sizes at the counts that are listed, of a layout that ends in a run of elements.
fn sizes(layout: Layout) -> Vec<SizeAt> {
    let Some(run) = layout.trailing() else { return Vec::new() };
    let at = |count: Word| SizeAt {
        count: count.into(),
        size: run.size_for_elems(count).map(u64::from).map_err(Refusal::from),
        // There is none where the elements end past the size.
        padding: run.padding_of_counts(&[count]).ok().map(|share| share.greatest.into()),
    };
    (0..=Word::from(ELEMENTS)).map(at).collect()
}
