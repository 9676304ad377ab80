//! A record whose members are placed, and the pieces that it is drawn of. The numbers are the library's, of either
//! width; what is added up here is for drawing alone.

use crate::scale::{Scale, Shared};
use crate::shape::{bytes, Extent, Shape};
use lukaripe::Refusal;
use std::num::NonZeroU64;

/// What a composition is asked for beside its members.
#[derive(Clone, Copy, Debug, Default, PartialEq, Eq)]
pub struct Asked {
    pub align: Option<NonZeroU64>,
    pub packed: Option<NonZeroU64>,
}

pub struct PlacedMember {
    pub name: String,
    pub shape: Shape,
    pub place: u64,
    pub gap: u64,
    /// What it holds, where that is known, in the order of the places.
    pub inner: Vec<Inner>,
}

/// A line of what a member holds, types inside types.
pub struct Inner {
    /// How deep it stands: 1 for what the member itself holds.
    pub depth: usize,
    /// The indices from the outermost member on, as `2.0`; `2[0].1` is a member of a first element. Closing padding has
    /// none.
    pub path: String,
    pub name: String,
    /// In the whole.
    pub place: u128,
    pub size: String,
    /// Alignment and gap before it, of a member.
    pub align_and_gap: Option<(u64, u64)>,
}

impl Inner {
    /// A member of a record inside, which stands at this place of the whole.
    pub fn member(depth: usize, path: String, place: u128, member: &PlacedMember) -> Inner {
        let align_and_gap = Some((member.shape.align, member.gap));
        Inner { depth, path, name: member.name.clone(), place, size: member.size(), align_and_gap }
    }

    /// The closing padding of a record inside.
    pub fn closing(depth: usize, place: u128, bytes: u128) -> Inner {
        let (path, name) = (String::new(), "closing padding".to_string());
        Inner { depth, path, name, place, size: bytes.to_string(), align_and_gap: None }
    }
}

impl PlacedMember {
    /// The size of a member; of one that ends in a run of elements, that of an element, and what comes before the run.
    pub fn size(&self) -> String {
        match self.shape.extent {
            Extent::Size(size) => size.to_string(),
            Extent::Run(run) if run.offset > 0 => format!("{} + {} each", run.offset, run.elem_size),
            Extent::Run(run) => format!("{} each", run.elem_size),
        }
    }
}

pub struct Record {
    /// What it is.
    pub heading: String,
    pub whole: Shape,
    pub members: Vec<PlacedMember>,
    /// The sizes at 0, 1 and 2 elements, of a whole that ends in a run of them.
    pub sizes: Vec<SizeAt>,
}

#[derive(Clone, Copy, Debug, PartialEq, Eq)]
pub enum Part {
    Gap,
    Member(usize),
    /// The member that ends in a run of elements.
    Open(usize),
    Closing,
}

impl Part {
    fn sort(self) -> Sort {
        match self {
            Part::Gap => Sort::Gap,
            Part::Closing => Sort::Closing,
            Part::Member(_) | Part::Open(_) => Sort::Member,
        }
    }
}

/// What is told apart in a drawing. The end of a part that is open is one too.
#[derive(Clone, Copy, PartialEq, Eq)]
pub enum Sort {
    Member,
    Gap,
    Closing,
    Open,
}

/// Bytes that belong together. There is at least one.
pub struct Piece {
    pub part: Part,
    pub start: u128,
    pub bytes: u128,
}

/// The size at a count of elements, and the padding after them where they end within it.
pub struct SizeAt {
    pub count: u64,
    pub size: Result<u64, Refusal>,
    pub padding: Option<u64>,
}

/// How many elements of an open end are drawn.
pub const ELEMENTS: u8 = 2;

impl Record {
    /// Where the last member ends, of a fixed whole.
    fn end(&self) -> u128 {
        self.members.last().map_or(0, |last| u128::from(last.place) + u128::from(last.shape.size().unwrap_or(0)))
    }

    /// The closing padding of a fixed whole: its size less the end of the last member.
    pub fn closing(&self) -> Option<u128> {
        self.whole.size().map(|size| u128::from(size).saturating_sub(self.end()))
    }

    /// The closing padding, where there is some.
    pub fn closing_piece(&self) -> Option<Piece> {
        let bytes = self.closing().filter(|bytes| *bytes > 0)?;
        Some(Piece { part: Part::Closing, start: self.end(), bytes })
    }

    /// Whether the size hangs on a count of elements.
    pub fn is_open(&self) -> bool {
        self.whole.run().is_some()
    }

    /// What is drawn, from the left. A member of size 0 has no piece. An open end has two elements.
    pub fn pieces(&self) -> Vec<Piece> {
        let mut pieces = Vec::new();
        for (index, member) in self.members.iter().enumerate() {
            let start = u128::from(member.place);
            let gap = u128::from(member.gap);
            pieces.push(Piece { part: Part::Gap, start: start - gap, bytes: gap });
            let (part, bytes) = match (member.shape.size(), self.whole.run()) {
                (None, Some(run)) => {
                    let elements = u128::from(run.elem_size) * u128::from(ELEMENTS);
                    (Part::Open(index), u128::from(run.offset).saturating_sub(start) + elements)
                }
                (size, _) => (Part::Member(index), u128::from(size.unwrap_or(0))),
            };
            pieces.push(Piece { part, start, bytes });
        }
        pieces.extend(self.closing_piece());
        pieces.retain(|piece| piece.bytes > 0);
        pieces
    }

    /// What the sorts mean, of those that are drawn.
    pub fn legend(&self) -> Vec<(Sort, &'static str)> {
        let pieces = self.pieces();
        let has = |sort| pieces.iter().any(|piece| piece.part.sort() == sort);
        let mut legend = vec![(Sort::Member, "member"), (Sort::Gap, "gap"), (Sort::Closing, "closing padding")];
        legend.retain(|(sort, _)| has(*sort));
        match self.whole.run().map(|run| run.elem_size) {
            None => {}
            Some(0) => legend.push((Sort::Open, "more elements follow, of 0 bytes")),
            Some(_) => legend.push((Sort::Open, "more elements follow (2 are drawn)")),
        }
        legend
    }

    /// The members that have no bytes to draw.
    pub fn undrawn(&self) -> Vec<usize> {
        let is_empty = |index: &usize| self.members[*index].shape.size() == Some(0);
        (0..self.members.len()).filter(is_empty).collect()
    }

    /// The whole's numbers and marks in words.
    pub fn summary(&self) -> String {
        let closing = self.closing().map(|closing| format!(", closing padding {closing}")).unwrap_or_default();
        format!("{}{closing}; {}", self.whole.said(), self.whole.marks())
    }
}

/// The `repr` attribute, and how many members there are.
pub fn heading(asked: Asked, members: usize) -> String {
    let align = asked.align.map(|align| format!(", align({align})")).unwrap_or_default();
    let packed = asked.packed.map(|packed| format!(", packed({packed})")).unwrap_or_default();
    format!("repr(C{align}{packed}), {}", members_said(members))
}

pub fn members_said(members: usize) -> String {
    match members {
        0 => "no members".to_string(),
        1 => "1 member".to_string(),
        count => format!("{count} members"),
    }
}

/// What is to be said of a drawing: whether it is to scale, and what it leaves out.
pub fn notes(record: &Record, shared: &Shared, cell: &str) -> Vec<String> {
    let total: u128 = record.pieces().iter().map(|piece| piece.bytes).sum();
    let cells: u64 = shared.cells.iter().sum();
    let scale = match shared.scale {
        _ if total == 0 => "no bytes to draw".to_string(),
        Scale::Byte(1) => format!("to scale: a byte is 1 {cell}"),
        Scale::Byte(per_byte) => format!("to scale: a byte is {per_byte} {cell}s"),
        Scale::Share => format!("to scale: {} in {cells} {cell}s", bytes(total)),
        Scale::Widened(1) => "not to scale: 1 part is drawn wider than it is, to be seen".to_string(),
        Scale::Widened(parts) => format!("not to scale: {parts} parts are drawn wider than they are, to be seen"),
    };
    let undrawn = record.undrawn();
    let listed = undrawn.iter().take(LISTED).map(usize::to_string).collect::<Vec<_>>().join(", ");
    let more = undrawn.len().saturating_sub(LISTED);
    match (undrawn.len(), more) {
        (0, _) => vec![scale],
        (1, _) => vec![scale, format!("member {listed} has size 0 and is not drawn")],
        (_, 0) => vec![scale, format!("members {listed} have size 0 and are not drawn")],
        _ => vec![scale, format!("members {listed} and {more} more have size 0 and are not drawn")],
    }
}

/// How many members a note lists.
const LISTED: usize = 8;
