//! Layouts in plain numbers, those of the library at either width, and in words.

/// A layout in plain numbers.
#[derive(Clone, Copy, Debug, PartialEq, Eq)]
pub struct Shape {
    pub align: u64,
    pub extent: Extent,
    /// The mark: no padding is known between the members.
    pub is_unpadded: bool,
    pub has_align_modifier: bool,
}

#[derive(Clone, Copy, Debug, PartialEq, Eq)]
pub enum Extent {
    Size(u64),
    Run(Run),
}

/// The run of elements at the end of a layout.
#[derive(Clone, Copy, Debug, PartialEq, Eq)]
pub struct Run {
    pub offset: u64,
    pub elem_size: u64,
}

impl Shape {
    /// The size, where it is fixed.
    pub fn size(self) -> Option<u64> {
        match self.extent {
            Extent::Size(size) => Some(size),
            Extent::Run(_) => None,
        }
    }

    pub fn run(self) -> Option<Run> {
        match self.extent {
            Extent::Size(_) => None,
            Extent::Run(run) => Some(run),
        }
    }

    /// Alignment and size in words.
    pub fn said(self) -> String {
        match self.extent {
            Extent::Size(size) => format!("alignment {}, size {size}", self.align),
            Extent::Run(run) => format!("alignment {}, {}", self.align, run.said()),
        }
    }

    /// The marks in words. Of a run of elements they say nothing: what padding follows them hangs on the count.
    pub fn marks(self) -> String {
        let padding = match (self.is_unpadded, self.extent) {
            (true, Extent::Size(_)) => "no padding known",
            (true, Extent::Run(_)) => "no padding known between the members",
            (false, _) => "there may be padding",
        };
        // Of the whole or of a member: a packed struct may hold neither.
        let modifier = if self.has_align_modifier { "; with an alignment modifier" } else { "" };
        format!("{padding}{modifier}")
    }
}

impl Run {
    fn said(self) -> String {
        format!("elements of {} from place {} on", bytes(self.elem_size.into()), self.offset)
    }
}

pub fn bytes(count: u128) -> String {
    match count {
        1 => "1 byte".to_string(),
        _ => format!("{count} bytes"),
    }
}
