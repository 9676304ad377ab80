//! Types that are given as words or as bytes, and the marks of what the library refuses in them.

use super::described::{layout, member_at_fault};
use super::library::{Layout, Refused, SizeInfo, Trailing};
use super::member::{refused, Named};
use crate::description::{hex, Description};
use crate::text::Typed;
use crate::words::quoted;
use crate::{files, End, Result};

/// How the words of `layout` begin that name a type by its numbers; any other TYPE is a text.
const BY_NUMBERS: [&str; 3] = ["bytes:", "type:", "unpadded:"];

/// The layout of a TYPE.
pub fn type_of(word: &str) -> Result<Layout> {
    let inner = word.strip_prefix('[').unwrap_or(word);
    if !BY_NUMBERS.iter().any(|start| inner.starts_with(start)) {
        return Ok(accepted(word)?.layout);
    }
    let named = Named::read_word(word, word, word, "type")?;
    named.layout().map_err(|refusal| End::Fail(refused(&quoted(word), refusal)))
}

/// The run of elements that a TYPE ends in, for a command that takes no other.
pub fn run_of(word: &str, command: &str) -> Result<Trailing> {
    match type_of(word)?.size_info {
        SizeInfo::SliceDst(run) => Ok(run),
        SizeInfo::Sized { size } => {
            let takes = format!("{command} takes a type that ends in a run of elements");
            Err(End::Wrong(format!("{takes}, and {} has the fixed size {size}; see --help", quoted(word))))
        }
    }
}

/// The text of a type that the library accepts.
pub struct Accepted<'a> {
    pub typed: Typed<'a>,
    pub layout: Layout,
}

pub fn accepted(text: &str) -> Result<Accepted<'_>> {
    let typed = Typed::read(text)?;
    match layout(&typed.described) {
        Ok(layout) => Ok(Accepted { typed, layout }),
        Err(why) => Err(marked(&typed, why)),
    }
}

/// The lines of a refusal of a text: the cause, the line of its place, and a mark below that.
pub fn marked(typed: &Typed, why: Refused) -> End {
    let described = &typed.described;
    let member = member_at_fault(described, why).map(|member| format!(", {member}")).unwrap_or_default();
    let what = format!("{} at {}{member}", described.sort_at_fault(why), typed.place(why.place));
    End::Fail(format!("{}\n{}", refused(&what, why.refusal), typed.marked(why.place)))
}

/// The description in a file, where the library accepts it.
pub fn accepted_bytes(file: &str) -> Result<Description> {
    let described = Description::of_bytes(files::read(file)?);
    match layout(&described) {
        Ok(_) => Ok(described),
        Err(why) => Err(marked_bytes(file, &described.bytes, why)),
    }
}

/// The bytes of a line in hex.
const LINE: usize = 16;

/// The lines of a refusal of bytes: the cause, those around the place, and a mark below the place, which may be behind
/// the last.
pub fn marked_bytes(file: &str, bytes: &[u8], why: Refused) -> End {
    let place = why.place as usize;
    // Behind the last byte the line is that of the last.
    let last = place.min(bytes.len().saturating_sub(1));
    let first = last - last % LINE;
    let shown = hex(&bytes[first..bytes.len().min(first + LINE)]);
    let start = format!("{first}:");
    let space = " ".repeat(start.len() + 1 + (place - first) * 3);
    let cause = refused(&format!("place {place} of {}", files::called(file)), why.refusal);
    End::Fail(format!("{cause}\n{}\n{space}^^", format!("{start} {shown}").trim_end()))
}
