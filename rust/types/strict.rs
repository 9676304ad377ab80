//! Compares what the strict composition refuses with what rustc does: refusals.py has written random types and by which
//! error rustc refuses each. The one difference is that rustc does not look into arrays and slices for an aligned type,
//! where the Reference says "at any depth".

use crate::exports::*;
use crate::sized;

/// A type: what it asks for, its members, whether the Reference allows it, and by which error rustc refuses it ("": by
/// none).
struct Case {
    align: u64,
    packing: u64,
    members: &'static [Member],
    allowed: bool,
    rustc: &'static str,
}

enum Element {
    /// A scalar, by its layout.
    Scalar(fn() -> [u64; 6]),
    /// The type at this index.
    Type(usize),
}

enum Form {
    Alone,
    Array(u64),
    Slice,
}

struct Member {
    element: Element,
    form: Form,
}

// What the written cases are made of.

use Element::Type;

const fn scalar<T>() -> Element {
    Element::Scalar(sized::<T>)
}

const fn alone(element: Element) -> Member {
    Member { element, form: Form::Alone }
}

const fn array(element: Element, count: u64) -> Member {
    Member { element, form: Form::Array(count) }
}

const fn slice(element: Element) -> Member {
    Member { element, form: Form::Slice }
}

include!(env!("REFUSALS"));

/// 4 of a kind.
const MODIFIER: u64 = 4;

impl Member {
    /// As a record: an array and a slice have the element's alignment and alignment modifier, an array its mark too.
    fn layout(&self, types: &[Option<[u64; 6]>]) -> Result<[u64; 6], String> {
        let element = match self.element {
            Element::Scalar(layout) => layout(),
            Type(at) => types[at].ok_or(format!("T{at} is a member and has no layout"))?,
        };
        let [align, kind, size, ..] = element;
        Ok(match self.form {
            Form::Alone => element,
            Form::Array(count) => [align, kind, count * size, 0, 0, 0],
            Form::Slice => {
                let Told { refusal: 0, values: [align, slice_kind, rest @ ..] } = lukaripe_for_slice(size, align)
                else {
                    return Err(format!("no slice of size {size} and alignment {align}"));
                };
                let [size_base, offset, elem_size, word] = rest;
                [align, slice_kind + (kind & MODIFIER), size_base, offset, elem_size, word]
            }
        })
    }

    /// Whether rustc comes upon a type that asks for an alignment.
    fn is_seen_aligned(&self) -> bool {
        match (&self.element, &self.form) {
            (Type(at), Form::Alone) => CASES[*at].align != 0 || CASES[*at].members.iter().any(Member::is_seen_aligned),
            _ => false,
        }
    }
}

/// How many types there were of each sort.
#[derive(Default)]
struct Counts {
    both_modifiers: usize,
    inside_packed: usize,
    accepted: usize,
    only_in_arrays: usize,
}

fn strict(case: &Case, members: &[[u64; 6]]) -> Told<7> {
    let bytes: Vec<u8> = members.as_flattened().iter().flat_map(|word| word.to_le_bytes()).collect();
    // SAFETY: the bytes are as many as said.
    unsafe { lukaripe_for_repr_c_struct_strict(case.align, case.packing, bytes.as_ptr(), bytes.len()) }
}

/// The layout of a type where the strict composition gives one; what it refuses must be what rustc refuses.
fn check(case: &Case, types: &[Option<[u64; 6]>], counts: &mut Counts) -> Result<Option<[u64; 6]>, String> {
    let members: Vec<[u64; 6]> = case.members.iter().map(|member| member.layout(types)).collect::<Result<_, _>>()?;
    let Told { refusal, values: [place, layout @ ..] } = strict(case, &members);
    if cfg!(facts) {
        return Ok(Some(layout));
    }
    let first = members.iter().position(|[_, kind, ..]| kind & MODIFIER != 0);
    if (refusal == 0) != case.allowed {
        return Err(format!(
            "allowed by the Reference: {}, the strict composition: {refusal} at {place}",
            case.allowed
        ));
    }
    match (case.rustc, refusal) {
        ("E0587", 49) if place == 0 => counts.both_modifiers += 1,
        ("E0588", 50) if Some(place as usize) == first => counts.inside_packed += 1,
        ("", 50) if Some(place as usize) == first && !case.members.iter().any(Member::is_seen_aligned) => {
            counts.only_in_arrays += 1
        }
        ("", 0) => {
            counts.accepted += 1;
            return Ok(Some(layout));
        }
        (code, _) => {
            let rustc = if code.is_empty() { "takes it" } else { code };
            return Err(format!("rustc: {rustc}, the strict composition: {refusal} at {place}"));
        }
    }
    Ok(None)
}

/// What was found, in one line, or what differs.
pub fn check_all() -> Result<String, String> {
    let (mut types, mut counts) = (Vec::new(), Counts::default());
    for (at, case) in CASES.iter().enumerate() {
        let layout = check(case, &types, &mut counts);
        types.push(layout.map_err(|what| format!("DIFFERENCE in T{at} of {}: {what}", env!("REFUSALS")))?);
    }
    let Counts { both_modifiers, inside_packed, accepted, only_in_arrays } = counts;
    Ok(format!(
        "{} types: {both_modifiers} refused by E0587 and 49, {inside_packed} by E0588 and 50, {accepted} accepted by \
         both, {only_in_arrays} refused by 50 through an array or slice alone",
        CASES.len(),
    ))
}
