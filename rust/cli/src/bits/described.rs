//! What the library makes of a description.

use super::library::{Layout, Refused};
use super::member::{member_at, Member, CLOSING};
use super::placed::{compose, record as placed_record, record_of_one};
use crate::description::{Description, Form};
use crate::record::{Asked, Inner, Record};

/// The layout of the whole.
pub fn layout(described: &Description) -> Result<Layout, Refused> {
    Layout::read(&described.bytes)
}

/// Of a struct that is refused for its composition, the member or the closing padding that is refused. The members
/// before that are accepted.
pub fn member_at_fault(described: &Description, why: Refused) -> Option<String> {
    let part = usize::try_from(why.place).ok()?;
    let Form::Struct(asked, _) = described.form_at(why.place)? else { return None };
    let held = described.held(part);
    let layouts: Vec<Layout> = held.iter().map_while(|held| layout_of(described, *held).ok()).collect();
    let own = compose(asked, &layouts).err()?;
    let index = usize::try_from(own.place).ok().filter(|_| own.refusal == why.refusal)?;
    Some(match held.get(index) {
        Some(member) => member_at(index, Some(&described.name(*member))),
        None => CLOSING.to_string(),
    })
}

/// The record of the whole: a struct's members, or what is no struct as the one member.
pub fn record(described: &Description) -> Result<Record, Refused> {
    match described.form(0) {
        Form::Struct(asked, _) => record_of(described, 0, asked),
        _ => {
            let member = Member { name: described.name(0), layout: layout(described)? };
            Ok(record_of_one(described.type_name(0), member))
        }
    }
}

/// The record of the whole, with all that its members hold.
pub fn record_with_inner(described: &Description) -> Result<Record, Refused> {
    let mut record = record(described)?;
    let parts = match described.form(0) {
        Form::Struct(..) => described.held(0),
        _ => vec![0],
    };
    for (index, (member, part)) in record.members.iter_mut().zip(parts).enumerate() {
        add_inner(described, part, member.place.into(), &index.to_string(), 1, &mut member.inner)?;
    }
    Ok(record)
}

/// Adds what a part at a place of the whole holds: a struct its members; an array or slice what its first element
/// holds, where it has one.
fn add_inner(
    described: &Description,
    part: usize,
    place: u128,
    path: &str,
    depth: usize,
    inner: &mut Vec<Inner>,
) -> Result<(), Refused> {
    let asked = match described.form(part) {
        Form::Scalar(_) | Form::Array(0) => return Ok(()),
        form @ (Form::Array(_) | Form::Slice) => {
            return add_inner(described, part + form.length(), place, &format!("{path}[0]"), depth, inner);
        }
        Form::Struct(asked, _) => asked,
    };
    let record = record_of(described, part, asked)?;
    let closing = record.closing_piece();
    for (index, (member, part)) in record.members.into_iter().zip(described.held(part)).enumerate() {
        let (path, place) = (format!("{path}.{index}"), place + u128::from(member.place));
        inner.push(Inner::member(depth, path.clone(), place, &member));
        add_inner(described, part, place, &path, depth + 1, inner)?;
    }
    inner.extend(closing.map(|closing| Inner::closing(depth, place + closing.start, closing.bytes)));
    Ok(())
}

/// The record of a struct alone: its members by their own layouts.
fn record_of(described: &Description, part: usize, asked: Asked) -> Result<Record, Refused> {
    let member = |part| Ok(Member { name: described.name(part), layout: layout_of(described, part)? });
    let members = described.held(part).into_iter().map(member).collect::<Result<Vec<_>, Refused>>()?;
    let layouts: Vec<Layout> = members.iter().map(|member| member.layout).collect();
    Ok(placed_record(asked, compose(asked, &layouts)?, members))
}

fn layout_of(described: &Description, part: usize) -> Result<Layout, Refused> {
    Layout::read(&described.bytes[described.span(part)])
}

#[cfg(test)]
mod tests {
    use super::super::Word;
    use super::*;
    use crate::shape::Shape;
    use crate::text::Typed;

    const TEXTS: [&str; 13] = [
        "u8",
        "[u16; 4]",
        "[u16]",
        "struct {}",
        "struct { u8, u64, u16 }",
        "struct(align 16) { u8, u64 }",
        "struct(packed 2) { u8, u64, struct { u8, u32 } }",
        "struct(align 32, packed 4) { u8, struct(align 16) { u8 }, [u64] }",
        "struct { u64, [u16; 4], struct { u8, u32 }, [u8] }",
        "struct { u8, struct { u16, struct { u32, [struct { u8, u16 }] } } }",
        "[struct { u8, [struct { u64, u8 }; 3], u8 }; 5]",
        "[[struct { u8, u16 }; 0]; 3]",
        "[struct(align 2147483648) {}; 2]",
    ];

    fn described(text: &str) -> Description {
        Typed::read(text).unwrap_or_else(|_| panic!("{text} is read")).described
    }

    #[test]
    fn the_whole_is_as_it_is_read() {
        let long = Description::of_bytes(vec![19, 0, 4, 2, 0, 0, 17, 0, 0, 1, 3]);
        for described in TEXTS.into_iter().map(described).chain([long]) {
            let whole = record_with_inner(&described).map(|record| record.whole);
            assert_eq!(whole, layout(&described).map(Shape::from), "{}", described.listing());
        }
    }

    #[test]
    fn what_members_hold_has_its_places() {
        let text = "struct { u8, a: [struct { u32, b: struct { u16, u8 } }; 2], [struct { u8, u16 }] }";
        let record = record_with_inner(&described(text)).unwrap();
        let said = |inner: &Inner| {
            let gap = inner.align_and_gap.map(|(_, gap)| gap);
            (inner.depth, inner.path.clone(), inner.name.clone(), inner.place, inner.size.clone(), gap)
        };
        let row = |depth, path: &str, name: &str, place, size: &str, gap| {
            (depth, path.to_string(), name.to_string(), place, size.to_string(), gap)
        };
        assert!(record.members[0].inner.is_empty());
        assert_eq!(
            record.members[1].inner.iter().map(said).collect::<Vec<_>>(),
            [
                row(1, "1[0].0", "u32", 4, "4", Some(0)),
                row(1, "1[0].1", "b", 8, "4", Some(0)),
                row(2, "1[0].1.0", "u16", 8, "2", Some(0)),
                row(2, "1[0].1.1", "u8", 10, "1", Some(0)),
                row(2, "", "closing padding", 11, "1", None),
            ]
        );
        assert_eq!(
            record.members[2].inner.iter().map(said).collect::<Vec<_>>(),
            [row(1, "2[0].0", "u8", 20, "1", Some(0)), row(1, "2[0].1", "u16", 22, "2", Some(1))]
        );
        // No first element.
        let none = record_with_inner(&described("struct { [struct { u8 }; 0] }")).unwrap();
        assert!(none.members[0].inner.is_empty());
    }

    #[test]
    fn places_of_a_first_element_may_be_beyond_all_sizes() {
        let large = match Word::BITS {
            32 => "[[u8; 65535]; 65536]",
            _ => "[[[u8; 4294967295]; 2147483648]; 2]",
        };
        let text = format!("struct {{ {large}, [struct {{ {large}, u8 }}] }}");
        let record = record_with_inner(&described(&text)).unwrap();
        let size = layout(&described(large)).unwrap().size().unwrap();
        assert_eq!(record.members[1].inner[1].place, 2 * u128::from(size));
    }
}
