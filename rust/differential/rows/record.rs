//! Records, scalars and member lists.

use super::{answered, apart, layout_kind, layout_of, no_label, no_modifier, nowhere, refused, refused_for};
use super::{Cell, Row, ANSWER};
use crate::answer::Answer;
use crate::exports::*;
use crate::kinds::{layout, length, lent_list, list, modifier, number, record};
use crate::lent::{bytes, reads, records, writes, Numbers, RECORD};
use crate::plain_places;
use crate::table::{self, bad_align, first, has_modifier};
use crate::width::{Word, M};

pub const ROWS: &[Row] = &[
    Row {
        number: 23,
        name: "decode",
        inputs: &[&[record("record")]],
        values: 6,
        cells: &[apart(0), apart(1), apart(2), apart(20), apart(21), apart(22), apart(43).only_at(32)],
        modifier: None,
        label: no_label,
        pages: &[
            &[48, 4, 3, 8, 9, 1, 5],
            &[0],
            // Each kind, and the next.
            &[48, 4, 0, 9, 0, 0, 0],
            &[48, 4, 1, 8, 0, 0, 0],
            &[48, 4, 2, 8, 9, 1, 5],
            &[48, 4, 4, 9, 0, 0, 0],
            &[48, 4, 5, 8, 0, 0, 0],
            &[48, 4, 6, 8, 9, 1, 5],
            &[48, 4, 7, 8, 9, 1, 5],
            &[48, 4, 8, 8, 0, 0, 0],
            &[48, 4, 4, 9, 0, 0, 1],
            &[48, 4, 6, 8, 9, 1, 0],
        ],
        aim: nowhere,
        ours: |i| reads(&bytes(i), |record, len| unsafe { lukaripe_decode(record, len) }.into()),
        apart: |i| match records(i).as_deref() {
            Some([words]) => first(&table::record(*words)).or(Some(Answer::of(*words))),
            _ => Some(Answer::refused(20)),
        },
        rust: |_| unreachable!("the Rust has no records"),
    },
    Row {
        number: 24,
        name: "encode",
        inputs: &[&[layout("layout"), length("len")]],
        values: 6,
        cells: &[apart(0), apart(1), apart(2), apart(20), apart(21), apart(22)],
        modifier: None,
        label: no_label,
        pages: &[
            &[4, 3, 8, 9, 1, 5, 48],
            &[4, 0, 9, 0, 0, 0, 48],
            &[4, 1, 8, 0, 0, 0, 48],
            &[4, 2, 8, 9, 1, 5, 48],
            &[4, 4, 9, 0, 0, 0, 48],
            &[4, 5, 8, 0, 0, 0, 48],
            &[4, 6, 8, 9, 1, 5, 48],
            &[4, 7, 8, 9, 1, 5, 48],
        ],
        aim: nowhere,
        ours: |i| writes(i[6] as usize, |out, len| unsafe { lukaripe_encode(Words(layout_of(i)), out, len) }),
        apart: |i| {
            first(&[(20, i[6] != RECORD as u64)])
                .or_else(|| first(&table::layout(layout_of(i))))
                .or(Some(Answer::of(layout_of(i))))
        },
        rust: |_| unreachable!("the Rust has no records"),
    },
    Row {
        number: 25,
        name: "scalar",
        inputs: &[&[number("code")]],
        values: 6,
        cells: &[ANSWER, apart(23)],
        modifier: Some(no_modifier),
        label: no_label,
        pages: &[],
        aim: nowhere,
        ours: |i| lukaripe_scalar(i[0]).into(),
        apart: |i| first(&[(23, i[0] > 8)]),
        rust: |i| oracle::scalar(i[0]).into(),
    },
    Row {
        number: 26,
        name: "compose",
        inputs: &[&[modifier("repr_align"), modifier("repr_packed"), list("members")]],
        values: 7,
        cells: &[
            answered("no members"),
            answered("fixed"),
            answered("trailing"),
            answered("fixed, modifier"),
            answered("trailing, modifier"),
            OWN_ALIGN,
            PACKING,
            ALIGN_ABOVE_MAX,
            AFTER_TRAILING,
            PLACE,
            MEMBER,
            apart(20).at(0, 0),
            apart(21).at(0, 7),
            apart(1).at(0, 7),
            apart(22).at(0, 7),
            apart(2).at(0, 7),
            apart(43).at(0, 7).only_at(32),
        ],
        modifier: Some(some_modifier),
        label: composed,
        pages: LISTS,
        aim: nowhere,
        ours: |i| reads(&bytes(&i[2..]), |at, len| unsafe { lukaripe_compose(i[0], i[1], at, len) }.into()),
        apart: bad_record,
        rust: |i| oracle::compose(i[0], i[1], &good_records(i)).into(),
    },
    Row {
        number: 27,
        name: "for_repr_c_struct",
        inputs: &[&[modifier("repr_align"), modifier("repr_packed"), list("members")]],
        values: 7,
        cells: &[
            answered("no members"),
            answered("fixed"),
            answered("trailing"),
            answered("fixed, modifier"),
            answered("trailing, modifier"),
            OWN_ALIGN,
            PACKING,
            ALIGN_ABOVE_MAX,
            AFTER_TRAILING,
            PLACE,
            MEMBER,
            refused_for(8, FINAL_PADDING).at(1, 8),
            apart(20).at(0, 0),
            apart(21).at(0, 7),
            apart(1).at(0, 7),
            apart(22).at(0, 7),
            apart(2).at(0, 7),
            apart(43).at(0, 7).only_at(32),
        ],
        modifier: Some(some_modifier),
        label: composed,
        pages: LISTS,
        aim: nowhere,
        ours: |i| reads(&bytes(&i[2..]), |at, len| unsafe { lukaripe_for_repr_c_struct(i[0], i[1], at, len) }.into()),
        apart: bad_record,
        rust: |i| oracle::for_repr_c_struct(i[0], i[1], &good_records(i)).into(),
    },
    Row {
        number: 34,
        name: "for_repr_c_struct_strict",
        inputs: &[&[modifier("repr_align"), modifier("repr_packed"), list("members")]],
        values: 7,
        cells: &[
            answered("no members"),
            answered("fixed"),
            answered("trailing"),
            answered("fixed, modifier"),
            answered("trailing, modifier"),
            OWN_ALIGN,
            PACKING,
            ALIGN_ABOVE_MAX,
            AFTER_TRAILING,
            PLACE,
            MEMBER,
            refused_for(8, FINAL_PADDING).at(1, 8),
            apart(20).at(0, 0),
            apart(49).at(0, 0),
            apart(21).at(0, 7),
            apart(1).at(0, 7),
            apart(22).at(0, 7),
            apart(2).at(0, 7),
            apart(43).at(0, 7).only_at(32),
            apart(50).at(0, 7),
        ],
        modifier: Some(some_modifier),
        label: composed,
        pages: STRICT_LISTS,
        aim: nowhere,
        ours: |i| {
            let strict = |at, len| unsafe { lukaripe_for_repr_c_struct_strict(i[0], i[1], at, len) };
            reads(&bytes(&i[2..]), |at, len| strict(at, len).into())
        },
        apart: forbidden,
        // Where neither 49 nor 50 applies it answers as the Rust's.
        rust: |i| oracle::for_repr_c_struct(i[0], i[1], &good_records(i)).into(),
    },
    Row {
        number: 35,
        name: "for_repr_c_struct_places",
        inputs: &[&[modifier("repr_align"), modifier("repr_packed"), lent_list("places_len, gaps_len, at, members")]],
        // Behind the words of the layout: the place and the gap of the member that is looked at.
        values: 9,
        cells: &[
            answered("no members"),
            answered("fixed"),
            answered("trailing"),
            answered("fixed, modifier"),
            answered("trailing, modifier"),
            OWN_ALIGN,
            PACKING,
            refused(6).at(0, 6),
            refused(7).at(1, 6),
            refused(8).at(1, 6),
            refused(9).at(1, 6),
            refused_for(8, FINAL_PADDING).at(1, 7),
            apart(20).at(0, 0),
            apart(24).at(0, 0),
            apart(21).at(0, 6),
            apart(1).at(0, 6),
            apart(22).at(0, 6),
            apart(2).at(0, 6),
            apart(43).at(0, 6).only_at(32),
        ],
        modifier: Some(|i| some_modifier(&without_lent(i))),
        label: |i, answer| composed(&without_lent(i), answer),
        pages: PLACED_LISTS,
        aim: nowhere,
        ours: placed,
        apart: |i| {
            let members = i[5] / RECORD as u64;
            let lengths = [(20, i[5] % RECORD as u64 != 0), (24, i[2] != members || i[3] != members)];
            first(&lengths).or_else(|| bad_record(&without_lent(i)))
        },
        // The layout is the Rust's, and the numbers are those of the plain text beside it.
        rust: |i| {
            let members = good_records(&without_lent(i));
            let mut answer = Answer::from(oracle::for_repr_c_struct(i[0], i[1], &members));
            if answer.refusal == 0 && !members.is_empty() {
                let (place, gap) = plain_places::placed(i[1], &members)[i[4] as usize % members.len()];
                answer.values[7..9].copy_from_slice(&[place, gap].map(|number| number as u64));
            }
            answer
        },
    },
];

// A list has up to 8 members here. The own alignment and the packing are the same for all of them, so they are refused
// before the first or with it, and the first has nothing before it.
const OWN_ALIGN: Cell = refused(1).at(0, 0);
const PACKING: Cell = refused(5).at(0, 0);
const ALIGN_ABOVE_MAX: Cell = refused(6).at(0, 7);
const AFTER_TRAILING: Cell = refused(7).at(1, 7);
const PLACE: Cell = refused(8).at(1, 7);
const MEMBER: Cell = refused(9).at(1, 7);
const FINAL_PADDING: &str = "final padding";

/// The listing's examples, and what packing means where there are no members.
const LISTS: &[&[u64]] = &[
    &[0, 0, 144, 4, 1, 8, 0, 0, 0, 1, 1, 1, 0, 0, 0, 1, 3, 0, 0, 1, 1],
    &[0, 0, 0],
    &[0, 0, 96, 1, 3, 0, 0, 1, 1, 1, 1, 1, 0, 0, 0],
    &[0, 3, 0],
    &[0, 3, 48, 1, 1, 1, 0, 0, 0],
    // Whatever else is wrong: the length, then the own alignment, then the first member's record, then its step.
    &[3, 3, 49, 4, 8, 8, 0, 0, 0, 1],
    &[3, 3, 48, 4, 8, 8, 0, 0, 0],
    &[0, 3, 48, 4, 8, 8, 0, 0, 0],
    // Both an alignment and a packing, and members with the alignment modifier in a packed struct: answers.
    &[8, 1, 48, 1, 1, 1, 0, 0, 0],
    &[1, 0, 0],
    &[0, 1, 96, 1, 1, 1, 0, 0, 0, 8, 4, 8, 0, 0, 0],
    &[0, 0, 96, 4, 5, 8, 0, 0, 0, 4, 1, 4, 0, 0, 0],
    &[0, 2, 96, 1, 1, 1, 0, 0, 0, 4, 6, 8, 9, 1, 5],
    &[0, 0, 96, 4, 1, 8, 0, 0, 0, 1, 7, 0, 0, 1, 1],
];

const STRICT_LISTS: &[&[u64]] = &[
    // Both are asked for, whatever they are and whatever the members; but the length and the own alignment come before.
    &[8, 1, 0],
    &[8, 3, 0],
    &[1, 1 << 30, 0],
    &[8, 1, 48, 4, 8, 8, 0, 0, 0],
    &[8, 1, 49, 4, 8, 8, 0, 0, 0, 1],
    &[3, 1, 48, 4, 4, 8, 0, 0, 0],
    // A member with the alignment modifier: after its own record's tests, before its step's, whatever the packing is.
    &[0, 3, 48, 4, 4, 8, 0, 0, 0],
    &[0, 3, 48, 4, 12, 8, 0, 0, 0],
    &[0, 3, 48, 3, 4, 8, 0, 0, 0],
    &[0, 3, 48, 4, 4, 8, 0, 0, 1],
    &[0, 3, 48, 4, 6, 8, 9, 1, 0],
    &[0, 16, 48, 4, 5, 8, 0, 0, 0],
    &[0, 1, 48, 1 << 30, 4, 0, 0, 0, 0],
    &[0, 1, 96, 1, 3, 0, 0, 1, 1, 4, 4, 8, 0, 0, 0],
    &[0, 1, 96, 1, 1, M, 0, 0, 0, 1, 4, 8, 0, 0, 0],
    // An earlier member's refusal comes before, and of two with it the first is meant.
    &[0, 3, 96, 1, 1, 1, 0, 0, 0, 4, 4, 8, 0, 0, 0],
    &[0, 1, 96, 3, 1, 1, 0, 0, 0, 4, 4, 8, 0, 0, 0],
    &[0, 1, 144, 1, 1, 1, 0, 0, 0, 4, 4, 8, 0, 0, 0, 4, 5, 8, 0, 0, 0],
    // Without a packing it is inherited, in each kind, and an alignment gives it.
    &[0, 0, 96, 4, 4, 8, 0, 0, 0, 1, 1, 1, 0, 0, 0],
    &[0, 0, 96, 4, 5, 8, 0, 0, 0, 4, 1, 4, 0, 0, 0],
    &[0, 0, 96, 1, 0, 1, 0, 0, 0, 4, 6, 8, 9, 1, 5],
    &[0, 0, 96, 4, 1, 8, 0, 0, 0, 4, 7, 8, 8, 4, 4],
    &[1, 0, 48, 1, 1, 1, 0, 0, 0],
    &[0, 1, 48, 1, 1, 1, 0, 0, 0],
    &[0, 3, 0],
];

/// Two lengths and an index come before the list.
const PLACED_LISTS: &[&[u64]] = &[
    // Members at 0, 8 and 16, each looked at, and an index past them; 6 bytes of closing padding.
    &[0, 0, 3, 3, 0, 144, 1, 1, 1, 0, 0, 0, 8, 1, 8, 0, 0, 0, 2, 1, 2, 0, 0, 0],
    &[0, 0, 3, 3, 1, 144, 1, 1, 1, 0, 0, 0, 8, 1, 8, 0, 0, 0, 2, 1, 2, 0, 0, 0],
    &[0, 0, 3, 3, 2, 144, 1, 1, 1, 0, 0, 0, 8, 1, 8, 0, 0, 0, 2, 1, 2, 0, 0, 0],
    &[0, 0, 3, 3, M, 144, 1, 1, 1, 0, 0, 0, 8, 1, 8, 0, 0, 0, 2, 1, 2, 0, 0, 0],
    // A packing that lowers, one that does not, and an own alignment, which moves nothing.
    &[0, 2, 3, 3, 1, 144, 1, 1, 1, 0, 0, 0, 8, 1, 8, 0, 0, 0, 2, 1, 2, 0, 0, 0],
    &[0, 1, 3, 3, 2, 144, 1, 1, 1, 0, 0, 0, 8, 1, 8, 0, 0, 0, 2, 1, 2, 0, 0, 0],
    &[0, 16, 2, 2, 1, 96, 1, 1, 1, 0, 0, 0, 8, 4, 8, 0, 0, 0],
    &[32, 0, 2, 2, 1, 96, 1, 1, 1, 0, 0, 0, 8, 1, 8, 0, 0, 0],
    &[32, 4, 2, 2, 1, 96, 1, 1, 1, 0, 0, 0, 8, 1, 8, 0, 0, 0],
    // No members, with a packing that would be refused at one.
    &[0, 0, 0, 0, 0, 0],
    &[8, 3, 0, 0, 5, 0],
    // A trailing member: where it starts, not where its elements do.
    &[0, 0, 2, 2, 1, 96, 1, 1, 1, 0, 0, 0, 4, 2, 8, 9, 2, 5],
    &[0, 2, 2, 2, 1, 96, 1, 1, 1, 0, 0, 0, 4, 7, 8, 9, 2, 5],
    &[0, 0, 1, 1, 0, 48, 1, 3, 0, 0, 1, 1],
    // Members of size 0, of which the second has a gap before it and takes no room.
    &[0, 0, 4, 4, 1, 192, 1, 1, 1, 0, 0, 0, 4, 1, 0, 0, 0, 0, 1, 1, 0, 0, 0, 0, 1, 1, 1, 0, 0, 0],
    &[0, 0, 4, 4, 2, 192, 1, 1, 1, 0, 0, 0, 4, 1, 0, 0, 0, 0, 1, 1, 0, 0, 0, 0, 1, 1, 1, 0, 0, 0],
    &[0, 0, 4, 4, 3, 192, 1, 1, 1, 0, 0, 0, 4, 1, 0, 0, 0, 0, 1, 1, 0, 0, 0, 0, 1, 1, 1, 0, 0, 0],
    // The greatest place, and a gap that ends at it.
    &[0, 0, 2, 2, 1, 96, 1, 1, M, 0, 0, 0, 1, 1, 0, 0, 0, 0],
    &[0, 0, 2, 2, 1, 96, 1, 1, M - 14, 0, 0, 0, 8, 1, 0, 0, 0, 0],
    // Slices of another length: longer, shorter and none, of either.
    &[0, 0, 2, 1, 0, 48, 1, 1, 1, 0, 0, 0],
    &[0, 0, 1, 2, 0, 48, 1, 1, 1, 0, 0, 0],
    &[0, 0, 2, 2, 0, 48, 1, 1, 1, 0, 0, 0],
    &[0, 0, 0, 1, 0, 48, 1, 1, 1, 0, 0, 0],
    &[0, 0, 1, 0, 0, 48, 1, 1, 1, 0, 0, 0],
    &[0, 0, 1, 0, 0, 0],
    &[0, 0, 0, 1, 0, 0],
    // The length of the list comes before that of the slices, and that before the own alignment and the members.
    &[3, 3, 2, 2, 0, 49, 4, 8, 8, 0, 0, 0, 1],
    &[3, 3, 0, 0, 0, 47, 4, 8, 8, 0, 0, 0],
    &[3, 3, 2, 1, 0, 48, 4, 8, 8, 0, 0, 0],
    &[3, 0, 0, 1, 0, 0],
    &[3, 3, 1, 1, 0, 48, 4, 8, 8, 0, 0, 0],
    &[3, 0, 0, 0, 0, 0],
    &[0, 3, 1, 1, 0, 48, 4, 8, 8, 0, 0, 0],
    &[0, 3, 1, 1, 0, 48, 4, 1, 8, 0, 0, 0],
    // Refusals behind members that have their places: of the last member, and of the closing padding.
    &[0, 0, 2, 2, 0, 96, 1, 3, 0, 0, 1, 1, 1, 1, 1, 0, 0, 0],
    &[0, 0, 2, 2, 0, 96, 1, 1, 1, 0, 0, 0, 3, 1, 1, 0, 0, 0],
    &[0, 0, 2, 2, 0, 96, 1, 1, M, 0, 0, 0, 2, 1, 2, 0, 0, 0],
    &[0, 0, 2, 2, 0, 96, 1, 1, 1, 0, 0, 0, 1, 1, M, 0, 0, 0],
    &[0, 0, 2, 2, 1, 96, 8, 1, 8, 0, 0, 0, 1, 1, M - 8, 0, 0, 0],
    &[2, 0, 1, 1, 0, 48, 1, 1, M, 0, 0, 0],
];

/// The inputs of the composition that writes nothing.
fn without_lent(inputs: &[u64]) -> Vec<u64> {
    [&inputs[..2], &inputs[5..]].concat()
}

/// The composition with places, and the numbers of the member that is looked at. What it wrote is looked at whole.
fn placed(inputs: &[u64]) -> Answer {
    let &[repr_align, repr_packed, places_len, gaps_len, at, ref list @ ..] = inputs else { unreachable!() };
    let [mut places, mut gaps] = [places_len, gaps_len].map(Numbers::new);
    let (places_at, gaps_at) = (places.as_mut_ptr(), gaps.as_mut_ptr());
    let (places_len, gaps_len) = (places.len(), gaps.len());
    let mut answer = reads(&bytes(list), |members, len| {
        // SAFETY: bytes and numbers are as many as said.
        unsafe {
            lukaripe_for_repr_c_struct_places(
                repr_align,
                repr_packed,
                members,
                len,
                places_at,
                places_len,
                gaps_at,
                gaps_len,
            )
        }
        .into()
    });
    let strays = [&places, &gaps].into_iter().find_map(|numbers| numbers.strays(answer.refusal));
    answer.broken = answer.broken.or(strays);
    if answer.refusal == 0 {
        let (places, gaps) = (places.lent(), gaps.lent());
        let members = records(list).unwrap_or_default();
        let wrong = plain_places::broken([repr_align, repr_packed], &members, &answer, places, gaps);
        answer.broken = answer.broken.or(wrong);
        let of_one = |numbers: &[Word]| match at.checked_rem(numbers.len() as u64) {
            Some(at) => u64::from(numbers[at as usize]),
            None => 0,
        };
        answer.values[7..9].copy_from_slice(&[of_one(places), of_one(gaps)]);
    }
    answer
}

fn composed(inputs: &[u64], answer: &Answer) -> &'static str {
    let members = inputs[2] / RECORD as u64;
    match answer.refusal {
        0 if members == 0 => "no members",
        0 => layout_kind(answer.values[2]),
        8 if answer.values[0] == members => FINAL_PADDING,
        _ => "",
    }
}

/// An alignment is asked for, or some member has the alignment modifier. The Rust composed all of them.
fn some_modifier(inputs: &[u64]) -> bool {
    inputs[0] != 0 || good_records(inputs).iter().any(|member| has_modifier(member[1]))
}

/// The members before the first whose record is refused: those that the Rust can be handed.
fn good_records(inputs: &[u64]) -> Vec<[u64; 6]> {
    let members = records(&inputs[2..]).unwrap();
    members.into_iter().take_while(|member| first(&table::record(*member)).is_none()).collect()
}

/// A length, or the first bad record where the Rust composes all the members before it.
fn bad_record(inputs: &[u64]) -> Option<Answer> {
    let Some(members) = records(&inputs[2..]) else {
        return Some(Answer::refused_at(20, 0));
    };
    let good = good_records(inputs);
    let bad = members.get(good.len())?;
    oracle::compose(inputs[0], inputs[1], &good).ok()?;
    first(&table::record(*bad)).map(|answer| Answer::refused_at(answer.refusal, good.len()))
}

/// What the Rust is not asked for of the strict composition, in the order tested: the length, which like a bad own
/// alignment comes before both modifiers on one type, then the first bad record, or the first member with an alignment
/// modifier in a packed struct.
fn forbidden(inputs: &[u64]) -> Option<Answer> {
    let &[repr_align, repr_packed, len, ..] = inputs else { unreachable!() };
    if len % RECORD as u64 != 0 || repr_align != 0 && bad_align(repr_align) {
        return bad_record(inputs);
    }
    if repr_align != 0 && repr_packed != 0 {
        return Some(Answer::refused_at(49, 0));
    }
    let good = good_records(inputs);
    let at = good.iter().position(|member| repr_packed != 0 && has_modifier(member[1]));
    // It is come to where the members before it compose.
    match at {
        Some(at) if oracle::compose(0, repr_packed, &good[..at]).is_ok() => Some(Answer::refused_at(50, at)),
        _ => bad_record(inputs),
    }
}
