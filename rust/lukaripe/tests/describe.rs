//! The stack that reading takes: that of the open parts, at most 16, and not of their members.

use lukaripe::{lengthen_counts_vec, Layout, Refusal, Refused, DESCRIPTION_DEPTH, TAG_LONG_STRUCT, TAG_STRUCT};
use std::thread;

/// Of a thread, in bytes.
const SMALL_STACK: usize = 128 * 1024;

const U8: u8 = 0;

/// As many structs as may be open, each with this head and the last member of the one around it.
fn deepest(head: &[u8], members: usize) -> Vec<u8> {
    let first = vec![U8; members - 1];
    let mut description = [head, &first].concat().repeat(DESCRIPTION_DEPTH);
    description.push(U8);
    description
}

/// What comes of it in a thread of a small stack.
fn in_a_small_stack<T: Send + 'static>(
    description: &[u8],
    call: fn(&[u8]) -> Result<T, Refused>,
) -> Result<T, Refused> {
    let description = description.to_vec();
    let reading = thread::Builder::new().stack_size(SMALL_STACK).spawn(move || call(&description));
    reading.expect("a thread").join().expect("the stack is enough")
}

fn check(description: &[u8], members: usize) {
    let read = |description: &[u8]| in_a_small_stack(description, Layout::read);
    let size = DESCRIPTION_DEPTH * (members - 1) + 1;
    assert_eq!(read(description), Ok(Layout::for_unpadded_type(size as u64, 1).unwrap()));

    // Cut before its last byte, it is read to the end too.
    let last = description.len() - 1;
    let refused = |refusal| Err(Refused { refusal, place: last as u64 });
    assert_eq!(read(&description[..last]), refused(Refusal::DescriptionCut));
    let deeper = [&description[..last], &[TAG_STRUCT]].concat();
    assert_eq!(read(&deeper), refused(Refusal::NestingTooDeep));
}

#[test]
fn structs_of_255_members() {
    let description = deepest(&[TAG_STRUCT, 0, 0, 255], 255);
    assert_eq!(description.len(), 4_129);
    check(&description, 255);
    let longer = in_a_small_stack(&description, lengthen_counts_vec);
    assert_eq!(longer, Ok(deepest(&[TAG_LONG_STRUCT, 0, 0, 255, 0], 255)));
}

#[test]
fn structs_of_65535_members() {
    check(&deepest(&[TAG_LONG_STRUCT, 0, 0, 255, 255], 65_535), 65_535);
}
