//! Whole layouts, records, casts and conversions.

use super::library::*;
use super::{cases, decision, full, number, shorts, told, Inputs, NonZeroWord, Word, OTHER};

/// None where the six words are those of no layout, whatever its numbers are.
fn layout_of([align, kind, size_base, offset, elem_size, word]: [Word; 6]) -> Option<Layout> {
    let size_rounding_align_and_phase = RoundingAlignAndPhase(word);
    let size_info = match (kind, offset, elem_size, word) {
        (0 | 1 | 4 | 5, 0, 0, 0) => SizeInfo::Sized { size: size_base },
        (2 | 3 | 6 | 7, ..) => {
            SizeInfo::SliceDst(Trailing { size_base, offset, elem_size, size_rounding_align_and_phase })
        }
        _ => return None,
    };
    Some(Layout { align, size_info, statically_shallow_unpadded: kind % 2 == 1, align_modifier: kind > 3 })
}

pub fn words_of(layout: Layout) -> [u64; 6] {
    let marks = Word::from(layout.statically_shallow_unpadded) + 4 * Word::from(layout.has_align_modifier());
    let words = match layout.size_info {
        SizeInfo::Sized { size } => [layout.align, marks, size, 0, 0, 0],
        SizeInfo::SliceDst(t) => {
            let word = t.size_rounding_align_and_phase.0;
            [layout.align, 2 + marks, t.size_base, t.offset, t.elem_size, word]
        }
    };
    words.map(u64::from)
}

/// The six words of a record, which have 64 bits at either width.
fn words_in(record: &[u8]) -> [u64; 6] {
    let mut words = record.chunks(8).map(|word| u64::from_le_bytes(word.try_into().unwrap()));
    std::array::from_fn(|_| words.next().unwrap())
}

/// The layout of a record; None also where a number does not fit the width.
fn layout_in(record: &[u8]) -> Option<Layout> {
    let words: Option<Vec<Word>> = words_in(record).into_iter().map(|word| word.try_into().ok()).collect();
    layout_of(words?.try_into().unwrap())
}

/// The members of a list of records, where each is a layout, whatever its numbers are.
fn members(list: &[u8]) -> Option<Vec<Layout>> {
    let records = list.chunks_exact(RECORD_LENGTH);
    if !records.remainder().is_empty() {
        return None;
    }
    records.map(layout_in).collect()
}

impl Inputs<'_> {
    pub fn layout(&mut self) -> Option<Layout> {
        layout_of(std::array::from_fn(|_| self.number()))
    }

    fn asked(&mut self) -> Option<NonZeroWord> {
        NonZeroWord::new(self.number())
    }

    /// The length, and then words of 8 bytes, the last one of what is left.
    pub fn bytes(&mut self) -> Vec<u8> {
        let len = self.length();
        let words: Vec<[u8; 8]> = (0..len.div_ceil(8)).map(|_| self.long().to_le_bytes()).collect();
        words.concat()[..len].to_vec()
    }

    fn cast_type(&mut self) -> CastType {
        if self.number() == 0 {
            CastType::Prefix
        } else {
            CastType::Suffix
        }
    }

    fn params(&mut self) -> CastParams {
        let [kind, offset_delta_elems, elem_multiple, dst_meta] = std::array::from_fn(|_| self.number());
        match kind {
            0 => CastParams::SizedToSized,
            1 => CastParams::SizedToUnsized { dst_meta },
            _ => CastParams::UnsizedToUnsized { offset_delta_elems, elem_multiple },
        }
    }
}

fn layout(answer: Result<Layout>) -> Vec<u64> {
    told(answer.map(words_of))
}

fn decoded(record: &[u8]) -> Vec<u64> {
    let answer = Layout::decode(record);
    if let Ok(whole) = record.try_into() {
        assert_eq!(Layout::from_bytes(whole), answer);
    }
    layout(answer)
}

/// The six words that were written, and nothing on a refusal.
fn encoded(layout: Layout, len: usize) -> Vec<u64> {
    let mut out = vec![0; len];
    let answer = layout.encode(&mut out);
    if answer.is_err() {
        assert_eq!(out, vec![0; len]);
    }
    if len == RECORD_LENGTH {
        assert_eq!(layout.to_bytes().map(Vec::from), answer.map(|()| out.clone()));
    }
    told(answer.map(|()| words_in(&out)))
}

fn scalar(code: Word) -> Vec<u64> {
    let answer = Layout::scalar_by_code(code);
    assert_eq!(Scalar::try_from(code).map(Layout::scalar), answer);
    layout(answer)
}

type Composition<T> = fn(Option<NonZeroWord>, Option<NonZeroWord>, &[T]) -> Result<Layout, Refused>;

/// The place comes before the words, and stays on a refusal. Members give what their records give.
fn composed(i: &mut Inputs, of_layouts: Composition<Layout>, of_records: Composition<u8>) -> Vec<u64> {
    let (align, packed, list) = (i.asked(), i.asked(), i.bytes());
    let answer = of_records(align, packed, &list);
    if let Some(members) = members(&list) {
        assert_eq!(of_layouts(align, packed, &members), answer);
    }
    or_place(answer)
}

fn or_place(answer: Result<Layout, Refused>) -> Vec<u64> {
    match answer {
        Ok(layout) => [&[0, 0], &words_of(layout)[..]].concat(),
        Err(refused) => [&[refused.refusal.number(), refused.place], &[0; 6][..]].concat(),
    }
}

/// As of a composition. An array and a slice of what was read are described by what stands before its bytes.
fn read(description: &[u8]) -> Vec<u64> {
    let answer = Layout::read(description);
    if let Ok(elem) = answer {
        let array = [&[TAG_ARRAY, 3, 0, 0, 0], description].concat();
        let slice = [&[TAG_SLICE], description].concat();
        for (around, by_hand) in [(array, Layout::for_array(elem, 3)), (slice, Layout::for_slice_of(elem))] {
            match Layout::read(&around) {
                Err(Refused { refusal: Refusal::NestingTooDeep, .. }) => {}
                by_bytes => assert_eq!(by_bytes, by_hand.map_err(Refused::from)),
            }
        }
    }
    or_place(answer)
}

/// Behind the words come the place and the gap of one member. A refusal writes nothing, and where the lent slices are
/// as long as the list, the functions that allocate give the same.
fn placed(i: &mut Inputs) -> Vec<u64> {
    let (align, packed) = (i.asked(), i.asked());
    let [mut places, mut gaps] = std::array::from_fn(|_| vec![OTHER; i.length()]);
    let (at, list) = (i.length(), i.bytes());
    let answer = for_repr_c_struct_places_into(align, packed, &list, &mut places, &mut gaps);
    let count = list.len() / RECORD_LENGTH;
    if (places.len(), gaps.len()) == (count, count) {
        let placed = answer.map(|layout| Placed { layout, places: places.clone(), gaps: gaps.clone() });
        assert_eq!(for_repr_c_struct_places_records(align, packed, &list), placed);
        if let Some(members) = members(&list) {
            assert_eq!(for_repr_c_struct_places(align, packed, &members), placed);
        }
    }
    match answer {
        Ok(layout) => {
            let of_one = |numbers: &[Word]| at.checked_rem(count).map_or(0, |at| numbers[at].into());
            [&[0, 0], &words_of(layout)[..], &[of_one(&places), of_one(&gaps)]].concat()
        }
        Err(refused) => {
            assert!(places.iter().chain(&gaps).all(|number| *number == OTHER));
            [&[refused.refusal.number(), refused.place], &[0; 8][..]].concat()
        }
    }
}

/// The words of the layout come behind the refusal, on a refusal too: those from before.
fn worked(mut working: Working, add: impl FnOnce(&mut Working) -> Result<()>) -> Vec<u64> {
    let before = working;
    let refusal = add(&mut working).map_or_else(Refusal::number, |()| 0);
    if refusal != 0 {
        assert_eq!(working, before);
    }
    [&[refusal], &words_of(working.layout())[..]].concat()
}

fn worked_by_value(i: &mut Inputs) -> Option<Vec<u64>> {
    let (own, field) = (i.layout()?, i.layout()?);
    Some(worked(Working::from_layout(own, i.asked()), |working| working.add(field)))
}

/// A member gives what its record gives.
fn worked_by_record(i: &mut Inputs) -> Option<Vec<u64>> {
    let working = Working::from_layout(i.layout()?, i.asked());
    let record = i.bytes();
    let by_record = worked(working, |working| working.add_record(&record));
    if let Some([member]) = members(&record).as_deref() {
        assert_eq!(worked(working, |working| working.add(*member)), by_record);
    }
    Some(by_record)
}

fn begun(repr_align: Option<NonZeroWord>) -> Vec<u64> {
    let under = |packing| Working::begin(repr_align, NonZeroWord::new(packing)).map(|working| working.layout());
    assert_eq!(under(3), under(0));
    layout(under(0))
}

fn cast(answer: Result<Cast>) -> Vec<u64> {
    told(answer.map(|cast| [cast.count, cast.split]))
}

fn serving(serving: Serving) -> Vec<u64> {
    match serving {
        Serving::Map(cast) => vec![0, 0, 1, cast.count.into(), cast.split.into()],
        Serving::Spare { map, cast } => vec![map.number(), 0, 2, cast.count.into(), cast.split.into()],
        Serving::Neither { map, spare } => vec![map.number(), spare.number(), 0, 0, 0],
    }
}

pub fn cast_params(answer: Result<CastParams>) -> Vec<u64> {
    told(answer.map(|params| match params {
        CastParams::SizedToSized => [0, 0, 0, 0],
        CastParams::SizedToUnsized { dst_meta } => [1, 0, 0, dst_meta],
        CastParams::UnsizedToUnsized { offset_delta_elems, elem_multiple } => [2, offset_delta_elems, elem_multiple, 0],
    }))
}

pub fn carried(answer: Carried) -> Vec<u64> {
    [cast_params(answer.computed), number(answer.count), cast(answer.first), cast(answer.second)].concat()
}

pub fn call(function: u64, i: &mut Inputs) -> Option<Vec<u64>> {
    Some(match function {
        15 => layout(Layout::new_zst(i.asked())),
        16 => layout(Layout::for_type(i.number(), i.number())),
        17 => layout(Layout::for_unpadded_type(i.number(), i.number())),
        18 => layout(Layout::for_slice(i.number(), i.number())),
        19 => layout(i.layout()?.extend(i.layout()?, i.asked())),
        20 => layout(i.layout()?.pad_to_align()),
        21 => decision(i.layout()?.requires_static_padding()),
        22 => decision(i.layout()?.requires_dynamic_padding()),
        23 => decoded(&i.bytes()),
        24 => encoded(i.layout()?, i.length()),
        25 => scalar(i.number()),
        26 => composed(i, compose, compose_records),
        27 => composed(i, for_repr_c_struct, for_repr_c_struct_records),
        28 => cast(i.layout()?.validate_cast_and_convert_metadata(i.number(), i.number(), i.cast_type())),
        29 => number(i.layout()?.metadata_for_exact_size(i.number())),
        30 => decision(size_sequences_match(i.trailing(), i.trailing(), i.number())),
        31 => cast_params(CastParams::try_compute(i.layout()?, i.layout()?)),
        32 => number(i.params().cast_metadata(i.number())),
        33 => {
            let (src, dst) = (i.layout()?, i.layout()?);
            carried(convert_and_cast(src, dst, i.number(), i.number(), i.number(), i.number()))
        }
        34 => composed(i, for_repr_c_struct_strict, for_repr_c_struct_strict_records),
        35 => placed(i),
        36 => worked_by_value(i)?,
        37 => worked_by_record(i)?,
        38 => begun(i.asked()),
        39..=42 => shorts::call(function, i)?,
        43..=47 => full::call(function, i)?,
        49 => cases::call(i),
        50 => serving(i.layout()?.which_serves(i.number(), i.long(), i.number(), i.long())),
        51 => read(&i.bytes()),
        52 => layout(Layout::for_array(i.layout()?, i.number())),
        53 => layout(Layout::for_slice_of(i.layout()?)),
        54 | 55 => shorts::call(function, i)?,
        _ => panic!("no function {function}"),
    })
}
