//! The exports of equal sizes, of normal forms and of the full mode, with what must hold between them, and how often
//! what came.

use crate::answer::Answer;
use crate::exports::*;
use crate::guarantee;
use std::collections::BTreeMap;
use std::sync::Mutex;

// The names of the rows.
const COMPARED: &str = "sizes_agree";
const FORMED: &str = "normal_form";
const MATCHED: &str = "size_sequences_match_full";
const CONVERTED: &str = "try_compute_full";
const CARRIED: &str = "convert_and_cast_full";

fn trailing(inputs: &[u64]) -> Trailing {
    Words([inputs[0], inputs[1], inputs[2], inputs[3]])
}

fn layouts(inputs: &[u64]) -> [Layout; 2] {
    [&inputs[..6], &inputs[6..12]].map(|words| Words(words.try_into().unwrap()))
}

fn broken_if(broken: bool, what: &'static str) -> Option<&'static str> {
    broken.then_some(what)
}

/// The comparison, the same the other way round, and with the ported one and with forms.
pub fn compared(inputs: &[u64]) -> Answer {
    let (one, other) = (trailing(inputs), trailing(&inputs[4..]));
    let told = lukaripe_sizes_agree(one, other);
    let ported = lukaripe_has_same_size_sequence(one, other);
    let forms = [one, other].map(|layout| lukaripe_normal_form(layout));
    let yes = told.values[0] == 1;
    let came = match (told.refusal, yes, ported.values[0] == 1) {
        (0, true, true) => "yes, by the ported comparison too",
        (0, true, false) => "yes, where the ported comparison says no",
        (0, false, _) => "no",
        _ => "",
    };
    count(COMPARED, came);
    let [form, form_of_other] = &forms;
    let both = form.refusal == 0 && form_of_other.refusal == 0;
    if both {
        count(COMPARED, if yes { "yes, equal forms" } else { "no, unequal forms" });
    }
    let broken = broken_if(lukaripe_sizes_agree(other, one) != told && told.refusal == 0, "not the same way round")
        .or(broken_if(ported.values[0] == 1 && !yes, "the ported comparison says yes"))
        .or(broken_if(both && yes != (form.values == form_of_other.values), "the forms say otherwise"));
    Answer { broken, ..told.into() }
}

/// The form, which is its own, whatever the offset, and has the layout's sizes.
pub fn formed(inputs: &[u64]) -> Answer {
    let layout = trailing(inputs);
    let told = lukaripe_normal_form(layout);
    let [size_base, elem_size, word] = told.values;
    let again = Words([size_base, inputs[1] ^ 5, elem_size, word]);
    let broken = match told.refusal {
        0 => broken_if(lukaripe_normal_form(again) != told, "another form when made twice")
            .or(broken_if(lukaripe_sizes_agree(layout, again).values[0] != 1, "other sizes")),
        _ => broken_if(told.refusal == 46 && lukaripe_size_for_elems(layout, 0).refusal == 0, "46 beside a size at 0"),
    };
    if told.refusal == 0 {
        let [base, _, _, before] = layout.0;
        let came = match (word == before, word.ilog2() == before.ilog2(), size_base == base) {
            (true, ..) => "the layout's own",
            (_, true, true) => "another phase",
            (_, true, false) => "phase 0 and another base",
            _ => "A 1",
        };
        count(FORMED, came);
        let no_size = lukaripe_size_for_elems(layout, 0).refusal != 0;
        count(FORMED, if no_size { "of a layout without a size at 0" } else { "" });
    }
    Answer { broken, ..told.into() }
}

/// The match, which says yes where the ported one does.
pub fn matched(inputs: &[u64]) -> Answer {
    let (src, dst) = (trailing(inputs), trailing(&inputs[4..]));
    let told = lukaripe_size_sequences_match_full(src, dst, inputs[8]);
    let ported = lukaripe_size_sequences_match(src, dst, inputs[8]);
    let came = match (told.refusal, told.values[0], ported.values[0]) {
        (0, 1, 1) => "yes, in the ported mode too",
        (0, 1, _) => "yes, in the full mode alone",
        (0, ..) => "no",
        _ => "",
    };
    count(MATCHED, came);
    let broken = broken_if(ported.values[0] == 1 && told.values[0] != 1, "the ported mode says yes");
    Answer { broken, ..told.into() }
}

/// What is broken of a conversion beside that of the ported mode: it accepts what that one does, alike, and refuses
/// only what that one refuses, by the same number.
fn beside_ported(function: &'static str, told: &Told<4>, ported: &Told<4>) -> Option<&'static str> {
    let came = match (told.refusal, told.values[0], ported.refusal) {
        (0, 0, 0) => "fixed to fixed",
        (0, 1, 0) => "fixed to trailing",
        (0, _, 0) => "trailing to trailing, in both modes",
        (0, _, _) => "trailing to trailing, in the full mode alone",
        _ => "",
    };
    count(function, came);
    let gained = told.refusal == 0 && told.values[0] == 2 && ported.refusal == 32;
    broken_if(told != ported && !gained, "the ported mode answers otherwise")
}

pub fn converted(inputs: &[u64]) -> Answer {
    let [src, dst] = layouts(inputs);
    let told = lukaripe_try_compute_full(src, dst);
    let broken = beside_ported(CONVERTED, &told, &lukaripe_try_compute(src, dst));
    Answer { broken, ..told.into() }
}

/// The conversion and the casts after it, held to the guarantee.
pub fn carried(inputs: &[u64]) -> Answer {
    let [src, dst] = layouts(inputs);
    let told = lukaripe_convert_and_cast_full(src, dst, inputs[12], inputs[13], inputs[14], inputs[15]);
    let ported = lukaripe_try_compute(src, dst);
    let beside = beside_ported(CARRIED, &told.computed, &ported);
    let gained = told.computed.refusal == 0 && ported.refusal != 0;
    let answer = Answer::from(told);
    let [.., first_refusal, first, _, second_refusal, second, _] = answer.values;
    if gained && answer.values[4] == 0 {
        count(CARRIED, "full mode alone, with a count");
        if first_refusal == 0 && first >= answer.values[5] {
            count(CARRIED, "full mode alone, the first cast keeps it");
        }
        if second_refusal == 0 && first_refusal == 0 && second >= first && first >= answer.values[5] {
            count(CARRIED, "full mode alone, the second cast too");
        }
    }
    Answer { broken: guarantee::broken(inputs, &answer).or(beside), ..answer }
}

// ---- how often what came ----

static COUNTS: Mutex<BTreeMap<(&str, &str), u64>> = Mutex::new(BTreeMap::new());

/// Counts one of those listed below; "" is none of them.
fn count(function: &'static str, came: &'static str) {
    if !came.is_empty() {
        *COUNTS.lock().unwrap().entry((function, came)).or_default() += 1;
    }
}

/// What can come of a function besides its refusals, and how often it did.
pub fn counted(function: &str) -> Vec<(String, u64)> {
    let outcomes: &[&'static str] = match function {
        COMPARED => &[
            "no",
            "yes, by the ported comparison too",
            "yes, where the ported comparison says no",
            "yes, equal forms",
            "no, unequal forms",
        ],
        FORMED => {
            &["the layout's own", "another phase", "phase 0 and another base", "A 1", "of a layout without a size at 0"]
        }
        MATCHED => &["no", "yes, in the ported mode too", "yes, in the full mode alone"],
        CONVERTED => &[
            "fixed to fixed",
            "fixed to trailing",
            "trailing to trailing, in both modes",
            "trailing to trailing, in the full mode alone",
        ],
        CARRIED => &[
            "fixed to fixed",
            "fixed to trailing",
            "trailing to trailing, in both modes",
            "trailing to trailing, in the full mode alone",
            "full mode alone, with a count",
            "full mode alone, the first cast keeps it",
            "full mode alone, the second cast too",
        ],
        _ => &[],
    };
    let counts = COUNTS.lock().unwrap();
    let of = |came: &&'static str| counts.iter().find(|(at, _)| **at == (function, *came)).map_or(0, |(_, n)| *n);
    outcomes.iter().map(|came| (came.to_string(), of(came))).collect()
}
