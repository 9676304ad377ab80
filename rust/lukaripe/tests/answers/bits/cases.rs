//! All short member lists.

use super::library::{self, *};
use super::Inputs;

/// The output is the front of these bytes.
const AREA: usize = CASES_LENGTH + 56;
const BEFORE: u8 = 0xa5;

/// The bytes written and ten words of the area, on a refusal too. Where there is room for all, the vector has the same.
pub fn call(i: &mut Inputs) -> Vec<u64> {
    let (longest, len, from) = (i.long(), i.length(), i.length());
    let mut area = vec![BEFORE; AREA];
    let answer = write_cases(longest, &mut area[..len]);
    let written = answer.unwrap_or(0);
    assert!(area[written..].iter().all(|byte| *byte == BEFORE));
    if let Ok(written) = answer {
        assert_eq!(library::cases(longest).map(|all| all.len()), Ok(written / CASE_LENGTH));
    }
    let seen = area[8 * from..].chunks_exact(8).take(10).map(|word| u64::from_le_bytes(word.try_into().unwrap()));
    let told = [answer.map_or_else(Refusal::number, |_| 0), written as u64];
    told.into_iter().chain(seen).collect()
}
