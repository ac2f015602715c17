//! Whether a call left all that it was lent as the expected outcome asks.

use super::archive::{AREAS, TEXT, TOTALS, VALUE, WORDS};
use crate::judge::{judge_surroundings, same};
use crate::windows::Seen;
use model::lines::case::{Asked, Case};
use std::fmt::Debug;

const NAMES: [&str; AREAS] = ["the text", "the words", "the totals", "the line or start"];

/// Compares both numbers, every word and every total, and the bytes around them; says what differs
/// first. The text is only read.
pub fn judge(returned: u32, seen: &[Seen; AREAS], case: &Case) -> Result<(), String> {
    let expected = &case.expected;
    let answer = expected.answer;
    equal("the answer", &returned, &answer.number())?;
    if !matches!(case.asked, Asked::Build(_)) {
        let value = numbers(seen, VALUE, u64::from_ne_bytes);
        equal("the line or start", &value, &vec![answer.value()])?;
    }
    let words = numbers(seen, WORDS, u64::from_ne_bytes);
    equal_lists("word", &words, &expected.words)?;
    let totals = numbers(seen, TOTALS, u32::from_ne_bytes);
    equal_lists("total", &totals, &expected.totals)?;
    let lent = seen[TEXT].lent.clone();
    same(&seen[TEXT].after[lent.clone()], &seen[TEXT].before[lent])
        .map_err(|what| format!("the text: {what}"))?;
    let mut all = NAMES.iter().zip(seen);
    all.try_for_each(|(name, seen)| judge_surroundings(name, seen))
}

/// The numbers of an area after the call.
fn numbers<const N: usize, T>(
    seen: &[Seen; AREAS],
    area: usize,
    number: impl Fn([u8; N]) -> T,
) -> Vec<T> {
    let bytes = &seen[area].after[seen[area].lent.clone()];
    let each = bytes.chunks_exact(N);
    each.map(|bytes| number(bytes.try_into().expect("N bytes")))
        .collect()
}

fn equal<T: Debug + PartialEq>(name: &str, after: &T, expected: &T) -> Result<(), String> {
    if after == expected {
        return Ok(());
    }
    Err(format!("{name} is {after:?} instead of {expected:?}"))
}

fn equal_lists<T: Debug + PartialEq>(
    name: &str,
    after: &[T],
    expected: &[T],
) -> Result<(), String> {
    if after == expected {
        return Ok(());
    }
    equal(
        &format!("the count of {name}s"),
        &after.len(),
        &expected.len(),
    )?;
    let mut pairs = after.iter().zip(expected).enumerate();
    pairs.try_for_each(|(at, (after, expected))| equal(&format!("{name} {at}"), after, expected))
}
