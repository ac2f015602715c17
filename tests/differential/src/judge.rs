//! Whether a call left all that it was lent as the model's answer asks.

use crate::archive::{AREAS, REPORT, SET, TEXT};
use crate::windows::Seen;
use model::Report;

/// What the six numbers of a report are.
const NUMBERS: [&str; 6] = [
    "number",
    "detail",
    "steps",
    "place",
    "output count",
    "error count",
];
/// The answer that writes nothing at all.
const LEND: u32 = 2;
/// The areas of error text and output.
const ERRORS: usize = 6;
const OUTPUT: usize = 7;

/// The six numbers that the answer of the model comes to.
pub fn numbers(expected: &Report) -> [u32; 6] {
    [
        expected.number,
        expected.detail,
        expected.steps,
        expected.place,
        expected.output.len() as u32,
        expected.errors.len() as u32,
    ]
}

/// The six numbers of the report's area.
pub fn reported(seen: &[Seen; AREAS]) -> [u32; 6] {
    let bytes = &seen[REPORT].after[seen[REPORT].lent.clone()];
    std::array::from_fn(|i| u32::from_ne_bytes(bytes[4 * i..4 * i + 4].try_into().expect("four")))
}

/// What a call reports, with the bytes that it has written: as many as it says, if they were lent.
pub fn report(seen: &[Seen; AREAS]) -> Report {
    let [number, detail, steps, place, outputs, errors] = reported(seen);
    let written = |area: usize, count: u32| {
        let lent = &seen[area].after[seen[area].lent.clone()];
        lent[..(count as usize).min(lent.len())].to_vec()
    };
    Report {
        number,
        detail,
        steps,
        place,
        output: written(OUTPUT, outputs),
        errors: written(ERRORS, errors),
    }
}

/// Compares every number and every byte; says what differs first.
pub fn judge(returned: u32, seen: &[Seen; AREAS], expected: &Report) -> Result<(), String> {
    let numbers = numbers(expected);
    let reported = reported(seen);
    if let Some(i) = (0..6).find(|&i| reported[i] != numbers[i]) {
        return Err(format!(
            "{} is {} instead of {}; all six: {reported:?} instead of {numbers:?}",
            NUMBERS[i], reported[i], numbers[i]
        ));
    }
    if returned != numbers[0] {
        return Err(format!(
            "{returned} is returned, but the report says {}",
            numbers[0]
        ));
    }
    seen.iter()
        .enumerate()
        .try_for_each(|(area, seen)| judge_surroundings(&name(area), seen))?;
    seen[..REPORT]
        .iter()
        .enumerate()
        .try_for_each(|(area, seen)| judge_lent(area, seen, expected))
}

fn name(area: usize) -> String {
    match area {
        TEXT => "the text".to_string(),
        SET => "the set".to_string(),
        REPORT => "the report".to_string(),
        buffer => format!("buffer {buffer}"),
    }
}

/// The bytes around the lent ones are as they were.
pub fn judge_surroundings(name: &str, seen: &Seen) -> Result<(), String> {
    let (from, to) = (seen.lent.start, seen.lent.end);
    same(&seen.after[..from], &seen.before[..from])
        .map_err(|what| format!("before {name}: {what}"))?;
    same(&seen.after[to..], &seen.before[to..]).map_err(|what| format!("behind {name}: {what}"))
}

/// 01: "Buffers 1 to 5 are all zero afterwards, except with 2, which writes nothing"; buffers 6 and
/// 7 "hold that text from the front and their old bytes behind it", and on a refusal "both stay as
/// lent". The text and the set are only read.
fn judge_lent(area: usize, seen: &Seen, expected: &Report) -> Result<(), String> {
    let after = &seen.after[seen.lent.clone()];
    let before = &seen.before[seen.lent.clone()];
    let written: &[u8] = match area {
        ERRORS => &expected.errors,
        OUTPUT => &expected.output,
        _ => b"",
    };
    let zeroed = (1..=5).contains(&area) && expected.number != LEND;
    let verdict = if zeroed {
        all_zero(after)
    } else {
        let (front, rest) = after.split_at(written.len());
        same(front, written).and_then(|()| same(rest, &before[written.len()..]))
    };
    verdict.map_err(|what| format!("{}: {what}", name(area)))
}

fn all_zero(bytes: &[u8]) -> Result<(), String> {
    if bytes.iter().fold(0, |all, &byte| all | byte) == 0 {
        return Ok(());
    }
    let at = bytes
        .iter()
        .position(|&byte| byte != 0)
        .expect("not all zero");
    Err(format!("byte {at} is {:02x} instead of 00", bytes[at]))
}

/// Says which byte differs first.
pub fn same(after: &[u8], expected: &[u8]) -> Result<(), String> {
    if after == expected {
        return Ok(());
    }
    let at = (0..after.len().min(expected.len())).find(|&at| after[at] != expected[at]);
    match at {
        Some(at) => Err(format!(
            "byte {at} is {:02x} instead of {:02x}",
            after[at], expected[at]
        )),
        None => Err(format!(
            "{} bytes instead of {}",
            after.len(),
            expected.len()
        )),
    }
}
