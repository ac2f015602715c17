//! Whether a call left all that it was lent as the expected outcome asks.

use super::archive::{AREAS, LINE, NAME, REPORT, SHEET, TEXT};
use super::words::sheet_words;
use crate::judge::{judge as judge_run, judge_surroundings, same};
use crate::windows::Seen;
use model::sheet::case::{Asked, Case, Outcome};
use model::sheet::{question, Judged, Line, Reading, MOST_LINES};
use std::fmt::Debug;

/// Compares every number, every word and every byte; says what differs first.
pub fn judge(returned: u32, seen: &[Seen; AREAS], case: &Case) -> Result<(), String> {
    match (&case.asked, &case.expected) {
        (Asked::Read(_), Outcome::Read(judged)) => judge_read(returned, seen, judged)?,
        (Asked::Sheet(_), Outcome::Sheet(expanded)) => {
            let run = seen[..=REPORT]
                .try_into()
                .expect("as the expander has them");
            judge_run(returned, run, &expanded.report)?;
            judge_sheet(seen, expanded.sheet.as_deref())?;
        }
        (Asked::Question { lines, text, name }, Outcome::Question(reading)) => {
            judge_question(returned, lines, text, name, *reading)?;
            unchanged("the sheet", &seen[SHEET])?;
        }
        _ => return Err("the outcome is that of another function".to_string()),
    }
    unchanged("the text", &seen[TEXT])?;
    unchanged("the name", &seen[NAME])?;
    let mut all = seen.iter().enumerate();
    all.try_for_each(|(area, seen)| judge_surroundings(&format!("area {area}"), seen))
}

fn judge_read(returned: u32, seen: &[Seen; AREAS], judged: &Judged) -> Result<(), String> {
    let (number, detail) = match judged {
        Ok(_) => (0, 0),
        Err(refused) => (refused.number(), refused.detail()),
    };
    equal("the answer", &returned, &number)?;
    let line = &seen[LINE].after[seen[LINE].lent.clone()];
    let line = u32::from_ne_bytes(line.try_into().expect("four bytes"));
    equal("the bad line", &line, &detail)?;
    judge_sheet(seen, judged.as_deref().ok())
}

/// All 1,281 words are as expected; without a sheet there is no line.
fn judge_sheet(seen: &[Seen; AREAS], sheet: Option<&[Line]>) -> Result<(), String> {
    let bytes = &seen[SHEET].after[seen[SHEET].lent.clone()];
    let words = bytes.chunks_exact(8);
    let words = words.map(|word| u64::from_ne_bytes(word.try_into().expect("eight bytes")));
    let mut pairs = words.zip(sheet_words(sheet)).enumerate();
    pairs.try_for_each(|(at, (after, expected))| {
        equal(&format!("word {at} of the sheet"), &after, &expected)
    })
}

/// The line that is found has the reading that is expected, and is the model's.
fn judge_question(
    returned: u32,
    lines: &[Line],
    text: &[u8],
    name: &[u8],
    expected: Option<Reading>,
) -> Result<(), String> {
    equal("the line", &returned, &found_line(lines, text, name))?;
    let reading = lines.get(returned as usize).map(|line| line.reading);
    equal("the reading", &reading, &expected)
}

/// The first line that has the name: the model is asked with lines that read their own number.
fn found_line(lines: &[Line], text: &[u8], name: &[u8]) -> u32 {
    let numbered: Vec<Line> = (0..)
        .zip(lines)
        .map(|(number, &line)| Line {
            reading: Reading::Number(number),
            ..line
        })
        .collect();
    match question(&numbered, text, name) {
        Some(Reading::Number(number)) => number as u32,
        _ => MOST_LINES as u32,
    }
}

fn unchanged(name: &str, seen: &Seen) -> Result<(), String> {
    let lent = seen.lent.clone();
    same(&seen.after[lent.clone()], &seen.before[lent]).map_err(|what| format!("{name}: {what}"))
}

fn equal<T: Debug + PartialEq>(name: &str, after: &T, expected: &T) -> Result<(), String> {
    if after == expected {
        return Ok(());
    }
    Err(format!("{name} is {after:?} instead of {expected:?}"))
}
