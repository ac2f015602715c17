//! Cases for valgrind, in blocks of the heap of just their length. What no function may look at is not
//! defined: the sheet that is to be written, and of a sheet that is asked every reading, and the lines
//! behind its count. So are the seven buffers, and with them the output behind the written text.

use super::archive::{
    call, given, lengths, words_bytes, AREAS, LINE, OUTPUT, REPORT, SHEET, SHEET_LENGTH, WORD,
};
use super::words::{sheet_words, LINE_WORDS};
use super::{case, tell};
use crate::judge::numbers;
use crate::memcheck::Blocks;
use model::sheet::case::{Asked, Case, Outcome};
use model::sheet::{Line, Reading, MOST_LINES};

/// After so many disagreements a run stops.
const PATIENCE: usize = 3;
const ERRORS: usize = 6;

/// Runs `count` random cases from number `first` on. By mistake, some look at a line behind the count:
/// valgrind must find it.
pub fn random_cases(seed: u64, count: u64, first: u64, mistaken: bool) -> bool {
    let fails = |&index: &u64| {
        let (case, salt) = case(seed, index);
        !agrees(&case, salt, mistaken)
    };
    let failing: Vec<u64> = (first..first + count)
        .filter(fails)
        .take(PATIENCE)
        .collect();
    let what = "not as expected under valgrind";
    for &index in &failing {
        tell("sheets-memcheck", seed, index, what);
    }
    failing.is_empty()
}

fn agrees(case: &Case, salt: u64, mistaken: bool) -> bool {
    let blocks = Blocks::new(lengths(case));
    for (area, bytes) in given(case, salt) {
        match area {
            OUTPUT => {}
            SHEET => fill_sheet(&blocks, case, &bytes, mistaken),
            _ => blocks.fill(area, 0, &bytes),
        }
    }
    // SAFETY: the blocks are as long as is said and aligned as malloc does.
    let returned = unsafe { call(&case.asked, &blocks.0) };
    match &case.expected {
        Outcome::Read(judged) => {
            let (number, line) = match judged {
                Ok(_) => (0, 0),
                Err(refused) => (refused.number(), refused.detail()),
            };
            returned == number
                && blocks.front(LINE, 4) == line.to_ne_bytes()
                && has_sheet(&blocks, judged.as_deref().ok())
        }
        Outcome::Sheet(expanded) => {
            let report = numbers(&expanded.report).map(u32::to_ne_bytes).concat();
            returned == expanded.report.number
                && blocks.front(REPORT, report.len()) == report
                && blocks.front(ERRORS, expanded.report.errors.len()) == expanded.report.errors
                && blocks.front(OUTPUT, expanded.report.output.len()) == expanded.report.output
                && has_sheet(&blocks, expanded.sheet.as_deref())
        }
        Outcome::Question(reading) => reading_of(case, returned) == *reading,
    }
}

/// Defines the count of a sheet that is asked, and place and length of each name below it.
fn fill_sheet(blocks: &Blocks<AREAS>, case: &Case, bytes: &[u8], mistaken: bool) {
    let count = asked_lines(case).len();
    blocks.fill(SHEET, 0, &bytes[..WORD]);
    for line in 0..count {
        let name = (1 + line * LINE_WORDS) * WORD;
        blocks.fill(SHEET, name, &bytes[name..name + 2 * WORD]);
    }
    if mistaken && count < MOST_LINES {
        blocks.look_at(SHEET, (1 + count * LINE_WORDS) * WORD);
    }
}

fn asked_lines(case: &Case) -> &[Line] {
    match &case.asked {
        Asked::Question { lines, .. } => lines,
        _ => &[],
    }
}

fn reading_of(case: &Case, found: u32) -> Option<Reading> {
    let line = asked_lines(case).get(found as usize);
    line.map(|line| line.reading)
}

fn has_sheet(blocks: &Blocks<AREAS>, sheet: Option<&[Line]>) -> bool {
    blocks.front(SHEET, SHEET_LENGTH) == words_bytes(&sheet_words(sheet))
}
