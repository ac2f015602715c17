//! The calls of the archive's three functions of the sheet.

use super::words::{asked_words, WORDS};
use crate::archive as expander;
use crate::windows::Lent;
use model::sheet::case::{Asked, Case, Outcome};
use std::borrow::Cow;

extern "C" {
    fn quenhovach_sheet_expand(
        text: *const u8,
        text_length: usize,
        set: *const u8,
        set_length: usize,
        pending: *mut u8,
        pending_length: usize,
        calls: *mut u8,
        calls_length: usize,
        definitions: *mut u8,
        definitions_length: usize,
        streams: *mut u8,
        streams_length: usize,
        wrap: *mut u8,
        wrap_length: usize,
        errors: *mut u8,
        errors_length: usize,
        output: *mut u8,
        output_length: usize,
        budget: u32,
        report: *mut u32,
        sheet: *mut u64,
    ) -> u32;
    fn quenhovach_sheet_read(
        text: *const u8,
        text_length: usize,
        sheet: *mut u64,
        line: *mut u32,
    ) -> u32;
    fn quenhovach_sheet_find(
        sheet: *const u64,
        text: *const u8,
        text_length: usize,
        name: *const u8,
        name_length: usize,
    ) -> usize;
}

/// Ten areas as the expander has them, the sheet, the bad line, and the name that is asked for. Those
/// that a function is not given have no bytes.
pub const AREAS: usize = 13;
pub const TEXT: usize = expander::TEXT;
pub const OUTPUT: usize = 7;
pub const SET: usize = expander::SET;
pub const REPORT: usize = expander::REPORT;
pub const SHEET: usize = 10;
pub const LINE: usize = 11;
pub const NAME: usize = 12;

/// The bytes of a word, of a sheet, and of a line's number.
pub const WORD: usize = 8;
pub const SHEET_LENGTH: usize = WORDS * WORD;
const LINE_LENGTH: usize = 4;

/// Calls the function that is asked, and gives what it returns. A line that is found has a number that
/// needs few bits; one that needs more is none.
///
/// # Safety
///
/// Each area must be as long as is said, and aligned to what it holds.
pub unsafe fn call(asked: &Asked, lent: &[Lent; AREAS]) -> u32 {
    let (text, text_length) = lent[TEXT];
    let (sheet, line) = (lent[SHEET].0.cast(), lent[LINE].0.cast());
    match asked {
        Asked::Read(_) => quenhovach_sheet_read(text, text_length, sheet, line),
        Asked::Sheet(template) => quenhovach_sheet_expand(
            text,
            text_length,
            lent[SET].0,
            lent[SET].1,
            lent[1].0,
            lent[1].1,
            lent[2].0,
            lent[2].1,
            lent[3].0,
            lent[3].1,
            lent[4].0,
            lent[4].1,
            lent[5].0,
            lent[5].1,
            lent[6].0,
            lent[6].1,
            lent[OUTPUT].0,
            lent[OUTPUT].1,
            template.setting.budget,
            lent[REPORT].0.cast(),
            sheet,
        ),
        Asked::Question { .. } => {
            let (name, name_length) = lent[NAME];
            let found = quenhovach_sheet_find(sheet, text, text_length, name, name_length);
            u32::try_from(found).unwrap_or(u32::MAX)
        }
    }
}

/// What areas hold before a call. The salt decides what is behind the lines that are asked.
pub fn given(case: &Case, salt: u64) -> Vec<(usize, Cow<'_, [u8]>)> {
    match &case.asked {
        Asked::Read(text) => vec![(TEXT, text.into())],
        Asked::Sheet(template) => {
            let mut given: Vec<(usize, Cow<[u8]>)> = vec![
                (TEXT, (&template.text).into()),
                (SET, (&template.set).into()),
            ];
            if !template.behind.is_empty() {
                given.push((OUTPUT, template.output(written(case)).into()));
            }
            given
        }
        Asked::Question { lines, text, name } => {
            let words = asked_words(lines, text, name, salt);
            vec![
                (TEXT, text.into()),
                (SHEET, words_bytes(&words).into()),
                (NAME, name.into()),
            ]
        }
    }
}

/// How many bytes of output are expected.
fn written(case: &Case) -> usize {
    match &case.expected {
        Outcome::Sheet(expanded) => expanded.report.output.len(),
        _ => 0,
    }
}

pub fn words_bytes(words: &[u64]) -> Vec<u8> {
    words.iter().flat_map(|word| word.to_ne_bytes()).collect()
}

/// How long each area is for a case.
pub fn lengths(case: &Case) -> [usize; AREAS] {
    let mut lengths = [0; AREAS];
    lengths[SHEET] = SHEET_LENGTH;
    match &case.asked {
        Asked::Read(text) => {
            lengths[TEXT] = text.len();
            lengths[LINE] = LINE_LENGTH;
        }
        Asked::Sheet(template) => {
            lengths[TEXT] = template.text.len();
            lengths[1..=OUTPUT].copy_from_slice(&template.setting.lengths);
            lengths[SET] = template.set.len();
            lengths[REPORT] = expander::REPORT_LENGTH;
        }
        Asked::Question { text, name, .. } => {
            lengths[TEXT] = text.len();
            lengths[NAME] = name.len();
        }
    }
    lengths
}

/// The areas that are only read.
pub fn read_only(asked: &Asked) -> &'static [usize] {
    match asked {
        Asked::Read(_) => &[TEXT],
        Asked::Sheet(_) => &[TEXT, SET],
        Asked::Question { .. } => &[TEXT, SHEET, NAME],
    }
}
