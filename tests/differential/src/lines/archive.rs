//! The calls of the archive's three functions of the index of lines.

use crate::windows::Lent;
use model::lines::case::{Asked, Case};
use std::borrow::Cow;

extern "C" {
    fn quenhovach_lines_build(
        text: *const u8,
        text_length: usize,
        words: *mut u64,
        words_count: usize,
        totals: *mut u32,
        totals_count: usize,
    ) -> u32;
    fn quenhovach_lines_line_of(
        text_length: usize,
        words: *const u64,
        words_count: usize,
        totals: *const u32,
        totals_count: usize,
        place: usize,
        line: *mut u64,
    ) -> u32;
    fn quenhovach_lines_start_of(
        text_length: usize,
        words: *const u64,
        words_count: usize,
        totals: *const u32,
        totals_count: usize,
        line: u64,
        start: *mut u64,
    ) -> u32;
}

/// The text, the words, the totals, and the line or start lie in four areas.
pub const AREAS: usize = 4;
pub const TEXT: usize = 0;
pub const WORDS: usize = 1;
pub const TOTALS: usize = 2;
pub const VALUE: usize = 3;

/// The bytes of a word, of a total, and of a line or start.
pub const WORD: usize = 8;
pub const TOTAL: usize = 4;
const NUMBER: usize = 8;

/// Calls the function that is asked, and gives what it returns.
///
/// # Safety
///
/// Each area must be as long as is said, and aligned to what it holds.
pub unsafe fn call(asked: &Asked, lent: &[Lent; AREAS]) -> u32 {
    let [(text, text_length), (words, words_length), (totals, totals_length), (value, _)] = *lent;
    let (words, words_count) = (words.cast(), words_length / WORD);
    let (totals, totals_count) = (totals.cast(), totals_length / TOTAL);
    match *asked {
        Asked::Build(_) => {
            quenhovach_lines_build(text, text_length, words, words_count, totals, totals_count)
        }
        Asked::Line { length, place } => quenhovach_lines_line_of(
            length,
            words,
            words_count,
            totals,
            totals_count,
            place,
            value.cast(),
        ),
        Asked::Start { length, line } => quenhovach_lines_start_of(
            length,
            words,
            words_count,
            totals,
            totals_count,
            line,
            value.cast(),
        ),
    }
}

/// Builds the index of a text.
pub fn build(text: &[u8], words: &mut [u64], totals: &mut [u32]) -> u32 {
    // SAFETY: slices, as long as is said.
    unsafe {
        quenhovach_lines_build(
            text.as_ptr(),
            text.len(),
            words.as_mut_ptr(),
            words.len(),
            totals.as_mut_ptr(),
            totals.len(),
        )
    }
}

/// What is returned of a place, and its line.
pub fn line_of(length: usize, words: &[u64], totals: &[u32], place: usize) -> (u32, u64) {
    let mut line = u64::MAX;
    // SAFETY: slices, as long as is said.
    let returned = unsafe {
        quenhovach_lines_line_of(
            length,
            words.as_ptr(),
            words.len(),
            totals.as_ptr(),
            totals.len(),
            place,
            &mut line,
        )
    };
    (returned, line)
}

/// What is returned of a line, and its start.
pub fn start_of(length: usize, words: &[u64], totals: &[u32], line: u64) -> (u32, u64) {
    let mut start = u64::MAX;
    // SAFETY: slices, as long as is said.
    let returned = unsafe {
        quenhovach_lines_start_of(
            length,
            words.as_ptr(),
            words.len(),
            totals.as_ptr(),
            totals.len(),
            line,
            &mut start,
        )
    };
    (returned, start)
}

/// What the areas but that of the answer hold before a call.
pub fn given(case: &Case) -> [(usize, Cow<'_, [u8]>); 3] {
    let text: &[u8] = match &case.asked {
        Asked::Build(text) => text,
        _ => b"",
    };
    [
        (TEXT, Cow::Borrowed(text)),
        (WORDS, Cow::Owned(words_bytes(&case.words))),
        (TOTALS, Cow::Owned(totals_bytes(&case.totals))),
    ]
}

pub fn words_bytes(words: &[u64]) -> Vec<u8> {
    words.iter().flat_map(|word| word.to_ne_bytes()).collect()
}

pub fn totals_bytes(totals: &[u32]) -> Vec<u8> {
    totals
        .iter()
        .flat_map(|total| total.to_ne_bytes())
        .collect()
}

/// How long each area is for a case.
pub fn lengths(case: &Case) -> [usize; AREAS] {
    let words = case.words.len() * WORD;
    let totals = case.totals.len() * TOTAL;
    match &case.asked {
        Asked::Build(text) => [text.len(), words, totals, 0],
        _ => [0, words, totals, NUMBER],
    }
}

/// The areas that are only read.
pub fn read_only(asked: &Asked) -> &'static [usize] {
    match asked {
        Asked::Build(_) => &[TEXT],
        _ => &[WORDS, TOTALS],
    }
}
