//! Request 6 of 02, "Which line is that?": an index of the newlines of a text, the line of a place,
//! and the start of a line. Three functions in lent words and totals, which answer whatever is lent;
//! beside them, two that count through the text and know of no index.

pub mod case;

use crate::LIMIT;

/// The only byte that ends a line.
pub const NEWLINE: u8 = 10;

/// What the three functions answer. None of the numbers has a detail.
#[derive(Clone, Copy, Debug, PartialEq, Eq)]
pub enum Answer {
    /// The line or the start that was asked for; 0 of an index that was built.
    Good(u64),
    TextTooLong,
    PlaceBeyondEnd,
    NoSuchLine,
    TooLittleRoom,
}

impl Answer {
    /// 02: "Refusals: 30 text too long, 31 place beyond the end (the end itself is allowed), 32 no
    /// such line, 33 too little room lent for the text's words and totals".
    pub fn number(self) -> u32 {
        match self {
            Answer::Good(_) => 0,
            Answer::TextTooLong => 30,
            Answer::PlaceBeyondEnd => 31,
            Answer::NoSuchLine => 32,
            Answer::TooLittleRoom => 33,
        }
    }

    /// The line or the start; 0 where there is none.
    pub fn value(self) -> u64 {
        match self {
            Answer::Good(value) => value,
            _ => 0,
        }
    }
}

/// "in 64-bit words, the length divided by 64, rounded down, plus one of them".
pub fn words_of(length: usize) -> usize {
    length / 64 + 1
}

/// "one bit for each byte, least bit first".
pub fn bit(word: u64, place: usize) -> bool {
    (word >> place) & 1 == 1
}

/// "judged 30, 33, 31, 32": the two that every function judges first.
fn refused(length: usize, words: &[u64], totals: &[u32]) -> Option<Answer> {
    if length > LIMIT {
        Some(Answer::TextTooLong)
    } else if words.len() < words_of(length) || totals.len() < words_of(length) {
        Some(Answer::TooLittleRoom)
    } else {
        None
    }
}

/// Builds the index of a text: "one bit for each byte, least bit first, set at newlines, .. with a
/// 32-bit running total before each". "Beyond its words and totals, or refused, nothing is written."
pub fn build(text: &[u8], words: &mut [u64], totals: &mut [u32]) -> Answer {
    if let Some(refusal) = refused(text.len(), words, totals) {
        return refusal;
    }
    let mut newlines = 0;
    for word in 0..words_of(text.len()) {
        totals[word] = newlines;
        words[word] = 0;
        for place in 0..64 {
            if text.get(64 * word + place) == Some(&NEWLINE) {
                words[word] |= 1 << place;
                newlines += 1;
            }
        }
    }
    Answer::Good(0)
}

/// "The line of a place is one more than the newlines before it. The answer reads one total and
/// counts the set bits below the place in one word."
pub fn line_of(length: usize, words: &[u64], totals: &[u32], place: usize) -> Answer {
    if let Some(refusal) = refused(length, words, totals) {
        return refusal;
    }
    if place > length {
        return Answer::PlaceBeyondEnd;
    }
    let mut line = u64::from(totals[place / 64]) + 1;
    for below in 0..place % 64 {
        if bit(words[place / 64], below) {
            line += 1;
        }
    }
    Answer::Good(line)
}

/// "The start of the n-th line too: line 1 starts at 0, another is sought in the last word whose
/// total is below n - 1, and is refused 32 if there is no such word or its bits run short."
pub fn start_of(length: usize, words: &[u64], totals: &[u32], line: u64) -> Answer {
    if let Some(refusal) = refused(length, words, totals) {
        return refusal;
    }
    if line == 1 {
        return Answer::Good(0);
    }
    // As a number: no total is below the -1 of line 0.
    let ends_before = i128::from(line) - 1;
    let mut last_below = None;
    for (word, &total) in totals.iter().enumerate().take(words_of(length)) {
        if i128::from(total) < ends_before {
            last_below = Some(word);
        }
    }
    match last_below {
        Some(word) => start_in(word, words, totals, ends_before),
        None => Answer::NoSuchLine,
    }
}

/// Behind the newline with this number, which is above the word's total, if the word has it.
fn start_in(word: usize, words: &[u64], totals: &[u32], number: i128) -> Answer {
    let mut newlines = i128::from(totals[word]);
    for place in 0..64 {
        if bit(words[word], place) {
            newlines += 1;
            if newlines == number {
                return Answer::Good(64 * word as u64 + place as u64 + 1);
            }
        }
    }
    Answer::NoSuchLine
}

/// The line of a place, counted through the text. None beyond its end.
pub fn counted_line(text: &[u8], place: usize) -> Option<u64> {
    if place > text.len() {
        return None;
    }
    let mut line = 1;
    for &byte in &text[..place] {
        if byte == NEWLINE {
            line += 1;
        }
    }
    Some(line)
}

/// The start of a line, counted through the text: 0, and each place behind a newline. None where the
/// text has no such line.
pub fn counted_start(text: &[u8], line: u64) -> Option<u64> {
    let mut lines = 0;
    for place in 0..=text.len() {
        if place == 0 || text[place - 1] == NEWLINE {
            lines += 1;
            if lines == line {
                return Some(place as u64);
            }
        }
    }
    None
}
