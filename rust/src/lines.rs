//! The index of lines in lent slices: which line a place of a text is on, and where a line starts.
//!
//! [`LineIndex`](crate::LineIndex) is the same with room of its own, and tells columns too. A function here panics only if the
//! archive that was linked is of another version and gives an answer that this crate doesn't know.
//!
//! ```
//! use quenhovach::lines::{build, line_of, start_of, words, Refused};
//!
//! let text = b"boom\n\nguys\n";
//! let (mut bits, mut totals) = ([0; 1], [0; 1]);
//! assert_eq!(words(text.len()), 1);
//! build(text, &mut bits, &mut totals)?;
//! assert_eq!(line_of(text.len(), &bits, &totals, 7), Ok(3));
//! assert_eq!(start_of(text.len(), &bits, &totals, 3), Ok(6));
//! assert_eq!(start_of(text.len(), &bits, &totals, 5), Err(Refused::NoLine));
//! # Ok::<(), Refused>(())
//! ```

use core::{error::Error, fmt};

/// Bytes of the text for each word.
const BITS: usize = 64;

extern "C" {
    fn quenhovach_lines_build(
        text: *const u8,
        text_len: usize,
        words: *mut u64,
        words_len: usize,
        totals: *mut u32,
        totals_len: usize,
    ) -> u32;

    /// Writes the line, 0 with a refusal.
    fn quenhovach_lines_line_of(
        text_len: usize,
        words: *const u64,
        words_len: usize,
        totals: *const u32,
        totals_len: usize,
        place: usize,
        line: *mut u64,
    ) -> u32;

    /// Writes the start, 0 with a refusal.
    fn quenhovach_lines_start_of(
        text_len: usize,
        words: *const u64,
        words_len: usize,
        totals: *const u32,
        totals_len: usize,
        line: u64,
        start: *mut u64,
    ) -> u32;
}

/// Why there is no index, line or start. They are judged in the order 30, 33, 31, 32.
#[derive(Clone, Copy, Debug, PartialEq, Eq, Hash)]
pub enum Refused {
    /// 30: the text is longer than 65,536 bytes.
    TooLong = 30,
    /// 31: the place is beyond the end of the text; the end itself is allowed.
    Beyond = 31,
    /// 32: there is no such line.
    NoLine = 32,
    /// 33: fewer words or totals are lent than the text's index has.
    NoRoom = 33,
}

impl Refused {
    /// All four, in the order of their numbers.
    pub const ALL: [Refused; 4] = [
        Refused::TooLong,
        Refused::Beyond,
        Refused::NoLine,
        Refused::NoRoom,
    ];

    /// Its number, 30 to 33.
    pub fn number(self) -> u32 {
        self as u32
    }

    /// The one with this number, if there is one.
    pub fn from_number(number: u32) -> Option<Refused> {
        Refused::ALL.into_iter().find(|r| r.number() == number)
    }
}

impl fmt::Display for Refused {
    fn fmt(&self, f: &mut fmt::Formatter<'_>) -> fmt::Result {
        f.write_str(match self {
            Refused::TooLong => "the text is longer than 65,536 bytes",
            Refused::Beyond => "the place is beyond the end of the text",
            Refused::NoLine => "there is no such line",
            Refused::NoRoom => "too few words or totals are lent for the text",
        })
    }
}

impl Error for Refused {}

/// How many words, and how many totals, the index of a text of this length has.
pub const fn words(length: usize) -> usize {
    length / BITS + 1
}

/// Builds the index of a text. A word has one bit for each of 64 bytes, the least for the first, set at newlines; its total is
/// the count of newlines before these bytes. What is lent behind the text's words and totals stays as it was.
///
/// # Errors
///
/// [`Refused::TooLong`] and [`Refused::NoRoom`]; then nothing is written.
pub fn build(text: &[u8], words: &mut [u64], totals: &mut [u32]) -> Result<(), Refused> {
    // SAFETY: each pointer comes with the length of its slice. The text is only read; words and totals are lent exclusively
    // (`&mut`), so nothing overlaps. The callee keeps no pointer.
    let number = unsafe {
        quenhovach_lines_build(
            text.as_ptr(),
            text.len(),
            words.as_mut_ptr(),
            words.len(),
            totals.as_mut_ptr(),
            totals.len(),
        )
    };
    judged(number, ())
}

/// The line of a place in a text of this length, by its index: one more than the newlines before the place.
///
/// Words and totals that no text made are answered too: the place's total, the set bits below the place in its word, and one.
///
/// # Errors
///
/// [`Refused::TooLong`], [`Refused::NoRoom`] and [`Refused::Beyond`].
pub fn line_of(length: usize, words: &[u64], totals: &[u32], place: usize) -> Result<u64, Refused> {
    let mut line = 0;
    // SAFETY: each pointer comes with the length of its slice, which is only read; the line is a local of our own. The callee
    // keeps no pointer.
    let number = unsafe {
        quenhovach_lines_line_of(
            length,
            words.as_ptr(),
            words.len(),
            totals.as_ptr(),
            totals.len(),
            place,
            &mut line,
        )
    };
    judged(number, line)
}

/// Where a line starts in a text of this length, by its index: line 1 at 0, another behind the newline before it. Where a text
/// ends in a newline, its last line is empty and starts at the end.
///
/// In words and totals that no text made the newline is sought in the last word whose total is below `line - 1`, and the start
/// may lie beyond the end.
///
/// # Errors
///
/// [`Refused::TooLong`], [`Refused::NoRoom`] and [`Refused::NoLine`].
pub fn start_of(length: usize, words: &[u64], totals: &[u32], line: u64) -> Result<usize, Refused> {
    let mut start = 0;
    // SAFETY: as in `line_of`.
    let number = unsafe {
        quenhovach_lines_start_of(
            length,
            words.as_ptr(),
            words.len(),
            totals.as_ptr(),
            totals.len(),
            line,
            &mut start,
        )
    };
    // It is behind a bit of the index, so at most 64 times the count of words.
    judged(number, start as usize)
}

/// An answer with its number.
fn judged<T>(number: u32, answer: T) -> Result<T, Refused> {
    if number == 0 {
        return Ok(answer);
    }
    let unknown = || panic!("the linked archive gave an unknown answer: {number}");
    Err(Refused::from_number(number).unwrap_or_else(unknown))
}

#[cfg(test)]
mod tests {
    use super::*;

    #[test]
    fn the_numbers_are_those_of_the_refusals() {
        let numbers = [
            (30, Refused::TooLong),
            (31, Refused::Beyond),
            (32, Refused::NoLine),
            (33, Refused::NoRoom),
        ];
        for (number, refused) in numbers {
            assert_eq!(refused.number(), number);
            assert_eq!(judged(number, ()), Err(refused));
        }
        for number in [1, 29, 34, u32::MAX] {
            assert_eq!(Refused::from_number(number), None);
        }
        assert_eq!(judged(0, 7), Ok(7));
    }

    #[test]
    #[should_panic = "the linked archive gave an unknown answer: 34"]
    fn an_unknown_number_is_not_passed_over() {
        let _ = judged(34, ());
    }

    #[test]
    fn it_is_an_error_for_core_alone() {
        let error: &dyn Error = &build(b"", &mut [], &mut []).expect_err("a word is needed");
        assert!(error.source().is_none());
    }

    #[test]
    fn a_word_for_each_64_bytes_and_one_more() {
        let counts = [0, 63, 64, 127, 128, 65_535, 65_536].map(words);
        assert_eq!(counts, [1, 1, 2, 2, 3, 1024, 1025]);
    }
}
