//! The lines of a sheet as the library writes them.

use super::{call, Reading, Sheet};

/// The most lines of a sheet.
pub const MOST: usize = 256;

/// A line of a sheet. Places count from the front of the written text.
#[repr(C)]
#[derive(Clone, Copy, Debug, PartialEq, Eq, Hash)]
pub struct Line {
    /// The place of its name.
    pub name: u64,
    /// The length of its name.
    pub name_length: u64,
    /// The kind of its reading: 1 number, 2 decimal, 3 word.
    pub kind: u64,
    /// A number as its 32 bits, a decimal as the 64 bits of its `f64`, a word as its place.
    pub value: u64,
    /// The length of a word; else 0.
    pub length: u64,
}

/// The lines of a sheet, in 10,248 bytes of its own without a heap. A [`Sheet`] is these with their text.
#[repr(C)]
#[derive(Clone, Copy, PartialEq, Eq)]
pub struct Lines {
    /// How many of the lines count.
    pub count: u64,
    /// From the first; those behind the count have no name and the number 0.
    pub lines: [Line; MOST],
}

impl Line {
    /// The line behind the last: no name, and the number 0.
    pub const NONE: Line = Line {
        name: 0,
        name_length: 0,
        kind: Reading::NUMBER,
        value: 0,
        length: 0,
    };

    /// Its name in the text. None where it does not lie there, so that the line is not of this text.
    pub fn name_in<'t>(&self, text: &'t [u8]) -> Option<&'t str> {
        part(text, self.name, self.name_length)
    }

    /// Its reading in the text. None where a word does not lie there, or where there is no such kind.
    pub fn reading_in<'t>(&self, text: &'t [u8]) -> Option<Reading<'t>> {
        match self.kind {
            Reading::NUMBER => Some(Reading::Number(self.value as u32 as i32)),
            Reading::DECIMAL => Some(Reading::Decimal(f64::from_bits(self.value))),
            Reading::WORD => part(text, self.value, self.length).map(Reading::Word),
            _ => None,
        }
    }
}

/// A part of a text, if it lies there and is plain text.
fn part(text: &[u8], place: u64, length: u64) -> Option<&str> {
    let begin = usize::try_from(place).ok()?;
    let end = begin.checked_add(usize::try_from(length).ok()?)?;
    core::str::from_utf8(text.get(begin..end)?).ok()
}

impl Lines {
    /// No line.
    pub const EMPTY: Lines = Lines {
        count: 0,
        lines: [Line::NONE; MOST],
    };

    /// How many lines there are, 256 at most.
    pub fn count(&self) -> usize {
        usize::try_from(self.count).unwrap_or(MOST).min(MOST)
    }

    /// The first line, from 0, that has this name in the text.
    ///
    /// Lines that no text made are answered too: the first below the count whose name lies within the text and has these bytes.
    pub fn find(&self, text: &[u8], name: &[u8]) -> Option<usize> {
        call::find(self, text, name)
    }

    /// The sheet with these lines. The text is the one that they were read from: of an output buffer as many bytes as the report
    /// counts.
    pub fn sheet<'a>(&'a self, text: &'a [u8]) -> Sheet<'a> {
        Sheet { lines: self, text }
    }
}

impl Default for Lines {
    fn default() -> Lines {
        Lines::EMPTY
    }
}

impl core::fmt::Debug for Lines {
    /// Those that count.
    fn fmt(&self, f: &mut core::fmt::Formatter<'_>) -> core::fmt::Result {
        f.debug_list().entries(&self.lines[..self.count()]).finish()
    }
}

#[cfg(test)]
mod tests {
    use super::*;
    use core::mem::{align_of, size_of};

    #[test]
    fn the_layout_is_that_of_the_header() {
        assert_eq!((size_of::<Line>(), align_of::<Line>()), (40, 8));
        assert_eq!((size_of::<Lines>(), align_of::<Lines>()), (10_248, 8));
    }

    #[test]
    fn readings_by_their_kinds() {
        let of = |kind, value, length| {
            let line = Line {
                kind,
                value,
                length,
                ..Line::NONE
            };
            line.reading_in(b"a=mast\xff")
        };
        assert_eq!(of(1, 7, 0), Some(Reading::Number(7)));
        assert_eq!(of(1, 0xffff_ffff, 0), Some(Reading::Number(-1)));
        assert_eq!(of(2, 1.5_f64.to_bits(), 0), Some(Reading::Decimal(1.5)));
        assert_eq!(of(3, 2, 4), Some(Reading::Word("mast")));
        assert_eq!(of(3, 2, 5), None);
        assert_eq!(of(3, 2, 6), None);
        assert_eq!(of(3, u64::MAX, 2), None);
        assert_eq!(of(0, 7, 0), None);
        assert_eq!(of(4, 7, 0), None);
    }

    #[test]
    fn more_lines_than_there_are_do_not_count() {
        for (count, expected) in [(0, 0), (255, 255), (256, 256), (257, 256), (u64::MAX, 256)] {
            let lines = Lines {
                count,
                ..Lines::EMPTY
            };
            assert_eq!(lines.count(), expected);
        }
    }
}
