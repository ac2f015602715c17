//! The sheet: what a controller reads. A text is a sheet if each of its lines is a name, `=` and a reading, with nothing round them:
//! no blank, no CR, no comment.
//!
//! | reading | |
//! |---|---|
//! | [`Reading::Number`] | an optional minus and one or more digits, within -2147483648 to 2147483647 |
//! | [`Reading::Decimal`] | an optional minus, one or more digits, a point, one or more digits, at most 15 digits in all; the nearest `f64` |
//! | [`Reading::Word`] | shaped like a name: a letter or underscore, then letters, digits and underscores |
//!
//! Bytes behind the last newline are a line too, and a text without a byte is a sheet without a line. A sheet has at most [`MOST`]
//! lines, and no name twice. A text that is no sheet is told by its first [`BadLine`].
//!
//! The functions here take lines that the caller lends, and need `core` alone. [`Expander::expand_sheet`](crate::Expander) has room of
//! its own, and [`expand_to_sheet`] gives a [`SheetBuf`] that stands for itself.

mod bad_line;
mod call;
mod lines;
#[cfg(feature = "alloc")]
mod owned;

use core::fmt;

pub use bad_line::BadLine;
pub use call::{expand, read, Outcome};
pub use lines::{Line, Lines, MOST};
#[cfg(feature = "alloc")]
pub use owned::{expand_to_sheet, NoSheet, SheetBuf};

/// What a sheet gives for a name.
#[derive(Clone, Copy, Debug, PartialEq)]
pub enum Reading<'t> {
    /// A number.
    Number(i32),
    /// A decimal. `-0.0` has its sign.
    Decimal(f64),
    /// A word, borrowed from the written text.
    Word(&'t str),
}

/// A line of a sheet.
#[derive(Clone, Copy, Debug, PartialEq)]
pub struct Setting<'t> {
    /// The number of the line, from 1.
    pub line: usize,
    /// Its name.
    pub name: &'t str,
    /// Its reading.
    pub reading: Reading<'t>,
}

/// A sheet: a written text, and its lines.
///
/// ```
/// use quenhovach::{sheet, BadLine, Reading};
///
/// let mut lines = sheet::Lines::EMPTY;
/// let sheet = sheet::read(b"family=lattice\nguy_count=3\nsway_gain=-0.5", &mut lines)?;
/// assert_eq!(sheet.len(), 3);
/// assert_eq!(sheet.get("guy_count"), Some(Reading::Number(3)));
/// assert_eq!(sheet.line_of("sway_gain"), Some(3));
/// assert_eq!(sheet.get("Family"), None);
///
/// let words: Vec<_> = sheet
///     .settings()
///     .filter(|setting| matches!(setting.reading, Reading::Word(_)))
///     .map(|setting| (setting.line, setting.name))
///     .collect();
/// assert_eq!(words, [(1, "family")]);
/// # Ok::<(), BadLine>(())
/// ```
#[derive(Clone, Copy)]
pub struct Sheet<'a> {
    lines: &'a Lines,
    text: &'a [u8],
}

impl Reading<'_> {
    /// The kinds of a reading.
    const NUMBER: u64 = 1;
    const DECIMAL: u64 = 2;
    const WORD: u64 = 3;
}

impl<'a> Sheet<'a> {
    /// The reading that this name has, or none where it is absent. Case counts.
    pub fn get(&self, name: impl AsRef<[u8]>) -> Option<Reading<'a>> {
        let index = self.lines.find(self.text, name.as_ref())?;
        self.lines.lines[index].reading_in(self.text)
    }

    /// The number of the line with this name, from 1.
    pub fn line_of(&self, name: impl AsRef<[u8]>) -> Option<usize> {
        Some(1 + self.lines.find(self.text, name.as_ref())?)
    }

    /// The line with this number, from 1.
    pub fn setting(&self, line: usize) -> Option<Setting<'a>> {
        let index = line.checked_sub(1).filter(|&index| index < self.len())?;
        let found = &self.lines.lines[index];
        Some(Setting {
            line,
            name: found.name_in(self.text)?,
            reading: found.reading_in(self.text)?,
        })
    }

    /// All lines, in order.
    pub fn settings(&self) -> impl Iterator<Item = Setting<'a>> {
        let sheet = *self;
        (1..=self.len()).filter_map(move |line| sheet.setting(line))
    }

    /// How many lines it has.
    pub fn len(&self) -> usize {
        self.lines.count()
    }

    /// Whether it has no line.
    pub fn is_empty(&self) -> bool {
        self.len() == 0
    }

    /// The written text.
    pub fn text(&self) -> &'a [u8] {
        self.text
    }
}

impl fmt::Debug for Sheet<'_> {
    /// Names with their readings.
    fn fmt(&self, f: &mut fmt::Formatter<'_>) -> fmt::Result {
        let entries = self.settings().map(|s| (s.name, s.reading));
        f.debug_map().entries(entries).finish()
    }
}

/// The line with this number, from 1, of a text, without its newline. Behind the last newline there is a line only if it has a byte.
///
/// ```
/// use quenhovach::sheet::line;
///
/// let text = b"guy_count=3\n\nsway=on\n";
/// let lines = [1, 2, 3].map(|number| line(text, number).unwrap());
/// assert_eq!(lines, [&b"guy_count=3"[..], b"", b"sway=on"]);
/// assert_eq!((line(text, 0), line(text, 4)), (None, None));
/// ```
pub fn line(text: &[u8], number: usize) -> Option<&[u8]> {
    let newline = |&b: &u8| b == b'\n';
    let found = text.split_inclusive(newline).nth(number.checked_sub(1)?)?;
    Some(found.strip_suffix(b"\n").unwrap_or(found))
}
