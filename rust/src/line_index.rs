//! The index of a text's lines, with room of its own.

use crate::lines::{build, line_of, start_of, words, Refused};
use crate::LONGEST;
use core::fmt;

/// The most words, and totals, of an index.
const MOST: usize = words(LONGEST);

/// A place as people look for it. It is written `line:column`.
#[derive(Clone, Copy, Debug, PartialEq, Eq, PartialOrd, Ord, Hash)]
pub struct Position {
    /// The line, counted from 1.
    pub line: u64,
    /// The column, counted in bytes from 1.
    pub column: usize,
}

/// The lines of a text of at most 65,536 bytes. It is built once, in 12 KB of its own without a heap, and then knows line and
/// column of each place without the text.
///
/// ```
/// use quenhovach::{lines::Refused, LineIndex};
///
/// let index = LineIndex::new(b"boom\n\nguys\n")?;
/// assert_eq!(index.position(8)?.to_string(), "3:3");
/// assert_eq!((index.line(8), index.start(3)), (Ok(3), Ok(6)));
///
/// // A newline ends its own line; behind the last one there is an empty line.
/// assert_eq!(index.position(4)?.to_string(), "1:5");
/// assert_eq!(index.position(11)?.to_string(), "4:1");
/// assert_eq!(index.position(12), Err(Refused::Beyond));
/// assert_eq!(index.start(5), Err(Refused::NoLine));
/// # Ok::<(), Refused>(())
/// ```
#[derive(Clone)]
pub struct LineIndex {
    /// Of the text.
    length: usize,
    words: [u64; MOST],
    totals: [u32; MOST],
}

impl LineIndex {
    /// The index of a text.
    ///
    /// # Errors
    ///
    /// [`Refused::TooLong`].
    pub fn new(text: &[u8]) -> Result<LineIndex, Refused> {
        let mut index = LineIndex {
            length: text.len(),
            words: [0; MOST],
            totals: [0; MOST],
        };
        build(text, &mut index.words, &mut index.totals)?;
        Ok(index)
    }

    /// The line of a place: one more than the newlines before it.
    ///
    /// # Errors
    ///
    /// [`Refused::Beyond`].
    pub fn line(&self, place: usize) -> Result<u64, Refused> {
        line_of(self.length, &self.words, &self.totals, place)
    }

    /// The place where a line starts.
    ///
    /// # Errors
    ///
    /// [`Refused::NoLine`].
    pub fn start(&self, line: u64) -> Result<usize, Refused> {
        start_of(self.length, &self.words, &self.totals, line)
    }

    /// Line and column of a place.
    ///
    /// # Errors
    ///
    /// [`Refused::Beyond`].
    pub fn position(&self, place: usize) -> Result<Position, Refused> {
        let line = self.line(place)?;
        let column = 1 + place - self.start(line)?;
        Ok(Position { line, column })
    }
}

impl fmt::Debug for LineIndex {
    /// The length of the text; the bits would fill pages.
    fn fmt(&self, f: &mut fmt::Formatter<'_>) -> fmt::Result {
        f.debug_struct("LineIndex")
            .field("length", &self.length)
            .finish_non_exhaustive()
    }
}

impl fmt::Display for Position {
    fn fmt(&self, f: &mut fmt::Formatter<'_>) -> fmt::Result {
        write!(f, "{}:{}", self.line, self.column)
    }
}
