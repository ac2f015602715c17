//! Why a text is no sheet.

use super::{line, MOST};
use core::{error::Error, fmt};

/// The first bad line of a text that is no sheet. Of one line they are judged in the order 22, 20, 21.
///
/// ```
/// use quenhovach::{sheet, BadLine};
///
/// let text = b"guy_count=3\nsway_gain = 0.85\n";
/// let mut lines = sheet::Lines::EMPTY;
/// let bad = sheet::read(text, &mut lines).unwrap_err();
/// assert_eq!((bad, bad.number(), bad.line()), (BadLine::Malformed(2), 20, 2));
/// assert_eq!(bad.to_string(), "line 2 is not a name, `=` and a reading");
/// assert_eq!(bad.bytes(text), Some(&b"sway_gain = 0.85"[..]));
/// ```
#[derive(Clone, Copy, Debug, PartialEq, Eq, Hash)]
pub enum BadLine {
    /// 20: the line with this number, from 1, is not a name, `=` and a reading.
    Malformed(usize),
    /// 21: the line with this number gives a name that a line before it has given.
    Twice(usize),
    /// 22: there is a 257th line.
    TooMany,
}

impl BadLine {
    /// Its number, 20 to 22.
    pub fn number(self) -> u32 {
        match self {
            BadLine::Malformed(_) => 20,
            BadLine::Twice(_) => 21,
            BadLine::TooMany => 22,
        }
    }

    /// Its short name.
    pub fn name(self) -> &'static str {
        match self {
            BadLine::Malformed(_) => "malformed",
            BadLine::Twice(_) => "twice",
            BadLine::TooMany => "too many",
        }
    }

    /// The number of the line, from 1.
    pub fn line(self) -> usize {
        match self {
            BadLine::Malformed(line) | BadLine::Twice(line) => line,
            BadLine::TooMany => MOST + 1,
        }
    }

    /// The bytes of the line in the text that was read, without its newline. None where the text has no such line, so that it is
    /// another.
    pub fn bytes(self, text: &[u8]) -> Option<&[u8]> {
        line(text, self.line())
    }

    /// The one with this number and line, if there is one.
    pub fn from_numbers(number: u32, line: u32) -> Option<BadLine> {
        let line = usize::try_from(line).ok()?;
        Some(match (number, line) {
            (20, 1..=MOST) => BadLine::Malformed(line),
            (21, 2..=MOST) => BadLine::Twice(line),
            (22, line) if line == MOST + 1 => BadLine::TooMany,
            _ => return None,
        })
    }
}

impl fmt::Display for BadLine {
    fn fmt(&self, f: &mut fmt::Formatter<'_>) -> fmt::Result {
        match self {
            BadLine::Malformed(line) => {
                write!(f, "line {line} is not a name, `=` and a reading")
            }
            BadLine::Twice(line) => write!(f, "line {line} gives a name a second time"),
            BadLine::TooMany => write!(f, "there are more than {MOST} lines"),
        }
    }
}

impl Error for BadLine {}

#[cfg(test)]
mod tests {
    use super::*;

    #[test]
    fn exactly_those_of_the_header_exist() {
        for number in (0..30).chain([u32::MAX]) {
            for line in (0..300).chain([u32::MAX]) {
                let listed = match number {
                    20 => (1..=256).contains(&line),
                    21 => (2..=256).contains(&line),
                    22 => line == 257,
                    _ => false,
                };
                let bad = BadLine::from_numbers(number, line);
                assert_eq!(bad.is_some(), listed, "{number} {line}");
                if let Some(bad) = bad {
                    assert_eq!((bad.number(), bad.line() as u32), (number, line));
                }
            }
        }
    }

    #[test]
    fn it_is_an_error_for_core_alone() {
        let error: &dyn Error = &BadLine::TooMany;
        assert!(error.source().is_none());
    }
}
