//! Request 4 of 02, "The sheet itself": a written text read as a sheet, a text expanded and read, and
//! a question by name. The question answers of any lines and any text.

pub mod case;
mod decimal;

use crate::answer::{Report, Setting};
use crate::bytes::is_name;
use crate::lines::NEWLINE;
use crate::numbers;
use crate::run::{expand, expand_buffers};

/// "22 a 257th line".
pub const MOST_LINES: usize = 256;

/// "A reading is a number as 01 has it, a decimal length or gain, or a word shaped like a name."
#[derive(Clone, Copy, Debug, PartialEq, Eq)]
pub enum Reading {
    Number(i32),
    /// The 64 bits of its double.
    Decimal(u64),
    /// Where the word stands in the written text.
    Word {
        place: u64,
        length: u64,
    },
}

/// A line of a sheet: where its name stands in the written text, and its reading.
#[derive(Clone, Copy, Debug, PartialEq, Eq)]
pub struct Line {
    pub place: u64,
    pub length: u64,
    pub reading: Reading,
}

/// What may be wrong with a line.
#[derive(Clone, Copy, Debug, PartialEq, Eq)]
pub enum Fault {
    Malformed,
    Twice,
    TooMany,
}

/// The first bad line, counted from 1, and what is wrong with it.
#[derive(Clone, Copy, Debug, PartialEq, Eq)]
pub struct Refused {
    pub fault: Fault,
    pub line: u32,
}

impl Refused {
    /// "20 malformed line, 21 name given twice, 22 a 257th line".
    pub fn number(self) -> u32 {
        match self.fault {
            Fault::Malformed => 20,
            Fault::Twice => 21,
            Fault::TooMany => 22,
        }
    }

    /// "with the line number as detail".
    pub fn detail(self) -> u32 {
        self.line
    }
}

/// The lines of a sheet, or why a text is none.
pub type Judged = Result<Vec<Line>, Refused>;

/// The lines of a text, without their newlines, each with its place. "Bytes after the last newline
/// are a line too and need none."
pub fn lines_of(text: &[u8]) -> Vec<(usize, &[u8])> {
    let mut lines = Vec::new();
    let mut start = 0;
    for (at, &byte) in text.iter().enumerate() {
        if byte == NEWLINE {
            lines.push((start, &text[start..at]));
            start = at + 1;
        }
    }
    if start < text.len() {
        lines.push((start, &text[start..]));
    }
    lines
}

/// Reads a written text as a sheet: "the first bad line counts, judged 22, 20, 21".
pub fn read(text: &[u8]) -> Judged {
    let mut sheet: Vec<Line> = Vec::new();
    for (place, bytes) in lines_of(text) {
        let refused = |fault| Refused {
            fault,
            line: sheet.len() as u32 + 1,
        };
        if sheet.len() == MOST_LINES {
            return Err(refused(Fault::TooMany));
        }
        let line = line(place, bytes).ok_or(refused(Fault::Malformed))?;
        let name = name_of(&line, text);
        if sheet.iter().any(|earlier| name_of(earlier, text) == name) {
            return Err(refused(Fault::Twice));
        }
        sheet.push(line);
    }
    Ok(sheet)
}

/// "A sheet is lines: a name, `=`, a reading, newline." None if this is no such line.
fn line(place: usize, bytes: &[u8]) -> Option<Line> {
    let equals = bytes.iter().position(|&byte| byte == b'=')?;
    let name = &bytes[..equals];
    if !is_name(name) {
        return None;
    }
    let behind = equals + 1;
    Some(Line {
        place: place as u64,
        length: name.len() as u64,
        reading: reading(place + behind, &bytes[behind..])?,
    })
}

/// The reading that all of these bytes are, which stand at a place of the written text.
fn reading(place: usize, bytes: &[u8]) -> Option<Reading> {
    if is_name(bytes) {
        Some(Reading::Word {
            place: place as u64,
            length: bytes.len() as u64,
        })
    } else if bytes.contains(&b'.') {
        decimal::read(bytes).map(Reading::Decimal)
    } else {
        numbers::read(bytes).ok().map(Reading::Number)
    }
}

/// The bytes of a text where a line has its name. None if they do not lie in the text.
fn name_of<'a>(line: &Line, text: &'a [u8]) -> Option<&'a [u8]> {
    // as numbers: the sum does not wrap
    let end = u128::from(line.place) + u128::from(line.length);
    if end > text.len() as u128 {
        return None;
    }
    Some(&text[line.place as usize..end as usize])
}

/// "A question by name, of a sheet and its written text, returns its reading or "absent"": the
/// reading of the first line that has this name in the text, whatever lines and text are given.
pub fn question(lines: &[Line], text: &[u8], name: &[u8]) -> Option<Reading> {
    let mut lines = lines.iter();
    lines
        .find(|line| name_of(line, text) == Some(name))
        .map(|line| line.reading)
}

/// What comes of a text that is expanded and read.
#[derive(Clone, Debug, PartialEq, Eq)]
pub struct Expanded {
    pub report: Report,
    /// Only where the answer is done.
    pub sheet: Option<Vec<Line>>,
}

/// "one call that expands and reads". "A run that did not end done gives no sheet at all, only its
/// answer"; the refusals 20 to 22 leave "all else, the written text too, as after done".
pub fn expand_and_read(text: &[u8], set: &[u8], setting: &Setting) -> Expanded {
    let mut report = expand(text, set, setting);
    if report.number != 0 {
        return Expanded {
            report,
            sheet: None,
        };
    }
    match read(&report.output) {
        Ok(lines) => Expanded {
            report,
            sheet: Some(lines),
        },
        Err(refused) => {
            (report.number, report.detail) = (refused.number(), refused.detail());
            Expanded {
                report,
                sheet: None,
            }
        }
    }
}

/// Expands and reads in lent buffers, and leaves them as 01 says. Gives number, detail, completed
/// steps, place and the counts of output and error bytes, and the sheet.
pub fn expand_and_read_in(
    text: &[u8],
    set: &[u8],
    buffers: &mut [Vec<u8>; 7],
    budget: u32,
) -> ([u32; 6], Option<Vec<Line>>) {
    let mut numbers = expand_buffers(text, set, buffers, budget);
    if numbers[0] != 0 {
        return (numbers, None);
    }
    // the bytes behind the counted ones are no part of the written text
    let written = &buffers[6][..numbers[4] as usize];
    match read(written) {
        Ok(lines) => (numbers, Some(lines)),
        Err(refused) => {
            numbers[..2].copy_from_slice(&[refused.number(), refused.detail()]);
            (numbers, None)
        }
    }
}
