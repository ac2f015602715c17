//! The calls: expanding and reading in one, reading a text that is there, and finding a name.

use super::{BadLine, Lines, Sheet, MOST};
use crate::{Answer, Buffers, Report};

extern "C" {
    /// As `quenhovach_expand`; fills the sheet, too.
    fn quenhovach_sheet_expand(
        text: *const u8,
        text_len: usize,
        set: *const u8,
        set_len: usize,
        pending: *mut u8,
        pending_len: usize,
        calls: *mut u8,
        calls_len: usize,
        definitions: *mut u8,
        definitions_len: usize,
        streams: *mut u8,
        streams_len: usize,
        wrap: *mut u8,
        wrap_len: usize,
        errors: *mut u8,
        errors_len: usize,
        output: *mut u8,
        output_len: usize,
        budget: u32,
        report: *mut u32,
        sheet: *mut Lines,
    ) -> u32;

    /// Fills the sheet, and writes the number of the bad line, 0 where there is none.
    fn quenhovach_sheet_read(
        text: *const u8,
        text_len: usize,
        sheet: *mut Lines,
        line: *mut u32,
    ) -> u32;

    /// Answers the line, from 0, or `MOST`.
    fn quenhovach_sheet_find(
        sheet: *const Lines,
        text: *const u8,
        text_len: usize,
        name: *const u8,
        name_len: usize,
    ) -> usize;
}

/// What a run came to whose output was read as a sheet.
#[derive(Clone, Copy, Debug, PartialEq, Eq, Hash)]
pub struct Outcome {
    /// The run's numbers. Where its output is no sheet, the run itself is done.
    pub report: Report,
    /// The first bad line of the output, where the run is done and its output no sheet.
    pub bad_line: Option<BadLine>,
}

impl Outcome {
    /// Whether there is a sheet: the run is done, and each line of its output good.
    pub fn is_sheet(&self) -> bool {
        self.report.answer == Answer::Done && self.bad_line.is_none()
    }

    /// The six numbers: number, detail, steps, place, output count, error count. With a bad line the number is 20 to 22, the detail
    /// its line, and the others are the done run's.
    pub fn numbers(&self) -> [u32; 6] {
        let mut numbers = self.report.numbers();
        if let Some(bad) = self.bad_line {
            numbers[0] = bad.number();
            numbers[1] = bad.line() as u32;
        }
        numbers
    }

    /// The outcome with these six numbers, if there is such an answer.
    fn from_numbers(mut numbers: [u32; 6]) -> Option<Outcome> {
        let bad_line = BadLine::from_numbers(numbers[0], numbers[1]);
        if bad_line.is_some() {
            numbers[0] = Answer::Done.number();
            numbers[1] = Answer::Done.detail();
        }
        let report = Report::from_numbers(numbers)?;
        Some(Outcome { report, bad_line })
    }
}

/// Expands a text in lent buffers, as [`expand`](crate::expand) does, and reads the output as a sheet where the run is done.
/// `m4exit` is not done, whatever its number.
///
/// Where there is no sheet, `lines` has none. With a bad line, output and error text are in their buffers as after done.
///
/// ```
/// use quenhovach::{sheet, BadLine, Buffers, Reading, EMPTY_SET};
///
/// let mut lines = sheet::Lines::EMPTY;
/// let (mut pending, mut calls, mut output) = ([0; 1], [0; 8], [0; 32]);
/// let buffers = Buffers {
///     pending: &mut pending,
///     calls: &mut calls,
///     output: &mut output,
///     ..Buffers::default()
/// };
/// let text = b"guy_count=len(abc)\nsway_gain=0.85\n";
/// let outcome = sheet::expand(text, EMPTY_SET, buffers, 100, &mut lines);
/// assert!(outcome.is_sheet());
/// let sheet = lines.sheet(&output[..outcome.report.output]);
/// assert_eq!(sheet.get("guy_count"), Some(Reading::Number(3)));
/// assert_eq!(sheet.get("sway_gain"), Some(Reading::Decimal(0.85)));
/// assert_eq!(sheet.get("gain"), None);
///
/// let buffers = Buffers { output: &mut output, ..Buffers::default() };
/// let outcome = sheet::expand(b"a=3\na=4\n", EMPTY_SET, buffers, 100, &mut lines);
/// assert_eq!(outcome.bad_line, Some(BadLine::Twice(2)));
/// assert_eq!(output[..outcome.report.output], *b"a=3\na=4\n");
/// assert_eq!(lines.count(), 0);
/// ```
///
/// # Panics
///
/// Only if the archive that was linked is of another version and gives an answer that this crate doesn't know.
pub fn expand(
    text: &[u8],
    set: &[u8],
    buffers: Buffers<'_>,
    budget: u32,
    lines: &mut Lines,
) -> Outcome {
    let mut numbers = [0; 6];
    // SAFETY: each pointer comes with the length of its slice. Text and set are only read; the buffers, the report and the lines
    // are lent exclusively (`&mut`), so nothing overlaps. `Lines` has the layout of the C type. The callee keeps no pointer.
    unsafe {
        quenhovach_sheet_expand(
            text.as_ptr(),
            text.len(),
            set.as_ptr(),
            set.len(),
            buffers.pending.as_mut_ptr(),
            buffers.pending.len(),
            buffers.calls.as_mut_ptr(),
            buffers.calls.len(),
            buffers.definitions.as_mut_ptr(),
            buffers.definitions.len(),
            buffers.streams.as_mut_ptr(),
            buffers.streams.len(),
            buffers.wrap.as_mut_ptr(),
            buffers.wrap.len(),
            buffers.errors.as_mut_ptr(),
            buffers.errors.len(),
            buffers.output.as_mut_ptr(),
            buffers.output.len(),
            budget,
            numbers.as_mut_ptr(),
            lines,
        );
    }
    Outcome::from_numbers(numbers)
        .unwrap_or_else(|| panic!("the linked archive gave an unknown answer: {numbers:?}"))
}

/// Reads a text of any length as a sheet, in lent lines.
///
/// ```
/// use quenhovach::{sheet, BadLine, Reading};
///
/// let mut lines = sheet::Lines::EMPTY;
/// let sheet = sheet::read(b"family=lattice\nguy_count=3\n", &mut lines)?;
/// assert_eq!(sheet.get("family"), Some(Reading::Word("lattice")));
///
/// assert_eq!(sheet::read(b"guy_count=3\n\n", &mut lines).err(), Some(BadLine::Malformed(2)));
/// # Ok::<(), BadLine>(())
/// ```
///
/// # Errors
///
/// The first bad line. Then `lines` has none.
///
/// # Panics
///
/// As [`expand`].
pub fn read<'a>(text: &'a [u8], lines: &'a mut Lines) -> Result<Sheet<'a>, BadLine> {
    let mut line = 0;
    // SAFETY: the pointer to the text comes with its length, and the text is only read; lines and line are lent exclusively (`&mut`).
    // `Lines` has the layout of the C type. The callee keeps no pointer.
    let number = unsafe { quenhovach_sheet_read(text.as_ptr(), text.len(), lines, &mut line) };
    match (number, BadLine::from_numbers(number, line)) {
        (0, _) => Ok(lines.sheet(text)),
        (_, Some(bad)) => Err(bad),
        _ => panic!("the linked archive gave an unknown answer: {number} {line}"),
    }
}

/// The first line, from 0, that has this name in the text.
pub(super) fn find(lines: &Lines, text: &[u8], name: &[u8]) -> Option<usize> {
    // SAFETY: each pointer comes with the length of its slice, and all of it is only read. `Lines` has the layout of the C type. The
    // callee keeps no pointer.
    let index = unsafe {
        quenhovach_sheet_find(lines, text.as_ptr(), text.len(), name.as_ptr(), name.len())
    };
    (index < MOST).then_some(index)
}

#[cfg(test)]
mod tests {
    use super::*;

    #[test]
    fn the_numbers_of_an_outcome() {
        for numbers in [
            [0, 0, 4, 3, 3, 0],
            [1, 2, 7, 13, 4, 0],
            [5, 1, 2, 2, 0, 0],
            [20, 1, 5, 12, 1, 1],
            [21, 256, 9, 9, 9, 0],
            [22, 257, 9, 9, 9, 0],
        ] {
            let outcome = Outcome::from_numbers(numbers).expect("there is one");
            assert_eq!(outcome.numbers(), numbers);
            assert_eq!(outcome.is_sheet(), numbers[0] == 0);
            assert_eq!(outcome.bad_line.is_some(), numbers[0] >= 20);
        }
        for numbers in [[19, 0], [20, 0], [20, 257], [21, 1], [22, 1], [23, 1]] {
            let [number, detail] = numbers;
            assert_eq!(Outcome::from_numbers([number, detail, 1, 1, 1, 1]), None);
        }
    }
}
