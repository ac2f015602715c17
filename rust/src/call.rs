//! The call itself: slices in, a report out.

use crate::Answer;

/// The most bytes that a text or a lent buffer may have.
pub const LONGEST: usize = 65_536;

/// The budget of the program `expand`, and of everything here that is given none.
pub const BUDGET: u32 = 16_777_216;

extern "C" {
    /// Answers the number, and fills the report: number, detail, steps, place, output count, error count.
    fn quenhovach_expand(
        text: *const u8,
        text_len: usize,
        set: *const u8,
        set_len: usize,
        pending: *mut u8,
        pending_len: usize,
        calls: *mut u8,
        calls_len: usize,
        definitions: *mut u8,
        definitions_len: usize,
        streams: *mut u8,
        streams_len: usize,
        wrap: *mut u8,
        wrap_len: usize,
        errors: *mut u8,
        errors_len: usize,
        output: *mut u8,
        output_len: usize,
        budget: u32,
        report: *mut u32,
    ) -> u32;
}

/// The seven lent buffers. Each may have 0 to 65,536 bytes, its length is its limit, and what it holds before doesn't matter.
///
/// After done or exit `output` and `errors` hold the text from the front and their old bytes behind it; after a refusal they
/// are as they were. The other five are all zero afterwards, except after [`Answer::Lend`], which writes nothing.
///
/// The default is seven empty ones.
#[derive(Debug, Default)]
pub struct Buffers<'a> {
    /// Text pushed back and not yet read.
    pub pending: &'a mut [u8],
    /// Names and arguments of all open calls.
    pub calls: &'a mut [u8],
    /// Names and texts of the definitions that the text makes.
    pub definitions: &'a mut [u8],
    /// The text in streams 1 to 9.
    pub streams: &'a mut [u8],
    /// Wrap text waiting for the end.
    pub wrap: &'a mut [u8],
    /// Receives the error text.
    pub errors: &'a mut [u8],
    /// Receives the output.
    pub output: &'a mut [u8],
}

/// What a run came to.
#[derive(Clone, Copy, Debug, PartialEq, Eq, Hash)]
pub struct Report {
    /// How it ended.
    pub answer: Answer,
    /// Completed steps. A refused step is not counted; the one that ends in done or exit is.
    pub steps: u32,
    /// Count of input bytes taken: on a refusal before the refused step, else in all.
    pub place: usize,
    /// Count of output bytes; 0 on a refusal.
    pub output: usize,
    /// Count of error bytes; 0 on a refusal.
    pub errors: usize,
}

impl Report {
    /// The code of `m4exit`, if that ended the run and not the end of the text.
    pub fn exit_code(&self) -> Option<u8> {
        match self.answer {
            Answer::Exit(code) => Some(code),
            _ => None,
        }
    }

    /// The six numbers: number, detail, steps, place, output count, error count.
    pub fn numbers(&self) -> [u32; 6] {
        let count = |n: usize| u32::try_from(n).unwrap_or(u32::MAX);
        [
            self.answer.number(),
            self.answer.detail(),
            self.steps,
            count(self.place),
            count(self.output),
            count(self.errors),
        ]
    }

    /// The report with these six numbers, if there is such an answer.
    pub(crate) fn from_numbers(numbers: [u32; 6]) -> Option<Report> {
        let [number, detail, steps, place, output, errors] = numbers;
        Some(Report {
            answer: Answer::from_numbers(number, detail)?,
            steps,
            place: place as usize,
            output: output as usize,
            errors: errors as usize,
        })
    }
}

/// Expands a text in lent buffers, with at most `budget` steps. What it may include is in the `set`;
/// [`EMPTY_SET`](crate::EMPTY_SET) has nothing, and [`set`](crate::set) tells its form.
///
/// ```
/// use quenhovach::{expand, Answer, Buffer, Buffers, EMPTY_SET};
///
/// fn run(pending: usize, output: &mut [u8]) -> quenhovach::Report {
///     let buffers = Buffers {
///         pending: &mut vec![0; pending],
///         calls: &mut [0; 8],
///         definitions: &mut [0; 2],
///         output,
///         ..Buffers::default()
///     };
///     expand(b"define(`n',`5')n", EMPTY_SET, buffers, 100)
/// }
///
/// let mut output = *b"....";
/// let report = run(1, &mut output);
/// assert_eq!(report.answer, Answer::Done);
/// assert_eq!((report.steps, report.place), (8, 16));
/// assert_eq!(output[..report.output], *b"5");
///
/// // One byte less, and there is no text at all.
/// let mut output = *b"....";
/// let report = run(0, &mut output);
/// assert_eq!(report.answer, Answer::Room(Buffer::Pending));
/// assert_eq!((report.steps, report.place), (5, 15));
/// assert_eq!(output, *b"....");
/// ```
///
/// An item's text is put in front of the text ahead, and counts as pending text:
///
/// ```
/// use quenhovach::{expand, Answer, Buffers};
///
/// // One item: its name has 1 byte, its text 2, and a chunk of 3 bytes holds both.
/// let set = b"\x81\x01\0\0\0\x02\0\0\0\x03axy\0";
/// let (mut pending, mut calls, mut output) = ([0; 2], [0; 8], [0; 2]);
/// let buffers = Buffers {
///     pending: &mut pending,
///     calls: &mut calls,
///     output: &mut output,
///     ..Buffers::default()
/// };
/// let report = expand(b"include(a)", set, buffers, 100);
/// assert_eq!((report.answer, &output), (Answer::Done, b"xy"));
/// ```
///
/// # Panics
///
/// Only if the archive that was linked is of another version and gives an answer that this crate doesn't know.
pub fn expand(text: &[u8], set: &[u8], buffers: Buffers<'_>, budget: u32) -> Report {
    let mut numbers = [0; 6];
    // SAFETY: each pointer comes with the length of its slice. Text and set are only read; the buffers and the report are
    // lent exclusively (`&mut`), so nothing overlaps. The callee keeps no pointer.
    unsafe {
        quenhovach_expand(
            text.as_ptr(),
            text.len(),
            set.as_ptr(),
            set.len(),
            buffers.pending.as_mut_ptr(),
            buffers.pending.len(),
            buffers.calls.as_mut_ptr(),
            buffers.calls.len(),
            buffers.definitions.as_mut_ptr(),
            buffers.definitions.len(),
            buffers.streams.as_mut_ptr(),
            buffers.streams.len(),
            buffers.wrap.as_mut_ptr(),
            buffers.wrap.len(),
            buffers.errors.as_mut_ptr(),
            buffers.errors.len(),
            buffers.output.as_mut_ptr(),
            buffers.output.len(),
            budget,
            numbers.as_mut_ptr(),
        );
    }
    Report::from_numbers(numbers)
        .unwrap_or_else(|| panic!("the linked archive gave an unknown answer: {numbers:?}"))
}
