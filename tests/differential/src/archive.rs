//! The call of the archive's expander.

use crate::case::Case;
use crate::windows::Lent;

extern "C" {
    fn quenhovach_expand(
        text: *const u8,
        text_length: usize,
        set: *const u8,
        set_length: usize,
        pending: *mut u8,
        pending_length: usize,
        calls: *mut u8,
        calls_length: usize,
        definitions: *mut u8,
        definitions_length: usize,
        streams: *mut u8,
        streams_length: usize,
        wrap: *mut u8,
        wrap_length: usize,
        errors: *mut u8,
        errors_length: usize,
        output: *mut u8,
        output_length: usize,
        budget: u32,
        report: *mut u32,
    ) -> u32;
}

/// The text, the seven buffers, the set and the report lie in ten areas.
pub const AREAS: usize = 10;
/// The numbers of the areas of the text, of the set and of the report; those of the buffers are 1 to
/// 7.
pub const TEXT: usize = 0;
pub const SET: usize = 8;
pub const REPORT: usize = 9;
/// A report is six numbers of four bytes.
pub const REPORT_LENGTH: usize = 24;

/// Calls the archive and gives what it returns.
///
/// # Safety
///
/// Each area must be as long as is said, the report aligned to four bytes.
pub unsafe fn call(lent: &[Lent; AREAS], budget: u32) -> u32 {
    quenhovach_expand(
        lent[TEXT].0,
        lent[TEXT].1,
        lent[SET].0,
        lent[SET].1,
        lent[1].0,
        lent[1].1,
        lent[2].0,
        lent[2].1,
        lent[3].0,
        lent[3].1,
        lent[4].0,
        lent[4].1,
        lent[5].0,
        lent[5].1,
        lent[6].0,
        lent[6].1,
        lent[7].0,
        lent[7].1,
        budget,
        lent[REPORT].0.cast(),
    )
}

/// How long each area is for a case.
pub fn lengths(case: &Case) -> [usize; AREAS] {
    std::array::from_fn(|area| match area {
        TEXT => case.text.len(),
        SET => case.set.len(),
        REPORT => REPORT_LENGTH,
        buffer => case.setting.lengths[buffer - 1],
    })
}

/// What the areas that are only read hold before a call.
pub fn given(case: &Case) -> [(usize, &[u8]); 2] {
    [(TEXT, &case.text), (SET, &case.set)]
}
