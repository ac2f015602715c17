//! What the tests of requests share: cases with a text and its whole answer, and one short buffer.
//! Nothing can be included in them.

mod report;

use model::{Report, Setting, NO_ITEMS};
pub use report::{report, Case};

pub fn expand(text: &[u8], setting: &Setting) -> Report {
    model::expand(text, NO_ITEMS, setting)
}

pub fn answers(cases: &[Case]) {
    for &(text, numbers, output) in cases {
        let got = expand(text.as_bytes(), &Setting::ample());
        assert_eq!(got, report(numbers, output), "{text}");
    }
}

/// Expands with ample room but for one buffer, by its number in 01.
pub fn with_room(text: &str, buffer: usize, length: usize) -> Report {
    let mut setting = Setting::ample();
    setting.lengths[buffer - 1] = length;
    expand(text.as_bytes(), &setting)
}
