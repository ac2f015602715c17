//! A text's whole answer, written short.

use model::Report;

pub fn report([number, detail, steps, place]: [u32; 4], output: &str) -> Report {
    Report {
        number,
        detail,
        steps,
        place,
        output: output.as_bytes().to_vec(),
        errors: Vec::new(),
    }
}

/// A text, its number, detail, steps and place, and its output.
pub type Case = (&'static str, [u32; 4], &'static str);
