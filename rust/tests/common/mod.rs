//! A run in buffers that were full of junk, with all that it left behind.

use quenhovach::{expand, Buffers, Report, EMPTY_SET};

/// What the buffers hold before a run.
pub const JUNK: u8 = 0xa5;

/// The report of a run and what the seven buffers held afterwards.
pub struct Run {
    pub report: Report,
    pub left: [Vec<u8>; 7],
}

/// Expands a text that includes nothing in buffers of these lengths.
#[allow(dead_code)]
pub fn run(text: &[u8], lengths: [usize; 7], budget: u32) -> Run {
    run_with(text, EMPTY_SET, lengths, budget)
}

/// Expands a text with a set in buffers of these lengths.
pub fn run_with(text: &[u8], set: &[u8], lengths: [usize; 7], budget: u32) -> Run {
    let mut left = junk(lengths);
    let report = expand(text, set, buffers(&mut left), budget);
    Run { report, left }
}

/// Buffers of these lengths, full of junk.
pub fn junk(lengths: [usize; 7]) -> [Vec<u8>; 7] {
    lengths.map(|length| vec![JUNK; length])
}

/// All seven, to be lent.
pub fn buffers(lent: &mut [Vec<u8>; 7]) -> Buffers<'_> {
    let [pending, calls, definitions, streams, wrap, errors, output] = lent;
    Buffers {
        pending,
        calls,
        definitions,
        streams,
        wrap,
        errors,
        output,
    }
}

impl Run {
    /// The error and the output bytes.
    pub fn written(&self) -> (&[u8], &[u8]) {
        let [.., errors, output] = &self.left;
        (&errors[..self.report.errors], &output[..self.report.output])
    }

    /// Whether every byte that is not text is as the rules leave it: buffers 1 to 5 zero, or as lent after "lend"; 6 and 7 as
    /// lent behind their text.
    pub fn leaves_the_rest_alone(&self) -> bool {
        let [working @ .., errors, output] = &self.left;
        let rest = if self.report.answer.number() == 2 {
            JUNK
        } else {
            0
        };
        working.iter().flatten().all(|&b| b == rest)
            && errors[self.report.errors..].iter().all(|&b| b == JUNK)
            && output[self.report.output..].iter().all(|&b| b == JUNK)
    }
}
