//! A case: what is asked, what is lent for it, and what has to come of it.

use super::{build, line_of, start_of, Answer};

/// A question to one of the three functions.
#[derive(Clone, Debug, PartialEq, Eq)]
pub enum Asked {
    /// The index of a text.
    Build(Vec<u8>),
    /// The line of a place, in the index of a text of this length.
    Line { length: usize, place: usize },
    /// The start of a line, in the index of a text of this length.
    Start { length: usize, line: u64 },
}

/// The answer, and all that was lent, afterwards.
#[derive(Clone, Debug, PartialEq, Eq)]
pub struct Outcome {
    pub answer: Answer,
    pub words: Vec<u64>,
    pub totals: Vec<u32>,
}

#[derive(Clone, Debug, PartialEq, Eq)]
pub struct Case {
    pub asked: Asked,
    /// The words as they are lent.
    pub words: Vec<u64>,
    /// The totals as they are lent.
    pub totals: Vec<u32>,
    pub expected: Outcome,
}

impl Asked {
    /// The length of the text that the index is of.
    pub fn length(&self) -> usize {
        match self {
            Asked::Build(text) => text.len(),
            Asked::Line { length, .. } | Asked::Start { length, .. } => *length,
        }
    }

    /// What the model answers, and leaves in copies of these words and totals.
    pub fn outcome(&self, words: &[u64], totals: &[u32]) -> Outcome {
        let (mut words, mut totals) = (words.to_vec(), totals.to_vec());
        let answer = match self {
            Asked::Build(text) => build(text, &mut words, &mut totals),
            Asked::Line { length, place } => line_of(*length, &words, &totals, *place),
            Asked::Start { length, line } => start_of(*length, &words, &totals, *line),
        };
        Outcome {
            answer,
            words,
            totals,
        }
    }
}

impl Case {
    /// The case that expects the model's outcome.
    pub fn new(asked: Asked, words: Vec<u64>, totals: Vec<u32>) -> Case {
        let expected = asked.outcome(&words, &totals);
        Case {
            asked,
            words,
            totals,
            expected,
        }
    }
}
