//! A case: what is asked, and what has to come of it.

use super::{expand_and_read, question, read, Expanded, Judged, Line, Reading};
use crate::answer::Setting;

/// A text to expand and to read, and what it is lent.
#[derive(Clone, Debug, PartialEq, Eq)]
pub struct Template {
    pub text: Vec<u8>,
    pub set: Vec<u8>,
    pub setting: Setting,
    /// What the output buffer holds behind the written text, over and over to its end. It matters to
    /// no answer.
    pub behind: Vec<u8>,
}

#[derive(Clone, Debug, PartialEq, Eq)]
pub enum Asked {
    /// A written text read as a sheet.
    Read(Vec<u8>),
    /// A text expanded and read.
    Sheet(Template),
    /// The reading of a name.
    Question {
        lines: Vec<Line>,
        text: Vec<u8>,
        name: Vec<u8>,
    },
}

/// What comes of each of the three.
#[derive(Clone, Debug, PartialEq, Eq)]
pub enum Outcome {
    Read(Judged),
    Sheet(Expanded),
    /// None is "absent".
    Question(Option<Reading>),
}

#[derive(Clone, Debug, PartialEq, Eq)]
pub struct Case {
    pub asked: Asked,
    pub expected: Outcome,
}

impl Template {
    /// The output buffer as it is lent, where so many bytes are going to be written to its front.
    pub fn output(&self, written: usize) -> Vec<u8> {
        let length = self.setting.lengths[6];
        let old = self.behind.iter().copied().cycle();
        let mut output = vec![b'.'; written.min(length)];
        output.extend(old.take(length - output.len()));
        output.resize(length, b'.');
        output
    }
}

impl Asked {
    /// What the model answers.
    pub fn outcome(&self) -> Outcome {
        match self {
            Asked::Read(text) => Outcome::Read(read(text)),
            Asked::Sheet(Template {
                text, set, setting, ..
            }) => Outcome::Sheet(expand_and_read(text, set, setting)),
            Asked::Question { lines, text, name } => Outcome::Question(question(lines, text, name)),
        }
    }
}

impl Case {
    /// The case that expects the model's outcome.
    pub fn new(asked: Asked) -> Case {
        let expected = asked.outcome();
        Case { asked, expected }
    }
}
