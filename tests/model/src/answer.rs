//! The setting of a run and how it ends.

use crate::LIMIT;

/// 01: "Its setting is the seven lent lengths and the budget."
#[derive(Clone, Debug, PartialEq, Eq)]
pub struct Setting {
    /// The lengths of pending text, open calls, definitions, streams, wrap text, error text and
    /// output.
    pub lengths: [usize; 7],
    /// The number of steps that may be completed.
    pub budget: u32,
}

impl Setting {
    /// What the program `expand` lends: 65,536 bytes each and budget 16777216.
    pub fn ample() -> Setting {
        Setting {
            lengths: [LIMIT; 7],
            budget: 16_777_216,
        }
    }
}

/// The numbers of an answer and the written bytes. On a refusal nothing is written.
#[derive(Clone, Debug, PartialEq, Eq)]
pub struct Report {
    pub number: u32,
    pub detail: u32,
    pub steps: u32,
    pub place: u32,
    pub output: Vec<u8>,
    pub errors: Vec<u8>,
}

/// What the text may end in. 01: "the text ends in a quote (1), comment (2) or call (3)".
#[derive(Clone, Copy, Debug, PartialEq, Eq)]
pub enum Open {
    Quote,
    Comment,
    Call,
}

/// The answers 2 to 13 of the table in 01, and those that 02 adds for a run.
#[derive(Clone, Copy, Debug, PartialEq, Eq)]
pub enum Refusal {
    Lend,
    Spent,
    /// The number of the buffer that would hold more than its length.
    Room(u32),
    Unclosed(Open),
    Name,
    Number,
    Expression,
    Divisor,
    Mark,
    NoText,
    Gone,
    Deep,
    /// "bad or overlong set"
    BadSet,
    /// "unknown include"
    NoItem,
    /// "the first argument has no definition"
    NoDefinition,
}

/// How many answers there are, from 0 on.
pub const ANSWERS: usize = 17;

impl Refusal {
    /// The first column of the table in 01; request 1 of 02 has 14 and 15, request 7 has 16.
    pub fn number(self) -> u32 {
        match self {
            Refusal::Lend => 2,
            Refusal::Spent => 3,
            Refusal::Room(_) => 4,
            Refusal::Unclosed(_) => 5,
            Refusal::Name => 6,
            Refusal::Number => 7,
            Refusal::Expression => 8,
            Refusal::Divisor => 9,
            Refusal::Mark => 10,
            Refusal::NoText => 11,
            Refusal::Gone => 12,
            Refusal::Deep => 13,
            Refusal::BadSet => 14,
            Refusal::NoItem => 15,
            Refusal::NoDefinition => 16,
        }
    }

    /// The last column of the table in 01; 02: "The detail of a number added here or later is 0 unless
    /// said otherwise."
    pub fn detail(self) -> u32 {
        match self {
            Refusal::Room(buffer) => buffer,
            Refusal::Unclosed(Open::Quote) => 1,
            Refusal::Unclosed(Open::Comment) => 2,
            Refusal::Unclosed(Open::Call) => 3,
            _ => 0,
        }
    }

    /// 01: "On a refusal both stay as lent and both counts are 0."
    pub fn report(self, steps: u32, place: usize) -> Report {
        Report {
            number: self.number(),
            detail: self.detail(),
            steps,
            place: place as u32,
            output: Vec::new(),
            errors: Vec::new(),
        }
    }
}
