//! Ways of an index that is built.

use super::lent::Lent;
use crate::lines::case::Case;
use crate::lines::{Answer, NEWLINE};
use crate::LIMIT;

pub struct Build<'a> {
    lent: Lent<'a>,
    text: &'a [u8],
    case: &'a Case,
}

impl<'a> Build<'a> {
    pub fn of(case: &'a Case, text: &'a [u8]) -> Build<'a> {
        Build {
            lent: Lent::of(case),
            text,
            case,
        }
    }

    fn good(&self) -> bool {
        self.case.expected.answer == Answer::Good(0)
    }

    /// 33, with so many words and totals missing.
    fn short(&self, missing: [usize; 2]) -> bool {
        !self.lent.too_long() && self.lent.missing() == missing
    }

    /// Good, and a newline has this bit of a word.
    fn newline_in_bit(&self, at: usize) -> bool {
        self.good() && self.text.iter().skip(at).step_by(64).any(is_newline)
    }

    /// Good, and one of these bytes is in the text.
    fn has(&self, bytes: &[u8]) -> bool {
        self.good() && self.text.iter().any(|byte| bytes.contains(byte))
    }

    /// Good, and the last total is above this.
    fn total_above(&self, bound: u32) -> bool {
        self.good() && self.case.expected.totals[self.lent.own() - 1] > bound
    }
}

fn is_newline(byte: &u8) -> bool {
    *byte == NEWLINE
}

/// Newlines but for one bit.
const NEAR_NEWLINE: [u8; 8] = [11, 8, 14, 2, 26, 42, 74, 138];

type Way = (&'static str, fn(&Build) -> bool);

pub const WAYS: &[Way] = &[
    ("build: no text", |b| b.good() && b.text.is_empty()),
    ("build: only newlines", |b| {
        b.good() && !b.text.is_empty() && b.text.iter().all(is_newline)
    }),
    ("build: no newline", |b| {
        b.good() && !b.text.is_empty() && !b.text.iter().any(is_newline)
    }),
    ("build: a last newline", |b| {
        b.good() && b.text.last() == Some(&NEWLINE)
    }),
    ("build: a carriage return", |b| b.has(b"\r")),
    ("build: a newline but for one bit", |b| b.has(&NEAR_NEWLINE)),
    ("build: newline in a lowest bit", |b| b.newline_in_bit(0)),
    ("build: newline in a highest bit", |b| b.newline_in_bit(63)),
    ("build: newlines on both sides of a border", |b| {
        b.good()
            && (64..b.text.len())
                .step_by(64)
                .any(|at| b.text[at - 1..=at].iter().all(is_newline))
    }),
    ("build: 63 bytes in the last word", |b| {
        b.good() && b.text.len() % 64 == 63
    }),
    ("build: a last word without a byte", |b| {
        b.good() && !b.text.is_empty() && b.text.len().is_multiple_of(64)
    }),
    ("build: one byte in the last word", |b| {
        b.good() && b.text.len() > 64 && b.text.len() % 64 == 1
    }),
    ("build: 65,536 bytes", |b| b.good() && b.text.len() == LIMIT),
    ("build: a total above 8 bits", |b| b.total_above(255)),
    ("build: a total above 16 bits", |b| b.total_above(65_535)),
    ("build: exact room", |b| {
        b.good() && b.lent.behind() == [0, 0]
    }),
    ("build: more words", |b| {
        b.good() && b.lent.behind()[0] > 0 && b.lent.behind()[1] == 0
    }),
    ("build: more totals", |b| {
        b.good() && b.lent.behind()[0] == 0 && b.lent.behind()[1] > 0
    }),
    ("build: more of both", |b| {
        b.good() && b.lent.behind()[0] > 0 && b.lent.behind()[1] > 0
    }),
    ("build: old bits behind the text", |b| {
        b.good() && b.lent.set_behind_text()
    }),
    ("build: an old first total", |b| {
        b.good() && b.lent.totals[0] != 0
    }),
    ("build: 30", |b| b.lent.too_long() && !b.lent.short()),
    ("build: 30 by one", |b| b.text.len() == LIMIT + 1),
    ("build: 30 by more words", |b| {
        b.lent.too_long() && b.lent.own() > LIMIT / 64 + 1
    }),
    ("build: 30 and 33", |b| b.lent.too_long() && b.lent.short()),
    ("build: 33, a word", |b| b.short([1, 0])),
    ("build: 33, a total", |b| b.short([0, 1])),
    ("build: 33, one of both", |b| b.short([1, 1])),
    ("build: 33, all words", |b| b.short([b.lent.own(), 0])),
    ("build: 33, all totals", |b| b.short([0, b.lent.own()])),
    ("build: 33, more totals", |b| {
        b.short([1, 0]) && b.lent.behind()[1] > 0
    }),
    ("build: 33, more words", |b| {
        b.short([0, 1]) && b.lent.behind()[0] > 0
    }),
    ("build: 33, the word without a byte", |b| {
        b.short([1, 0]) && !b.text.is_empty() && b.text.len().is_multiple_of(64)
    }),
    ("build: 33, the total without a byte", |b| {
        b.short([0, 1]) && !b.text.is_empty() && b.text.len().is_multiple_of(64)
    }),
    ("build: 33, 65,536 bytes", |b| {
        b.short([1, 0]) && b.text.len() == LIMIT
    }),
];
