//! Ways of a place whose line is asked.

use super::lent::Lent;
use crate::lines::case::Case;
use crate::LIMIT;

pub struct Line<'a> {
    lent: Lent<'a>,
    place: usize,
    number: u32,
    line: u64,
}

impl<'a> Line<'a> {
    pub fn of(case: &'a Case, place: usize) -> Line<'a> {
        Line {
            lent: Lent::of(case),
            place,
            number: case.expected.answer.number(),
            line: case.expected.answer.value(),
        }
    }

    fn good(&self) -> bool {
        self.number == 0
    }

    fn beyond(&self) -> bool {
        self.place > self.lent.length
    }

    /// Which of 30, 33 and 31 would hold, each by itself.
    fn hold(&self, [too_long, short, beyond]: [bool; 3]) -> bool {
        self.lent.too_long() == too_long && self.lent.short() == short && self.beyond() == beyond
    }

    /// 33 alone, with so many words and totals missing.
    fn short(&self, missing: [usize; 2]) -> bool {
        self.hold([false, true, false]) && self.lent.missing() == missing
    }

    /// 31 alone.
    fn only_beyond(&self) -> bool {
        self.hold([false, false, true])
    }

    /// Good, and at this bit of its word.
    fn at_bit(&self, at: usize) -> bool {
        self.good() && self.place % 64 == at
    }

    /// Good, and one of these bits of its word is set.
    fn any_bit(&self, mut bits: std::ops::Range<usize>) -> bool {
        self.good() && bits.any(|at| self.lent.bit(self.place / 64, at))
    }

    /// The newlines in the words before its own.
    fn newlines_before(&self) -> u64 {
        (0..self.place / 64)
            .map(|word| self.lent.newlines(word))
            .sum()
    }
}

type Way = (&'static str, fn(&Line) -> bool);

pub const WAYS: &[Way] = &[
    ("line: 30", |l| l.hold([true, false, false])),
    ("line: 30 and 33", |l| l.hold([true, true, false])),
    ("line: 30 and 31", |l| l.hold([true, false, true])),
    ("line: 30, 33 and 31", |l| l.hold([true, true, true])),
    ("line: 30 but for 32 bits", |l| {
        l.lent.long_but_for_32_bits()
    }),
    ("line: 33, a word", |l| l.short([1, 0])),
    ("line: 33, a total", |l| l.short([0, 1])),
    ("line: 33, one of both", |l| l.short([1, 1])),
    ("line: 33, all words", |l| l.short([l.lent.own(), 0])),
    ("line: 33, all totals", |l| l.short([0, l.lent.own()])),
    ("line: 33 and 31", |l| l.hold([false, true, true])),
    ("line: 33 though its word is lent", |l| {
        l.hold([false, true, false]) && l.place / 64 < l.lent.pairs()
    }),
    ("line: 31 by one", |l| {
        l.only_beyond() && l.place == l.lent.length + 1
    }),
    ("line: 31 in the last word", |l| {
        l.only_beyond() && l.place / 64 < l.lent.own()
    }),
    ("line: 31 in a word behind", |l| {
        l.only_beyond() && (l.lent.own()..l.lent.pairs()).contains(&(l.place / 64))
    }),
    ("line: 31 but for 32 bits", |l| {
        l.only_beyond() && l.place as u32 as usize <= l.lent.length
    }),
    ("line: 31, the highest place", |l| {
        l.only_beyond() && l.place == usize::MAX
    }),
    ("line: of no text", |l| l.good() && l.lent.length == 0),
    ("line: the first place", |l| l.good() && l.place == 0),
    ("line: the first place, a total", |l| {
        l.good() && l.place == 0 && l.line > 1
    }),
    ("line: the end", |l| l.good() && l.place == l.lent.length),
    ("line: the end, in a word of its own", |l| {
        l.at_bit(0) && l.place > 0 && l.place == l.lent.length
    }),
    ("line: the end of 65,536", |l| l.good() && l.place == LIMIT),
    ("line: a lowest bit", |l| l.at_bit(0) && l.place > 0),
    ("line: a second bit", |l| l.at_bit(1)),
    ("line: a highest bit", |l| l.at_bit(63)),
    ("line: of a newline", |l| {
        l.any_bit(l.place % 64..l.place % 64 + 1)
    }),
    ("line: behind a newline", |l| {
        l.good() && l.place > 0 && l.lent.newline_at(l.place - 1)
    }),
    ("line: behind a newline of the word before", |l| {
        l.at_bit(0) && l.place > 0 && l.lent.newline_at(l.place - 1)
    }),
    ("line: bits below", |l| l.any_bit(0..l.place % 64)),
    ("line: bits above", |l| l.any_bit(l.place % 64 + 1..64)),
    ("line: 63 bits below", |l| {
        l.at_bit(63) && (0..63).all(|at| l.lent.bit(l.place / 64, at))
    }),
    ("line: an index that was made", |l| {
        l.good() && l.lent.made()
    }),
    ("line: an index that was made, above 16 bits", |l| {
        l.good() && l.lent.made() && l.line > 65_535
    }),
    ("line: a total that no text has", |l| {
        l.good() && u64::from(l.lent.totals[l.place / 64]) != l.newlines_before()
    }),
    ("line: bits behind the text", |l| {
        l.good() && l.lent.set_behind_text()
    }),
    ("line: words behind", |l| l.good() && l.lent.behind()[0] > 0),
    ("line: totals behind", |l| {
        l.good() && l.lent.behind()[1] > 0
    }),
    ("line: 2^32 - 1", |l| l.line == (1 << 32) - 1),
    ("line: 2^32", |l| l.line == 1 << 32),
    ("line: above 2^32", |l| l.line > 1 << 32),
];
