//! Ways of a line whose start is asked.

use super::lent::Lent;
use crate::lines::case::Case;
use crate::LIMIT;

pub struct Start<'a> {
    lent: Lent<'a>,
    line: u64,
    number: u32,
    start: u64,
    /// Where it is sought among the words of the index that are lent.
    sought: Option<usize>,
}

impl<'a> Start<'a> {
    pub fn of(case: &'a Case, line: u64) -> Start<'a> {
        let lent = Lent::of(case);
        let sought = last_below(&lent.totals[..lent.own_pairs()], i128::from(line) - 1);
        Start {
            lent,
            line,
            number: case.expected.answer.number(),
            start: case.expected.answer.value(),
            sought,
        }
    }

    fn good(&self) -> bool {
        self.number == 0
    }

    /// Good, and sought.
    fn found(&self) -> bool {
        self.good() && self.line > 1
    }

    /// n - 1.
    fn before(&self) -> i128 {
        i128::from(self.line) - 1
    }

    fn total(&self, word: usize) -> i128 {
        i128::from(self.lent.totals[word])
    }

    /// The start in this word of the line that this many newlines end before; None if its total is
    /// not below or its bits run short.
    fn start_in(&self, word: usize, before: i128) -> Option<u64> {
        let set = (0..64).filter(|&at| self.lent.bit(word, at));
        let mut numbered = set.zip(self.total(word) + 1..);
        let (at, _) = numbered.find(|&(_, number)| number == before)?;
        Some((64 * word + at + 1) as u64)
    }

    /// What a search through the first words answers.
    fn search(&self, words: usize, line: i128) -> Option<u64> {
        if line == 1 {
            return Some(0);
        }
        let word = last_below(&self.lent.totals[..words], line - 1)?;
        self.start_in(word, line - 1)
    }

    /// What the index answers, as far as it is lent.
    fn answer(&self) -> Option<u64> {
        self.search(self.lent.own_pairs(), i128::from(self.line))
    }

    /// What it answers to the line's number cut to 32 bits.
    fn answer_in_32_bits(&self) -> Option<u64> {
        self.search(self.lent.own_pairs(), i128::from(self.line as u32))
    }

    /// Which of 30, 33 and 32 would hold, each by itself.
    fn hold(&self, [too_long, short, none]: [bool; 3]) -> bool {
        self.lent.too_long() == too_long
            && self.lent.short() == short
            && self.answer().is_none() == none
    }

    /// 33, with so many words and totals missing.
    fn short(&self, missing: [usize; 2]) -> bool {
        !self.lent.too_long() && self.lent.missing() == missing
    }

    /// 32 alone.
    fn no_line(&self) -> bool {
        self.number == 32
    }

    /// 32, because the bits of this word run short.
    fn ran_short(&self, of: impl Fn(usize) -> bool) -> bool {
        self.no_line() && self.sought.is_some_and(of)
    }

    /// Found in a word of which this holds.
    fn found_in(&self, of: impl Fn(usize) -> bool) -> bool {
        self.found() && self.sought.is_some_and(of)
    }

    /// An earlier word has a total below and bits enough.
    fn earlier_has(&self, word: usize) -> bool {
        (0..word).any(|earlier| self.start_in(earlier, self.before()).is_some())
    }

    /// The words lent behind the index's own would answer otherwise.
    fn behind_differs(&self) -> bool {
        self.search(self.lent.pairs(), i128::from(self.line)) != self.answer()
    }

    /// Halving rising totals would end in another word.
    fn halving_differs(&self) -> bool {
        let own = &self.lent.totals[..self.lent.own_pairs()];
        let below = own.partition_point(|&total| i128::from(total) < self.before());
        below.checked_sub(1) != self.sought
    }

    /// The last line of an index that was made, with this many added.
    fn made_last(&self, more: u64) -> bool {
        let last = self.lent.own() - 1;
        self.lent.made()
            && self.line == u64::from(self.lent.totals[last]) + self.lent.newlines(last) + 1 + more
    }
}

/// The last total below a number.
fn last_below(totals: &[u32], number: i128) -> Option<usize> {
    totals.iter().rposition(|&total| i128::from(total) < number)
}

type Way = (&'static str, fn(&Start) -> bool);

pub const WAYS: &[Way] = &[
    ("start: 30", |s| s.hold([true, false, false])),
    ("start: 30 and 33", |s| s.hold([true, true, false])),
    ("start: 30 and 32", |s| s.hold([true, false, true])),
    ("start: 30, 33 and 32", |s| s.hold([true, true, true])),
    ("start: 30, line 1", |s| s.number == 30 && s.line == 1),
    ("start: 30 but for 32 bits", |s| {
        s.lent.long_but_for_32_bits()
    }),
    ("start: 33, a word", |s| s.short([1, 0])),
    ("start: 33, a total", |s| s.short([0, 1])),
    ("start: 33, one of both", |s| s.short([1, 1])),
    ("start: 33, all words", |s| s.short([s.lent.own(), 0])),
    ("start: 33, all totals", |s| s.short([0, s.lent.own()])),
    ("start: 33 and 32", |s| s.hold([false, true, true])),
    ("start: 33, line 0", |s| s.number == 33 && s.line == 0),
    ("start: 33, line 1", |s| s.number == 33 && s.line == 1),
    ("start: 33 though a word lent has it", |s| {
        s.hold([false, true, false]) && s.line > 1
    }),
    ("start: 32, line 0", |s| s.no_line() && s.line == 0),
    ("start: 32, line 0, answered if n - 1 wraps", |s| {
        s.no_line() && s.line == 0 && s.search(s.lent.own(), 1 << 32).is_some()
    }),
    ("start: 32, no word below", |s| {
        s.no_line() && s.line > 1 && s.sought.is_none()
    }),
    ("start: 32, the only word runs short", |s| {
        s.ran_short(|_| s.lent.own() == 1)
    }),
    ("start: 32, the last word runs short", |s| {
        s.ran_short(|word| word > 0 && word + 1 == s.lent.own())
    }),
    ("start: 32, a word before the last runs short", |s| {
        s.ran_short(|word| word + 1 < s.lent.own())
    }),
    ("start: 32, a word without bits", |s| {
        s.ran_short(|word| s.lent.words[word] == 0)
    }),
    ("start: 32, short by one bit", |s| {
        s.ran_short(|word| {
            s.lent.newlines(word) > 0
                && s.total(word) + i128::from(s.lent.newlines(word)) + 1 == s.before()
        })
    }),
    ("start: 32, short by one of 65 bits", |s| {
        s.ran_short(|word| s.total(word) + 65 == s.before() && s.lent.newlines(word) == 64)
    }),
    ("start: 32 though an earlier word has it", |s| {
        s.ran_short(|word| s.earlier_has(word))
    }),
    ("start: 32 though a word behind has it", |s| {
        s.no_line() && s.behind_differs()
    }),
    ("start: 32, one past the last", |s| {
        s.no_line() && s.made_last(1)
    }),
    ("start: 32 but for 32 bits", |s| {
        s.no_line() && s.answer_in_32_bits().is_some()
    }),
    ("start: 32, the highest line", |s| {
        s.no_line() && s.line == u64::MAX
    }),
    ("start: line 1", |s| s.good() && s.line == 1),
    ("start: line 1, no total below", |s| {
        s.good() && s.line == 1 && s.lent.totals[0] > 0
    }),
    ("start: line 1 of no text", |s| {
        s.good() && s.line == 1 && s.lent.length == 0
    }),
    ("start: line 2", |s| s.good() && s.line == 2),
    ("start: in the only word", |s| {
        s.found_in(|_| s.lent.own() == 1)
    }),
    ("start: in the first of several", |s| {
        s.found_in(|word| word == 0 && s.lent.own() > 1)
    }),
    ("start: in a middle word", |s| {
        s.found_in(|word| word > 0 && word + 1 < s.lent.own())
    }),
    ("start: in the last of several", |s| {
        s.found_in(|word| word > 0 && word + 1 == s.lent.own())
    }),
    ("start: an earlier word has it too", |s| {
        s.found_in(|word| s.earlier_has(word))
    }),
    ("start: an earlier total is not below", |s| {
        s.found_in(|word| (0..word).any(|earlier| s.total(earlier) >= s.before()))
    }),
    ("start: halving would not find it", |s| {
        s.found() && s.halving_differs()
    }),
    ("start: equal totals, the later word", |s| {
        s.found_in(|word| word > 0 && s.total(word - 1) == s.total(word))
    }),
    ("start: the next total is n - 1", |s| {
        s.found_in(|word| word + 1 < s.lent.own() && s.total(word + 1) == s.before())
    }),
    ("start: a total of n - 1 before it", |s| {
        s.found_in(|word| (0..word).any(|earlier| s.total(earlier) == s.before()))
    }),
    ("start: behind a lowest bit", |s| {
        s.found() && s.start % 64 == 1
    }),
    ("start: behind a highest bit", |s| {
        s.found() && s.start.is_multiple_of(64)
    }),
    ("start: behind a word's first newline", |s| {
        s.found_in(|word| s.before() == s.total(word) + 1)
    }),
    ("start: behind a word's second newline", |s| {
        s.found_in(|word| s.before() == s.total(word) + 2)
    }),
    ("start: behind a word's 64th newline", |s| {
        s.found_in(|word| s.before() == s.total(word) + 64)
    }),
    ("start: the end of the text", |s| {
        s.found() && s.start == s.lent.length as u64
    }),
    ("start: beyond the text", |s| {
        s.found() && s.start > s.lent.length as u64
    }),
    ("start: 65,536", |s| s.found() && s.start == LIMIT as u64),
    ("start: beyond 65,536", |s| {
        s.found() && s.start > LIMIT as u64
    }),
    ("start: an index that was made", |s| {
        s.found() && s.lent.made()
    }),
    ("start: the last line", |s| s.found() && s.made_last(0)),
    ("start: the last line, empty", |s| {
        s.found() && s.made_last(0) && s.start == s.lent.length as u64
    }),
    ("start: words behind would answer otherwise", |s| {
        s.found() && s.behind_differs()
    }),
    ("start: n - 1 is 2^32 - 1", |s| {
        s.found() && s.before() == (1 << 32) - 1
    }),
    ("start: n - 1 is 2^32 or above", |s| {
        s.found() && s.before() >= 1 << 32
    }),
    ("start: other in 32 bits", |s| {
        s.found() && s.answer_in_32_bits() != Some(s.start)
    }),
];
