//! Cases for valgrind, in blocks of the heap of just their length. What no function may look at is
//! not defined: words and totals that are to be built, and for the line of a place all but one of
//! each. So are those behind an index, and all where the answer is refused without a look at them.

use super::archive::{
    call, given, lengths, totals_bytes, words_bytes, TEXT, TOTAL, TOTALS, VALUE, WORD, WORDS,
};
use super::{case, tell};
use crate::memcheck::Blocks;
use model::lines::case::{Asked, Case};
use model::lines::{words_of, Answer};
use std::ops::Range;

/// After so many disagreements a run stops.
const PATIENCE: usize = 3;

/// Runs `count` random cases from number `first` on. By mistake, some look at a word that is not
/// defined: valgrind must find it.
pub fn random_cases(seed: u64, count: u64, first: u64, mistaken: bool) -> bool {
    let failing = (first..first + count).filter(|&index| !agrees(&case(seed, index).0, mistaken));
    let failing: Vec<u64> = failing.take(PATIENCE).collect();
    let what = "not as expected under valgrind";
    for &index in &failing {
        tell("lines-memcheck", seed, index, what);
    }
    failing.is_empty()
}

fn agrees(case: &Case, mistaken: bool) -> bool {
    let blocks = Blocks::new(lengths(case));
    let [(_, text), (_, words), (_, totals)] = given(case);
    let Range { start, end } = looked_at(case);
    blocks.fill(TEXT, 0, &text);
    blocks.fill(WORDS, start * WORD, &words[start * WORD..end * WORD]);
    blocks.fill(TOTALS, start * TOTAL, &totals[start * TOTAL..end * TOTAL]);
    if mistaken && start > 0 {
        blocks.look_at(WORDS, (start - 1) * WORD);
    }
    // SAFETY: the blocks are as long as is said and aligned as malloc does.
    let returned = unsafe { call(&case.asked, &blocks.0) };
    let (answer, written) = (case.expected.answer, written(case));
    let value = match case.asked {
        Asked::Build(_) => vec![],
        _ => answer.value().to_ne_bytes().to_vec(),
    };
    returned == answer.number()
        && blocks.front(VALUE, value.len()) == value
        && blocks.front(WORDS, written * WORD) == words_bytes(&case.expected.words[..written])
        && blocks.front(TOTALS, written * TOTAL) == totals_bytes(&case.expected.totals[..written])
}

/// The words and totals at which the function may look.
fn looked_at(case: &Case) -> Range<usize> {
    let looks = matches!(case.expected.answer, Answer::Good(_) | Answer::NoSuchLine);
    match case.asked {
        Asked::Line { place, .. } if looks => place / 64..place / 64 + 1,
        Asked::Start { length, .. } if looks => 0..words_of(length),
        _ => 0..0,
    }
}

/// How many words and totals are written.
fn written(case: &Case) -> usize {
    match (&case.asked, case.expected.answer) {
        (Asked::Build(text), Answer::Good(_)) => words_of(text.len()),
        _ => 0,
    }
}
