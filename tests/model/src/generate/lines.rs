//! Random cases of the index of lines, from a seed: texts, lent words and totals, indexes that were
//! made and indexes that no text has, places and lines. They are made to reach every way of request
//! 6 of 02.

mod index;
mod text;

use crate::lines::case::{Asked, Case};
use crate::lines::{bit, words_of};
use crate::random::Random;
use crate::LIMIT;

/// Above all that 32 bits hold.
const ABOVE_32: u64 = 1 << 32;

/// Makes a case.
pub fn case(random: &mut Random) -> Case {
    match random.below(6) {
        0..=1 => build(random),
        2..=3 => line(random),
        _ => start(random),
    }
}

fn build(random: &mut Random) -> Case {
    let length = text_length(random);
    let text = text::text(random, length);
    let [words, totals] = lent(random, length);
    let words = index::words(random, words);
    let totals = index::totals(random, totals);
    Case::new(Asked::Build(text), words, totals)
}

fn line(random: &mut Random) -> Case {
    let length = length(random);
    let (words, totals) = index(random, length);
    let place = place(random, length);
    Case::new(Asked::Line { length, place }, words, totals)
}

fn start(random: &mut Random) -> Case {
    let length = length(random);
    let (words, totals) = index(random, length);
    let line = line_number(random, length, &words, &totals);
    Case::new(Asked::Start { length, line }, words, totals)
}

/// The length of a text, mostly short.
fn text_length(random: &mut Random) -> usize {
    match random.below(25) {
        0..=1 => 0,
        2..=6 => random.below(14),
        7..=8 => random.below(300),
        9..=17 => 64 * random.between(1, 4) + random.between(0, 2) - 1,
        18 => random.below(LIMIT),
        19 => LIMIT - random.below(130),
        20..=22 => LIMIT,
        _ => LIMIT + random.pick(&[1, 2, 63, 64, 65, 1_000, LIMIT]),
    }
}

/// The length of a text that is not at hand.
fn length(random: &mut Random) -> usize {
    match random.below(40) {
        0 => usize::MAX - random.below(2),
        1..=2 => ABOVE_32 as usize + random.pick(&[0, 1, 64, LIMIT, LIMIT + 1]),
        _ => text_length(random),
    }
}

/// How many words and totals are lent, for a text of this length: mostly as many as it needs.
fn lent(random: &mut Random, length: usize) -> [usize; 2] {
    let own = words_of(length).min(words_of(2 * LIMIT));
    let kind = random.below(12);
    [(); 2].map(|()| match kind {
        0..=3 => own,
        4..=5 => own + random.between(1, 4),
        6..=7 => own + random.below(3),
        _ => random.pick(&[0, own / 2, own - 1, own - 1, own, own, own + 1, own + 4]),
    })
}

/// An index as it is lent, one that was made or any other.
fn index(random: &mut Random, length: usize) -> (Vec<u64>, Vec<u32>) {
    let [words, totals] = lent(random, length);
    if random.chance(40) {
        index::made(random, length.min(LIMIT), words, totals)
    } else {
        index::any(random, words, totals)
    }
}

/// A place, mostly in the text.
fn place(random: &mut Random, length: usize) -> usize {
    let behind = length.saturating_add(random.between(2, 200));
    let within = random.between(0, length.min(usize::MAX - 1));
    match random.below(20) {
        0..=1 => 0,
        2..=4 => length,
        5..=8 if length >= LIMIT => length,
        9 => length.saturating_add(1),
        10 => behind,
        11 => ABOVE_32 as usize + within.min(LIMIT),
        12 => ABOVE_32 as usize - random.below(2),
        13 => usize::MAX - random.below(2),
        5..=8 | 14..=15 => within / 64 * 64 + random.pick(&[0, 1, 62, 63, 63]),
        _ => within,
    }
}

/// A line, often one that the index has, or nearly.
fn line_number(random: &mut Random, length: usize, words: &[u64], totals: &[u32]) -> u64 {
    let pairs = words.len().min(totals.len());
    match random.below(24) {
        0..=2 => 0,
        3..=4 => 1,
        5 => random.below(70) as u64,
        6 => ABOVE_32 + random.below(70) as u64,
        7 => ABOVE_32 - random.below(3) as u64,
        8 => u64::MAX - random.below(3) as u64,
        9 => ABOVE_32 << random.below(32),
        _ if pairs == 0 => random.below(3) as u64,
        10..=15 => {
            last_line(words, totals, words_of(length).min(pairs) - 1) + random.below(2) as u64
        }
        _ => near(random, words, totals, pairs),
    }
}

/// The last line of a word.
fn last_line(words: &[u64], totals: &[u32], word: usize) -> u64 {
    u64::from(totals[word]) + newlines(words[word]) + 1
}

/// A line that some word may have.
fn near(random: &mut Random, words: &[u64], totals: &[u32], pairs: usize) -> u64 {
    let word = random.below(pairs);
    let total = u64::from(totals[word]) + 1;
    match random.below(10) {
        0..=3 if total > ABOVE_32 - 70 => ABOVE_32 + random.below(2) as u64,
        0 => total + random.below(66) as u64,
        1 => total + 65,
        2 => total,
        3 => last_line(words, totals, word) + 1,
        _ => total + random.between(0, newlines(words[word]) as usize) as u64,
    }
}

fn newlines(word: u64) -> u64 {
    (0..64).map(|at| u64::from(bit(word, at))).sum()
}

#[cfg(test)]
mod tests {
    use super::*;
    use crate::generate::tests::go_by_the_seed;

    #[test]
    fn cases_go_by_the_seed() {
        go_by_the_seed(case);
    }
}
