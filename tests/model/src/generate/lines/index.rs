//! Words and totals, as a text has them and as none has them.

use super::text::text;
use crate::lines::{build, words_of};
use crate::random::Random;

/// So many words: anything, hardly a bit, or hardly a gap.
pub fn words(random: &mut Random, count: usize) -> Vec<u64> {
    let kind = random.below(6);
    let word = |_| match kind {
        0..=1 => random.bits(),
        2 => random.bits() & random.bits() & random.bits() & random.bits(),
        3 => 1 << random.below(64),
        4 => random.pick(&[0, 0, 1, 1 << 63, u64::MAX]),
        _ => u64::MAX - (random.below(2) << random.below(64)) as u64,
    };
    (0..count).map(word).collect()
}

/// So many totals: anything, low, equal, falling, rising, or close to the highest.
pub fn totals(random: &mut Random, count: usize) -> Vec<u32> {
    let kind = random.below(8);
    let few = random.pick(&[4, 130]);
    let mut last = match kind {
        0..=1 => random.below(200) as u32,
        2 => u32::MAX - random.below(3) as u32,
        _ => random.bits() as u32,
    };
    let total = |_| {
        match kind {
            0 | 2 => {}
            1 | 3 => last = last.saturating_add(random.below(66) as u32),
            4 => last = last.saturating_sub(random.below(66) as u32),
            5 => last = random.below(few) as u32,
            6 => last = u32::MAX - random.below(70) as u32,
            _ => last = random.bits() as u32,
        }
        last
    };
    (0..count).map(total).collect()
}

/// Any index.
pub fn any(random: &mut Random, words: usize, totals: usize) -> (Vec<u64>, Vec<u32>) {
    (self::words(random, words), self::totals(random, totals))
}

/// The index of a text of this length, as far as it is lent, seldom with one word or total changed.
/// Behind it stands anything.
pub fn made(
    random: &mut Random,
    length: usize,
    words: usize,
    totals: usize,
) -> (Vec<u64>, Vec<u32>) {
    let own = words_of(length);
    let (mut made, mut before) = any(random, words.max(own), totals.max(own));
    build(&text(random, length), &mut made, &mut before);
    match random.below(12) {
        0 => made[random.below(own)] ^= 1 << random.below(64),
        1 => before[random.below(own)] = random.below(200) as u32,
        _ => {}
    }
    made.truncate(words);
    before.truncate(totals);
    (made, before)
}
