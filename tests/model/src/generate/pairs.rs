//! Pairs of settings for the letter's third demand.

use super::setting::{close, probe};
use super::{input, Scale};
use crate::answer::Setting;
use crate::random::Random;
use crate::LIMIT;

/// A text with its set and two settings, "none above 65,536 bytes" and "the second nowhere smaller
/// than the first".
#[derive(Clone, Debug)]
pub struct Pair {
    pub text: Vec<u8>,
    pub set: Vec<u8>,
    pub settings: [Setting; 2],
}

/// Makes a pair whose first setting lies close to what the text needs.
pub fn pair(random: &mut Random, scale: Scale) -> Pair {
    let input = input(random, scale);
    let probe = probe(random, &input, scale);
    let mut first = close(random, &probe);
    if first.lengths == [LIMIT; 7] && random.chance(80) {
        // as much as there may be can't grow
        first.lengths = probe.trace.peaks.map(|peak| near(random, peak.min(LIMIT)));
    }
    let second = no_smaller(random, &first, probe.budget);
    Pair {
        text: input.text,
        set: input.set,
        settings: [first, second],
    }
}

/// A length that is enough, a little short, or anything below.
fn near(random: &mut Random, need: usize) -> usize {
    match random.below(12) {
        0 => need.saturating_sub(1),
        1..=2 => random.below(need + 1),
        3 => LIMIT,
        4..=5 => (need + random.below(4)).min(LIMIT),
        _ => need,
    }
}

fn no_smaller(random: &mut Random, first: &Setting, steps: u32) -> Setting {
    let mut second = first.clone();
    let often = random.pick(&[10, 30, 60, 100]);
    for length in &mut second.lengths {
        if random.chance(often) {
            *length = (*length + random.pick(&[1, 1, 2, 10, 1_000, LIMIT])).min(LIMIT);
        }
    }
    if random.chance(often) {
        second.budget = second
            .budget
            .saturating_add(random.pick(&[1, 1, 2, 10, 500, steps]));
    }
    second
}
