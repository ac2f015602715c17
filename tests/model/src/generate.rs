//! Random texts with sets and settings, from a seed. They are made to reach every macro and every
//! answer of 01, and every way of a plain word, of a last comment, of a set, of a copy and of a history
//! of 02. Cases of the index of lines are made in [`lines`], those of the sheet in [`sheets`].
//!
//! A text comes from a grammar of plausible pieces ([`writer`]), from a scenario with a purpose
//! ([`scenarios`], [`bare`], [`last`], [`copies`], [`diversions`], [`heavy`], [`buckets`]), from the table
//! of vectors, or is a soup of words; then some of its bytes may be changed ([`mutate`]). Most texts get
//! a set without items; others are made for theirs ([`included`], [`sets`]).

mod bare;
pub mod buckets;
pub mod comments;
mod copies;
pub mod diversions;
mod expressions;
mod heavy;
mod included;
mod last;
pub mod lines;
mod marks;
mod mutate;
pub mod names;
mod pairs;
mod scenarios;
pub mod sets;
pub mod setting;
pub mod sheets;
mod words;
mod writer;

use crate::answer::Setting;
use crate::random::Random;
use crate::table;
use crate::{LIMIT, NO_ITEMS};
pub use pairs::{pair, Pair};
use std::sync::OnceLock;
use writer::Writer;

/// A text and the set from which it may include.
#[derive(Clone, Debug, PartialEq, Eq)]
pub struct Input {
    pub text: Vec<u8>,
    pub set: Vec<u8>,
}

/// A text with its set and the setting to expand it with.
#[derive(Clone, Debug, PartialEq, Eq)]
pub struct Case {
    pub text: Vec<u8>,
    pub set: Vec<u8>,
    pub setting: Setting,
}

/// How much time a case may take.
#[derive(Clone, Copy, Debug, PartialEq, Eq)]
pub enum Scale {
    /// Mostly short texts and at most a few thousand steps, for judges that take long for each.
    Small,
    /// Up to the longest texts and hundreds of thousands of steps.
    Full,
}

/// Makes a case. The text is tried once with ample room, so that a setting can lie close to what it
/// needs.
pub fn case(random: &mut Random, scale: Scale) -> Case {
    let input = input(random, scale);
    let setting = setting::choose(random, &input, scale);
    let Input { text, set } = input;
    Case { text, set, setting }
}

/// Makes a text with its set.
pub fn input(random: &mut Random, scale: Scale) -> Input {
    match random.below(100) {
        0..=1 => row_with_items(random),
        2..=24 => included::input(random, scale),
        _ => Input {
            text: text(random, scale),
            set: NO_ITEMS.to_vec(),
        },
    }
}

/// The most definitions of a table among other texts.
const SOME: usize = 60;

/// Makes a text, most of them short.
pub fn text(random: &mut Random, scale: Scale) -> Vec<u8> {
    let mut text = match random.below(1_000) {
        0 => return heavy::overlong(random),
        1..=5 if scale == Scale::Full => heavy::heavy(random),
        6..=10 if scale == Scale::Full => buckets::tables(random, SOME),
        _ => plausible(random, scale),
    };
    if random.chance(20) {
        mutate::mutate(random, &mut text, scale);
    }
    text.truncate(LIMIT + 40_000);
    text
}

/// A text as it comes from its source.
fn plausible(random: &mut Random, scale: Scale) -> Vec<u8> {
    match random.below(100) {
        0..=24 => written(random, scale),
        25..=27 => diversions::diversions(random, scale),
        28..=42 => last::last(random),
        43..=61 => scenarios::scenario(random),
        62..=76 => bare::bare(random),
        77..=92 => copies::copies(random, scale),
        93..=96 => from_vectors(random),
        _ => soup(random),
    }
}

/// Pieces of the grammar, sometimes behind or before a scenario.
fn written(random: &mut Random, scale: Scale) -> Vec<u8> {
    let wild = random.pick(&[0, 0, 0, 0, 1, 2, 2, 6, 15]);
    let length = length(random, scale);
    let mut text = Vec::new();
    if random.chance(10) {
        text = scenarios::scenario(random);
    }
    text.extend(Writer::new(random, wild).text(length));
    if random.chance(8) {
        text.extend(scenarios::scenario(random));
    }
    text
}

/// About how long a text of pieces becomes.
fn length(random: &mut Random, scale: Scale) -> usize {
    match (random.below(60), scale) {
        (0, Scale::Full) => random.between(1_000, 6_000),
        (1..=2, _) | (3..=8, Scale::Full) => random.between(200, 800),
        (_, Scale::Full) => random.between(5, 200),
        (_, Scale::Small) => random.between(5, 60),
    }
}

/// The lines of tests/vectors.tsv, but for long texts and sets.
fn vectors() -> &'static [Input] {
    static ROWS: OnceLock<Vec<Input>> = OnceLock::new();
    ROWS.get_or_init(|| {
        let table = include_str!("../../vectors.tsv");
        let rows = table
            .lines()
            .filter(|line| !line.starts_with('#'))
            .map(table::read);
        rows.map(|row| row.expect("a line of vectors"))
            .filter(|row| row.text.len() < 1_000 && row.set.len() < 1_000)
            .map(|table::Row { text, set, .. }| Input { text, set })
            .collect()
    })
}

/// A text of tests/vectors.tsv, or two of them joined.
fn from_vectors(random: &mut Random) -> Vec<u8> {
    let rows = vectors();
    let mut text = rows[random.below(rows.len())].text.clone();
    if random.chance(40) {
        text.extend(&rows[random.below(rows.len())].text);
    }
    text
}

/// A line of tests/vectors.tsv with a set of its own.
fn row_with_items(random: &mut Random) -> Input {
    let rows: Vec<&Input> = vectors().iter().filter(|row| row.set != NO_ITEMS).collect();
    random.pick(&rows).clone()
}

/// Names, marks, numbers and odd bytes without any order.
fn soup(random: &mut Random) -> Vec<u8> {
    let count = random.between(1, 60);
    (0..count).flat_map(|_| words::any(random)).collect()
}

#[cfg(test)]
mod tests {
    use super::*;

    /// A seed always gives the same cases, and another seed others. A failure does not print them.
    pub fn go_by_the_seed<T: PartialEq>(case: fn(&mut Random) -> T) {
        let cases = |seed| {
            let mut random = Random::new(seed);
            (0..50).map(|_| case(&mut random)).collect::<Vec<T>>()
        };
        assert!(cases(7) == cases(7));
        assert!(cases(7) != cases(8));
    }

    #[test]
    fn cases_go_by_the_seed() {
        go_by_the_seed(|random| case(random, Scale::Small));
        go_by_the_seed(|random| case(random, Scale::Full));
    }
}
