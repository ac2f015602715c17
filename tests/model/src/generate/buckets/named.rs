//! Names for a table: many that share a bucket, and others.

use crate::buckets::{bucket_of, sharing, BUCKETS};
use crate::predefined::Predefined;
use crate::random::Random;
use std::collections::HashSet;

/// What the names of a family begin with.
const STEMS: [&str; 8] = [
    "sway_",
    "sway_",
    "sway_x_",
    "S",
    "_",
    "rig",
    "guy_lower_",
    "a0",
];
/// A long name has so many bytes, or a few more.
const LONG: usize = 300;

/// The predefined names, and behind them others in any order, none twice: those up to `first_other` for the
/// tools, and then so many or more.
pub fn names(random: &mut Random, count: usize, first_other: usize) -> Vec<String> {
    let predefined = Predefined::ALL.map(|which| which.name().to_string());
    let mut names: Vec<String> = Vec::new();
    let mut seen: HashSet<String> = predefined.iter().cloned().collect();
    let wanted = first_other - predefined.len() + count;
    while names.len() < wanted {
        let group = group(random, wanted - names.len());
        names.extend(group.into_iter().filter(|name| seen.insert(name.clone())));
    }
    for last in (1..names.len()).rev() {
        names.swap(last, random.below(last + 1));
    }
    predefined.into_iter().chain(names).collect()
}

/// Names of one kind, about so many at most.
fn group(random: &mut Random, most: usize) -> Vec<String> {
    let first = random.below(3_000);
    let stem = random.pick(&STEMS);
    match random.below(9) {
        0..=2 => {
            let bucket = random.below(BUCKETS);
            family(random, bucket, most)
        }
        3..=4 => {
            let which = random.pick(&Predefined::ALL);
            family(random, bucket_of(which.name().as_bytes()), most)
        }
        5 => {
            let count = random.between(1, 60.min(most + 1));
            let stem = format!("{stem}x_");
            (first..first + count)
                .map(|number| format!("{stem}{number}"))
                .collect()
        }
        6 => one_byte(random, most),
        7 => long(random),
        _ => beginning_alike(random),
    }
}

/// Names that share a bucket.
fn family(random: &mut Random, bucket: usize, most: usize) -> Vec<String> {
    let (stem, first) = (random.pick(&STEMS), random.below(3_000));
    let count = random.between(2, 40.min(most + 2));
    sharing(bucket, stem, first, count)
}

fn one_byte(random: &mut Random, most: usize) -> Vec<String> {
    let letters = ('a'..='z').chain('A'..='Z').chain(['_']);
    let skipped = random.below(40);
    letters
        .skip(skipped)
        .take(most + 1)
        .map(String::from)
        .collect()
}

/// Long names that differ in their last bytes alone: some share a bucket, and some may not.
fn long(random: &mut Random) -> Vec<String> {
    let letters = random.bytes(b"abcdefghijklmnopqrstuvwxyz_0123456789", LONG - 3);
    let stem = format!("l{}", String::from_utf8(letters).expect("letters"));
    let mut names = sharing(random.below(BUCKETS), &stem, 100, 3);
    names.extend((10..12).map(|number| format!("{stem}{number}")));
    names
}

/// Names of one bucket of which each begins as the one before does.
fn beginning_alike(random: &mut Random) -> Vec<String> {
    let stem = format!("{}{}_", random.pick(&STEMS), random.below(100));
    let bucket = bucket_of(stem.as_bytes());
    let mut names = vec![stem];
    for _ in 0..3 {
        let longest = names.last().expect("a name");
        names.extend(sharing(bucket, longest, 0, 1));
    }
    names
}
