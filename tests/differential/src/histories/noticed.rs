//! Whether the check of what request 8 says notices what it is there for: outputs of the archive are
//! tampered with, each time the numbers and the bytes alike, so that every byte still has the value of
//! its number.

use super::held;
use crate::arenas::Arenas;
use crate::case::made;
use crate::noticed::SEED;
use model::generate::diversions::finished;
use model::history::{check, Numbers};
use model::random::Random;
use model::Report;
use std::collections::HashMap;

/// How many outputs are tampered with.
const OUTPUTS: u64 = 500;

/// An output and its numbers.
#[derive(Clone)]
struct Written {
    report: Report,
    numbers: Numbers,
}

/// A way of tampering. Gives nothing where it can't be done.
type Tamper = fn(&mut Random, Written) -> Option<Written>;

const TAMPERS: [(&str, Tamper); 7] = [
    ("a changed number", changed),
    ("a number twice", twice),
    ("a missing number", missing),
    ("a swapped pair", swapped),
    ("a lost number", turned_up),
    ("a changed byte", other_byte),
    ("a byte more", more),
];

impl Written {
    fn numbers(&self) -> &[usize] {
        self.numbers.output()
    }

    /// Puts numbers and their values in the output's place.
    fn with(mut self, numbers: Vec<usize>) -> Option<Written> {
        self.numbers.streams[0] = numbers;
        self.report.output = self.numbers.written()?;
        Some(self)
    }

    fn any_place(&self, random: &mut Random) -> Option<usize> {
        let count = self.numbers().len();
        (count > 0).then(|| random.below(count))
    }
}

/// Another number that was given stands in the place of one.
fn changed(random: &mut Random, written: Written) -> Option<Written> {
    let place = written.any_place(random)?;
    let mut numbers = written.numbers().to_vec();
    let other = random.below(written.numbers.bytes.len());
    if other == numbers[place] {
        return None;
    }
    numbers[place] = other;
    written.with(numbers)
}

fn twice(random: &mut Random, written: Written) -> Option<Written> {
    let [place, other] = [written.any_place(random)?, written.any_place(random)?];
    let mut numbers = written.numbers().to_vec();
    numbers.insert(other, numbers[place]);
    written.with(numbers)
}

fn missing(random: &mut Random, written: Written) -> Option<Written> {
    let place = written.any_place(random)?;
    let mut numbers = written.numbers().to_vec();
    numbers.remove(place);
    written.with(numbers)
}

/// Two numbers of one route change places.
fn swapped(_: &mut Random, written: Written) -> Option<Written> {
    let mut numbers = written.numbers().to_vec();
    let routes = written.numbers.routes();
    let mut places = HashMap::new();
    let pair = numbers.iter().enumerate().find_map(|(place, &number)| {
        let before = places.insert(&routes[number], place)?;
        Some((before, place))
    });
    let (one, two) = pair?;
    numbers.swap(one, two);
    written.with(numbers)
}

/// A number that the output must not hold stands there: one that was lost, or that m4exit dropped.
fn turned_up(random: &mut Random, written: Written) -> Option<Written> {
    let mut numbers = written.numbers().to_vec();
    let all = 0..written.numbers.bytes.len();
    let gone: Vec<usize> = all.filter(|number| !numbers.contains(number)).collect();
    if gone.is_empty() {
        return None;
    }
    numbers.insert(random.below(numbers.len() + 1), random.pick(&gone));
    written.with(numbers)
}

/// A byte of the output alone.
fn other_byte(random: &mut Random, mut written: Written) -> Option<Written> {
    let place = written.any_place(random)?;
    written.report.output[place] ^= 1 << random.below(8);
    Some(written)
}

/// A byte without a number.
fn more(random: &mut Random, mut written: Written) -> Option<Written> {
    let byte = written.report.output.last().copied();
    let byte = byte.unwrap_or(random.pick(b"abc"));
    written.report.output.push(byte);
    Some(written)
}

/// Every way of tampering is noticed, and each was tried often enough.
pub fn sentences_noticed() -> bool {
    let mut arenas = Arenas::new();
    let mut tried = [0; TAMPERS.len()];
    for index in 0..OUTPUTS {
        if let Err(what) = try_output(&mut arenas, index, &mut tried) {
            println!("output {index} of seed {SEED}: {what}");
            return false;
        }
    }
    let often = tried.iter().all(|&count| count > OUTPUTS / 10);
    if !often {
        println!("outputs are tampered with {tried:?} times");
    }
    often
}

fn try_output(
    arenas: &mut Arenas,
    index: u64,
    tried: &mut [u64; TAMPERS.len()],
) -> Result<(), String> {
    let mut random = Random::numbered(SEED, index);
    let (_, report, numbers) = held(arenas, &made(SEED, index, finished))?;
    let written = Written { report, numbers };
    for (way, (name, tamper)) in TAMPERS.iter().enumerate() {
        let Some(Written { report, numbers }) = tamper(&mut random, written.clone()) else {
            continue;
        };
        if check(&report, &numbers).is_ok() {
            return Err(format!("{name} is not noticed"));
        }
        tried[way] += 1;
    }
    Ok(())
}
