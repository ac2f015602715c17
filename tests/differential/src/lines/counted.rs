//! The index against counting through the text: dense and thin texts of all lengths at word borders,
//! and of the longest. Every place and every line is asked; the model has no part in it.

use super::archive::{build, line_of, start_of};
use crate::supervise::try_each;
use model::random::Random;
use model::LIMIT;
use std::fmt::{Debug, Display};
use std::ops::RangeInclusive;

const NEWLINE: u8 = 10;
/// All lengths up to two words, those around other borders of words, and the longest.
const FIRST: RangeInclusive<usize> = 0..=130;
const OTHERS: [usize; 17] = [
    191, 192, 193, 255, 256, 257, 1_023, 1_024, 1_025, 4_095, 4_096, 4_097, 65_471, 65_472, 65_473,
    65_535, LIMIT,
];

/// The byte at a place of a text of a length.
type Byte = fn(usize, usize, &mut Random) -> u8;

fn newline_if(newline: bool) -> u8 {
    if newline {
        NEWLINE
    } else {
        b'x'
    }
}

const KINDS: [(&str, Byte); 13] = [
    ("no newline", |_, _, _| b'x'),
    ("only newlines", |_, _, _| NEWLINE),
    ("every byte in turn", |at, _, _| at as u8),
    ("every second", |at, _, _| newline_if(at % 2 == 1)),
    ("every third", |at, _, _| newline_if(at % 3 == 0)),
    ("all but one in 64", |at, _, _| newline_if(at % 64 != 5)),
    ("words' first", |at, _, _| newline_if(at % 64 == 0)),
    ("words' last", |at, _, _| newline_if(at % 64 == 63)),
    ("every 65th", |at, _, _| newline_if(at % 65 == 64)),
    ("the first", |at, _, _| newline_if(at == 0)),
    ("the last", |at, length, _| newline_if(at + 1 == length)),
    ("any second", |_, _, random| {
        newline_if(random.below(2) == 0)
    }),
    ("any of 900", |_, _, random| {
        newline_if(random.below(900) == 0)
    }),
];

/// Builds the index of each text, and asks for all of its places and lines.
pub fn every_place() -> bool {
    let texts: Vec<(usize, usize)> = (0..KINDS.len())
        .flat_map(|kind| FIRST.chain(OTHERS).map(move |length| (kind, length)))
        .collect();
    let places: usize = texts.iter().map(|(_, length)| length + 1).sum();
    println!("{} texts, {places} places", texts.len());
    let of = |index: u64| texts[index as usize];
    try_each(
        0..texts.len() as u64,
        |index| try_text(&text(of(index))),
        |index, what| {
            let (kind, length) = of(index);
            println!("{length} bytes, newlines: {}: {what}", KINDS[kind].0);
        },
    )
}

fn text((kind, length): (usize, usize)) -> Vec<u8> {
    let mut random = Random::numbered(kind as u64, length as u64);
    let byte = KINDS[kind].1;
    (0..length)
        .map(|at| byte(at, length, &mut random))
        .collect()
}

fn try_text(text: &[u8]) -> Result<(), String> {
    let count = text.len() / 64 + 1;
    let (mut words, mut totals) = (vec![u64::MAX; count], vec![u32::MAX; count]);
    equal(
        "build of",
        text.len(),
        build(text, &mut words, &mut totals),
        0,
    )?;
    let built = (words.clone(), totals.clone());
    check_index(text, &words, &totals)?;
    ask_all(text, &words, &totals)?;
    equal("index kept of", text.len(), (words, totals) == built, true)
}

/// Each bit says whether there is a newline, and each total how many there were.
fn check_index(text: &[u8], words: &[u64], totals: &[u32]) -> Result<(), String> {
    let mut newlines = 0;
    for place in 0..64 * words.len() {
        let (word, bit) = (place / 64, place % 64);
        if bit == 0 {
            equal("total", word, totals[word], newlines)?;
        }
        let newline = text.get(place) == Some(&NEWLINE);
        equal("bit", place, words[word] >> bit & 1 == 1, newline)?;
        newlines += u32::from(newline);
    }
    Ok(())
}

/// Goes through the text once and counts its lines.
fn ask_all(text: &[u8], words: &[u64], totals: &[u32]) -> Result<(), String> {
    let line_of = |place| line_of(text.len(), words, totals, place);
    let start_of = |line| start_of(text.len(), words, totals, line);
    let mut line = 0;
    for place in 0..=text.len() {
        if place == 0 || text[place - 1] == NEWLINE {
            line += 1;
            equal("start of line", line, start_of(line), (0, place as u64))?;
        }
        equal("line of place", place, line_of(place), (0, line))?;
    }
    for place in [text.len() + 1, text.len() + 64, usize::MAX] {
        equal("line of place", place, line_of(place), (31, 0))?;
    }
    for line in [0, line + 1, line + 64, u64::MAX] {
        equal("start of line", line, start_of(line), (32, 0))?;
    }
    Ok(())
}

fn equal<T: Debug + PartialEq>(
    name: &str,
    number: impl Display,
    found: T,
    counted: T,
) -> Result<(), String> {
    if found == counted {
        return Ok(());
    }
    Err(format!(
        "{name} {number} is {found:?} instead of {counted:?}"
    ))
}
