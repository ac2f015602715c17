//! Written texts: good sheets, and such with one thing wrong.

use super::bad::{self, joined};
use super::parts;
use super::Scale;
use crate::random::Random;
use crate::sheet::MOST_LINES;
use crate::LIMIT;

/// A name and a reading.
type Entry = (Vec<u8>, Vec<u8>);

const TINY: [&[u8]; 9] = [b"", b"", b"\n", b"\n", b"\n\n", b"=", b"a", b"a=", b"=1"];

/// Short lines that are malformed.
const BAD: [&[u8]; 7] = [b"", b"", b"", b"?", b"a=", b"=1", b"aa"];

/// A text to be read.
pub fn text(random: &mut Random, scale: Scale) -> Vec<u8> {
    match random.below(100) {
        0 => random.pick(&TINY).into(),
        1..=2 if scale == Scale::Full => longest(random),
        3..=4 => noise(random),
        5..=10 => many(random),
        11..=49 => good(random, scale),
        _ => nearly(random, scale),
    }
}

/// A sheet of a few lines.
pub fn good(random: &mut Random, scale: Scale) -> Vec<u8> {
    let count = random.pick(&[1, 1, 2, 2, 3, 4, 5, 8]);
    let entries = entries(random, count, scale);
    ended(random, lines(&entries))
}

/// A sheet of a few lines but for one thing, seldom two.
pub fn nearly(random: &mut Random, scale: Scale) -> Vec<u8> {
    let count = random.pick(&[1, 2, 2, 3, 4, 5, 8]);
    let entries = entries(random, count, scale);
    let mut lines = lines(&entries);
    for _ in 0..random.pick(&[1, 1, 1, 1, 2]) {
        spoil(random, &entries, &mut lines, scale);
    }
    ended(random, lines)
}

/// Names that differ, with readings.
fn entries(random: &mut Random, count: usize, scale: Scale) -> Vec<Entry> {
    let mut entries: Vec<Entry> = Vec::new();
    while entries.len() < count {
        let name = match entries.last() {
            Some((last, _)) if random.chance(35) => parts::near(random, last),
            _ => parts::name(random, scale),
        };
        if entries.iter().all(|(earlier, _)| *earlier != name) {
            let reading = match entries.last() {
                _ if random.chance(5) => name.clone(),
                Some((last, _)) if random.chance(8) => last.clone(),
                _ => parts::reading(random, scale),
            };
            entries.push((name, reading));
        }
    }
    entries
}

fn lines(entries: &[Entry]) -> Vec<Vec<u8>> {
    let lines = entries.iter().map(|(name, reading)| joined(name, reading));
    lines.collect()
}

/// The lines with their newlines, the last one often without.
fn ended(random: &mut Random, lines: Vec<Vec<u8>>) -> Vec<u8> {
    let mut text = lines.join(&b'\n');
    if random.chance(55) {
        text.push(b'\n');
    }
    text
}

/// Makes a line malformed, puts such a line in between, or gives a name twice.
fn spoil(random: &mut Random, entries: &[Entry], lines: &mut Vec<Vec<u8>>, scale: Scale) {
    let at = random.below(entries.len());
    let between = random.below(lines.len() + 1);
    let bad = bad::line(random, &entries[at].0, scale);
    match random.below(12) {
        0..=4 => lines[at] = bad,
        5 => lines.insert(between, bad),
        6 => lines.insert(random.pick(&[0, between, lines.len()]), Vec::new()),
        7 => {
            let name = &entries[random.below(entries.len())].0;
            lines.push(bad::line(random, name, scale));
        }
        _ => repeat(random, entries, lines, scale),
    }
}

/// A name for the second time, near to the first or far, and perhaps a bad line behind it.
fn repeat(random: &mut Random, entries: &[Entry], lines: &mut Vec<Vec<u8>>, scale: Scale) {
    let some = random.below(entries.len());
    let first = random.pick(&[0, entries.len() - 1, some]);
    let later = random.between(first + 1, lines.len());
    let again = random.pick(&[first + 1, later, lines.len()]);
    let (name, reading) = &entries[first];
    let other = parts::reading(random, scale);
    let reading = random.pick(&[reading, &other, &other]);
    lines.insert(again, joined(name, reading));
    match random.below(6) {
        0 => lines.push(b"?".to_vec()),
        1 => lines.push(joined(name, reading)),
        _ => {}
    }
}

/// 255 to 258 lines, all good, or with one bad line somewhere.
pub fn many(random: &mut Random) -> Vec<u8> {
    let count = random.pick(&[255, 256, 256, 256, 257, 257, 257, 257, 258]);
    let mut lines: Vec<Vec<u8>> = (0..count).map(|i| joined(&numbered(i), b"1")).collect();
    let last = count - 1;
    let (whole, over) = (MOST_LINES - 1, MOST_LINES);
    let at = random.pick(&[0, 1, 100, 254, whole, whole, whole, over, over, over, over]);
    let at = at.min(last);
    match random.below(8) {
        0..=2 => {}
        3..=5 => lines[at] = random.pick(&BAD).into(),
        _ => {
            let earlier = random.pick(&[0, 0, at / 2, at.max(1) - 1]);
            lines[at] = lines[earlier].clone();
        }
    }
    ended(random, lines)
}

/// A short name for each number.
fn numbered(i: usize) -> Vec<u8> {
    const LETTERS: &[u8] = b"abcdefghijklmnopqrstuvwxyzABCDEFGHIJKLMNOPQRSTUVWXYZ_";
    match i.checked_sub(LETTERS.len()) {
        None => vec![LETTERS[i]],
        Some(more) => vec![LETTERS[more / LETTERS.len()], LETTERS[more % LETTERS.len()]],
    }
}

/// A text of 65,536 bytes or nearly: one name, one word, one number, or two names alike but for a byte.
fn longest(random: &mut Random) -> Vec<u8> {
    let length = LIMIT - random.pick(&[0, 0, 0, 1, 5]);
    match random.below(5) {
        0 => joined(&parts::shaped(random, length - 2), b"1"),
        1 => joined(b"a", &parts::shaped(random, length - 2)),
        2 => joined(b"a", &[&vec![b'0'; length - 3][..], b"7"].concat()),
        3 => [&joined(b"a", &vec![b'0'; length - 5])[..], b"\n\n\n"].concat(),
        _ => {
            let name = parts::shaped(random, length / 2 - 3);
            let again = [&name[..name.len() - 1], random.pick(&[b"a", b"b", b"_"])].concat();
            [joined(&name, b"1"), joined(&again, b"2")].join(&b'\n')
        }
    }
}

/// Bytes that lines are made of, in no order.
fn noise(random: &mut Random) -> Vec<u8> {
    let length = random.below(12);
    random.bytes(b"aab_===011--..\n\n\n", length)
}
