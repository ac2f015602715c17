//! Questions by name: of the sheet of a text, of such a sheet changed, and of any lines and any text.

use super::{parts, written, Scale};
use crate::random::Random;
use crate::sheet::case::Asked;
use crate::sheet::{read, Line, Reading};

const NUMBERS: [i32; 6] = [0, 1, -1, 5, i32::MAX, i32::MIN];
/// Zeros, subnormal ones, the greatest, infinities, and others.
const DECIMALS: [u64; 10] = [
    0,
    1 << 63,
    0x3ff0_0000_0000_0000,
    0xbfb9_9999_9999_999a,
    1,
    0x000f_ffff_ffff_ffff,
    0x7fef_ffff_ffff_ffff,
    0x7ff0_0000_0000_0000,
    0xfff0_0000_0000_0000,
    0x4016_0000_0000_0000,
];

/// Asks a name.
pub fn question(random: &mut Random, scale: Scale) -> Asked {
    let (lines, text) = match random.below(10) {
        0..=2 => made(random, scale),
        3..=4 => {
            let (mut lines, mut text) = made(random, scale);
            change(random, &mut lines, &mut text);
            (lines, text)
        }
        _ => any(random),
    };
    let name = name(random, &lines, &text);
    Asked::Question { lines, text, name }
}

/// The sheet of a text.
fn made(random: &mut Random, scale: Scale) -> (Vec<Line>, Vec<u8>) {
    loop {
        let text = match random.below(40) {
            0 => written::text(random, scale),
            1..=2 => written::many(random),
            _ => written::good(random, scale),
        };
        if let Ok(lines) = read(&text) {
            return (lines, text);
        }
    }
}

/// Changes a sheet or its text so that they do not belong together.
fn change(random: &mut Random, lines: &mut Vec<Line>, text: &mut Vec<u8>) {
    for _ in 0..random.between(1, 3) {
        let at = random.below(lines.len() + 1);
        let byte = random.below(text.len() + 1);
        match random.below(7) {
            0 => lines.insert(at, line(random, text)),
            1 if at < lines.len() => lines.insert(0, other_reading(random, lines[at])),
            2 if at < lines.len() => lines.push(other_reading(random, lines[at])),
            3 if at < lines.len() => lines[at].place = number(random, text.len()),
            4 if at < lines.len() => lines[at].length = number(random, text.len()),
            5 => text.truncate(byte),
            _ if byte < text.len() => text[byte] = random.pick(b"ab=1\n\x00\xff"),
            _ => text.push(b'a'),
        }
    }
}

fn other_reading(random: &mut Random, line: Line) -> Line {
    let reading = reading(random);
    Line { reading, ..line }
}

/// Any lines, seldom more than a sheet can have, and any text.
fn any(random: &mut Random) -> (Vec<Line>, Vec<u8>) {
    let length = random.pick(&[0, 1, 2, 3, 4, 6, 12]);
    let text = random.bytes(b"aaab=1\n\xff", length);
    let count = match random.below(40) {
        0 => random.between(255, 300),
        1..=3 => 0,
        _ => random.between(1, 5),
    };
    let lines = (0..count).map(|_| line(random, &text)).collect();
    (lines, text)
}

/// A line: its name lies in the text, or close to its end, or far off.
fn line(random: &mut Random, text: &[u8]) -> Line {
    let (place, length) = match random.below(10) {
        0..=3 => within(random, text.len()),
        4..=6 => astray(random, text.len()),
        _ => (number(random, text.len()), number(random, text.len())),
    };
    Line {
        place,
        length,
        reading: reading(random),
    }
}

/// A place and a length that lie in a text of this length.
fn within(random: &mut Random, length: usize) -> (u64, u64) {
    let place = random.between(0, length);
    (place as u64, random.between(0, length - place) as u64)
}

/// A place and a length that lie in a text of this length but for something: cut to 32 bits, or their
/// sum cut to 32 or 64 bits, or one byte less.
fn astray(random: &mut Random, length: usize) -> (u64, u64) {
    let (place, long) = within(random, length);
    match random.below(8) {
        0 => (place + (1 << 32), long),
        1 => (place, long + (1 << 32)),
        2 => (place | 1 << 63, long),
        3 => ((1 << 32) - random.between(0, 2) as u64, place + long),
        4 => (u64::MAX - random.between(0, 2) as u64, place + long),
        5 => (place, u64::MAX - random.between(0, place as usize) as u64),
        6 => (place, length as u64 - place + 1),
        _ => (length as u64 + 1, 0),
    }
}

/// A place or a length, often a turning one.
fn number(random: &mut Random, length: usize) -> u64 {
    let near = random.below(3) as u64;
    match random.below(12) {
        0..=4 => random.below(length + 1) as u64,
        5..=6 => length as u64 + near,
        7 => (1 << 32) - 1 + near,
        8 => (1 << 31) - 1 + near,
        9 => (1 << 63) - 1 + near,
        10 => u64::MAX - near,
        _ => random.bits(),
    }
}

fn reading(random: &mut Random) -> Reading {
    match random.below(6) {
        0..=1 => Reading::Number(random.pick(&NUMBERS)),
        2 => Reading::Number(random.bits() as i32),
        3 => Reading::Decimal(random.pick(&DECIMALS)),
        4 => Reading::Word {
            place: random.below(9) as u64,
            length: random.below(5) as u64,
        },
        _ => Reading::Word {
            place: number(random, 9),
            length: number(random, 9),
        },
    }
}

/// A name that some line may have, or nearly; or a part of the text, or any name.
fn name(random: &mut Random, lines: &[Line], text: &[u8]) -> Vec<u8> {
    let found = named(random, lines, text);
    match (random.below(16), found) {
        (0..=6, Some(name)) => name,
        (7..=9, Some(name)) if !name.is_empty() => parts::near(random, &name),
        (10, _) => Vec::new(),
        (11, _) => text.to_vec(),
        (12, _) => [text, b"a"].concat(),
        (13, _) => parts::name(random, Scale::Small),
        _ => {
            let (place, length) = within(random, text.len());
            text[place as usize..(place + length) as usize].to_vec()
        }
    }
}

/// The bytes where a line has its name, cut to 32 bits; the first and the last line are asked often.
fn named(random: &mut Random, lines: &[Line], text: &[u8]) -> Option<Vec<u8>> {
    let last = lines.len().checked_sub(1)?;
    let some = random.below(lines.len());
    let line = &lines[random.pick(&[0, last, some])];
    let (place, length) = (line.place as u32 as usize, line.length as u32 as usize);
    let bytes = text.get(place..place + length)?;
    Some(bytes.to_vec())
}
