//! Good parts of lines: names and readings.

use super::Scale;
use crate::predefined::Predefined;
use crate::random::Random;

const NAMES: [&str; 24] = [
    "a", "b", "x", "A", "_", "ab", "abc", "Ab", "aB", "a1", "a_", "_a", "_1", "__", "mast", "boom",
    "Mast", "mast_2", "mast_20", "sway_x", "sway_y", "e5", "inf", "nan",
];
const WORDS: [&str; 12] = [
    "inf", "nan", "NaN", "Infinity", "e5", "E_1", "_", "_0", "oak", "true", "x0x10", "o",
];
const NUMBERS: [&str; 16] = [
    "0",
    "1",
    "7",
    "12",
    "-1",
    "-0",
    "00",
    "-007",
    "10",
    "2147483647",
    "2147483646",
    "-2147483648",
    "-2147483647",
    "0002147483647",
    "-02147483648",
    "999999999",
];
const DECIMALS: [&str; 22] = [
    "0.0",
    "-0.0",
    "-00.000",
    "0.5",
    "-2.5",
    "1.0",
    "00.10",
    "0.1",
    "0.3",
    "0.7",
    "-0.3",
    "8.41",
    "1.5",
    "0.00000000000001",
    "0.00000000000000",
    "12345678901234.5",
    "99999999999999.9",
    "9.99999999999999",
    "00000000000000.1",
    "2147483648.0",
    "-4294967296.25",
    "1234567.8901234",
];
/// Of names made byte by byte. No q is among them: see the names of macros in the templates.
const FIRST: &[u8] = b"abcxyzABCXYZ_";
const OTHERS: &[u8] = b"abcxyzABCXYZ_0123456789";

/// Digits, some of which make hard fractions.
const DIGITS: [&[u8]; 5] = [b"0123456789", b"0123456789", b"09", b"0005", b"9998"];

/// A name.
pub fn name(random: &mut Random, scale: Scale) -> Vec<u8> {
    match random.below(20) {
        0..=8 => random.pick(&NAMES).into(),
        9..=11 => predefined(random),
        12 => long_name(random, scale),
        _ => {
            let length = random.between(1, 8);
            shaped(random, length)
        }
    }
}

fn predefined(random: &mut Random) -> Vec<u8> {
    random.pick(&Predefined::ALL).name().into()
}

fn long_name(random: &mut Random, scale: Scale) -> Vec<u8> {
    let most = match scale {
        Scale::Small => 70,
        Scale::Full => random.pick(&[70, 300, 300, 3_000]),
    };
    let length = random.between(60, most);
    shaped(random, length)
}

/// A name of this length, which is not 0.
pub fn shaped(random: &mut Random, length: usize) -> Vec<u8> {
    let mut name = random.bytes(FIRST, 1);
    name.extend(random.bytes(OTHERS, length - 1));
    name
}

/// A name that is near to another: its front, more than it, of another case, or but for one byte.
pub fn near(random: &mut Random, name: &[u8]) -> Vec<u8> {
    let mut near = name.to_vec();
    match random.below(5) {
        0 if name.len() > 1 => near.truncate(random.between(1, name.len() - 1)),
        1 => near.iter_mut().for_each(|byte| *byte ^= case_bit(*byte)),
        2 => {
            let at = random.below(near.len());
            near[at] = random.pick(FIRST);
        }
        3 => near.insert(0, random.pick(FIRST)),
        _ => near.push(random.pick(OTHERS)),
    }
    near
}

/// The bit in which a letter and its other case differ.
fn case_bit(byte: u8) -> u8 {
    if byte.is_ascii_alphabetic() {
        0x20
    } else {
        0
    }
}

/// A good reading.
pub fn reading(random: &mut Random, scale: Scale) -> Vec<u8> {
    match random.below(9) {
        0..=2 => number(random, scale),
        3..=6 => decimal(random),
        7 => random.pick(&WORDS).into(),
        _ => name(random, scale),
    }
}

fn number(random: &mut Random, scale: Scale) -> Vec<u8> {
    let number = match random.below(4) {
        0..=1 => return random.pick(&NUMBERS).into(),
        2 => (random.bits() as i32).to_string(),
        _ => (random.bits() as i32 >> random.below(31)).to_string(),
    };
    let most = match scale {
        Scale::Small => 25,
        Scale::Full => random.pick(&[25, 25, 25, 3_000]),
    };
    let zeros = "0".repeat(random.below(most));
    match number.strip_prefix('-') {
        Some(size) => format!("-{zeros}{size}").into(),
        None => (zeros + &number).into(),
    }
}

fn decimal(random: &mut Random) -> Vec<u8> {
    if random.chance(30) {
        return random.pick(&DECIMALS).into();
    }
    let count = random.pick(&[2, 3, 4, 6, 10, 14, 15, 15, 15]);
    let behind = random.between(1, count - 1);
    decimal_of(random, count, behind)
}

/// A decimal with so many digits, so many of them behind the point.
pub fn decimal_of(random: &mut Random, count: usize, behind: usize) -> Vec<u8> {
    let alphabet = random.pick(&DIGITS);
    let mut text = random.bytes(alphabet, count);
    text.insert(count - behind, b'.');
    if random.chance(30) {
        text.insert(0, b'-');
    }
    text
}
