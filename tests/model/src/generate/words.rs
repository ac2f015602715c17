//! The smallest pieces of texts: names, words, numbers, odd bytes.

use crate::predefined::Predefined;
use crate::random::Random;
use crate::ways::NEED_PARENTHESIS;

const NAMES: [&str; 21] = [
    "a",
    "b",
    "c",
    "f",
    "g",
    "h",
    "n",
    "p",
    "x",
    "y",
    "ab",
    "abc",
    "_",
    "_1",
    "_z1",
    "A",
    "Az9",
    "foo",
    "ff",
    "le",
    "a_rather_long_name_of_a_macro",
];
const PLAIN: [&str; 22] = [
    "a", "b", "ab", "abc", "ba", "n", "le", "len", "f", "ff", "x", "xyz", "foo", "1", "0", "42",
    "007", "a b", "Z_", "divnum", "a,b", "(a)",
];
const ODD: [&[u8]; 27] = [
    b"\x00",
    b"\x01",
    b"\x7f",
    b"\x80",
    b"\xff",
    b"\xc3\xa9",
    b"\r",
    b"\x0b",
    b"\x0c",
    b"$",
    b"$1",
    b"$#",
    b"$*",
    b"$@",
    b"$0",
    b";",
    b"=",
    b"'",
    b"`'",
    b")",
    b"(",
    b",",
    b"(a,b)",
    b"-",
    b"+-",
    b".",
    b"\"",
];
const BLANKS: [&str; 8] = [" ", "\n", "\t", "  ", " \n", "\n\n", "\t ", " \t\n "];
const SIGNS: [&[u8]; 20] = [
    b"(", b")", b",", b"(", b")", b",", b"`", b"'", b"`", b"'", b"#", b"\n", b" ", b"$1", b"$@",
    b"[", b"]", b"0", b"1", b"-",
];

/// Texts that are no number of 01.
pub const BAD_NUMBERS: [&str; 18] = [
    "",
    "-",
    "+1",
    "1a",
    "1 ",
    "` 1'",
    "--1",
    "-+1",
    "1.5",
    "0x1",
    "2147483648",
    "-2147483649",
    "4294967295",
    "4294967296",
    "4294967297",
    "18446744073709551616",
    "-99999999999999999999",
    "a",
];

pub fn name(random: &mut Random) -> Vec<u8> {
    match random.below(40) {
        0 => predefined(random).into(),
        1 => {
            let length = random.between(1, 60);
            [b"q".to_vec(), random.bytes(b"ab_Z1", length)].concat()
        }
        _ => random.pick(&NAMES).into(),
    }
}

pub fn predefined(random: &mut Random) -> &'static str {
    random.pick(&Predefined::ALL).name()
}

/// A name that is a plain word unless `(` follows.
pub fn needs_parenthesis(random: &mut Random) -> &'static str {
    random.pick(&NEED_PARENTHESIS).name()
}

pub fn plain(random: &mut Random) -> Vec<u8> {
    match random.below(24) {
        0 => needs_parenthesis(random).into(),
        _ => random.pick(&PLAIN).into(),
    }
}

pub fn odd(random: &mut Random) -> Vec<u8> {
    random.pick(&ODD).to_vec()
}

pub fn blanks(random: &mut Random) -> Vec<u8> {
    random.pick(&BLANKS).into()
}

/// A word of any kind.
pub fn any(random: &mut Random) -> Vec<u8> {
    match random.below(20) {
        0..=4 => predefined(random).into(),
        5..=7 => name(random),
        8..=9 => plain(random),
        10 => blanks(random),
        11 => odd(random),
        _ => random.pick(&SIGNS).to_vec(),
    }
}

/// A number from `least` to `most`, sometimes with more zeros than need be.
pub fn number(random: &mut Random, least: i64, most: i64) -> Vec<u8> {
    let value = least + random.below((most - least + 1) as usize) as i64;
    let zeros = match random.below(30) {
        0..=1 => random.between(1, 2),
        2 => random.between(2, 12),
        3 => random.between(20, 90),
        _ => 0,
    };
    let minus = value < 0 || (value == 0 && random.chance(5));
    let sign = if minus { "-" } else { "" };
    format!("{sign}{}{}", "0".repeat(zeros), value.abs()).into_bytes()
}
