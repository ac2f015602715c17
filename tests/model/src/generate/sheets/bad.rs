//! Malformed lines: in each, one thing is wrong.

use super::parts::{self, decimal_of};
use super::Scale;
use crate::random::Random;

const READINGS: [&[u8]; 56] = [
    b"",
    b" ",
    b"+1",
    b"+1.5",
    b"-",
    b"--1",
    b"-a",
    b"-_",
    b"1-",
    b"2147483648",
    b"-2147483649",
    b"4294967296",
    b"-4294967295",
    b"4294967303",
    b"9999999999",
    b"18446744073709551616",
    b"18446744073709551623",
    b"99999999999999999999999",
    b"1.",
    b".5",
    b".",
    b"-.",
    b"-.5",
    b"-1.",
    b"1..5",
    b"1.5.5",
    b"1.-5",
    b"1. 5",
    b"1e3",
    b"1E3",
    b"1.5e3",
    b"1,5",
    b"1,000",
    b"0x10",
    b"12a",
    b"1_",
    b"1.5m",
    b"a.b",
    b"a.",
    b"a-b",
    b"a b",
    b"a,b",
    b"a\xe9",
    b"\xe9",
    b"a\x00",
    b"\x00",
    b"1\x00",
    b"\x0b1",
    b"1\x0c",
    b"\r",
    b"1\xb2",
    b"\"a\"",
    b"b=c",
    b"1=1",
    b"1#",
    b"1# x",
];
const NAMES: [&[u8]; 20] = [
    b"", b" ", b"9", b"9a", b"0", b"a.b", b"a-b", b"-a", b".a", b"a,", b"\x00", b"a\x00", b"\xe9",
    b"a\xe9", b"a b", b"\r", b"a\r", b"[a]", b"a$", b"@",
];
const LINES: [&[u8]; 20] = [
    b"",
    b" ",
    b"\r",
    b"\t",
    b"\x00",
    b"=",
    b"==",
    b"a",
    b"mast",
    b"12",
    b"1.5",
    b"# a remark",
    b"#",
    b"#a=1",
    b"?",
    b"a:1",
    b"a 1",
    b"a\xe2\x89\xa01",
    b"-=1",
    b"a=1;",
];
/// What may stand round a part of a line that would be good without.
const ROUND: &[u8] = b"   \t\r\r=#+-.,;\x00\x0b\x7f\x80\xff";

/// A line with this name, or without, that is malformed.
pub fn line(random: &mut Random, name: &[u8], scale: Scale) -> Vec<u8> {
    let good = parts::reading(random, scale);
    match random.below(20) {
        0..=7 => joined(name, random.pick(&READINGS)),
        8..=9 => joined(name, &too_many_digits(random)),
        10..=12 => joined(random.pick(&NAMES), &good),
        13..=16 => spoilt(random, joined(name, &good), name.len()),
        _ => random.pick(&LINES).into(),
    }
}

/// A name and a reading on one line.
pub fn joined(name: &[u8], reading: &[u8]) -> Vec<u8> {
    [name, b"=", reading].concat()
}

/// A decimal but for its 16 digits or more.
fn too_many_digits(random: &mut Random) -> Vec<u8> {
    let count = random.pick(&[16, 16, 16, 16, 17, 20, 40]);
    let behind = random.pick(&[1, 1, 2, 8, 14, 15, count - 1, count - 1]);
    decimal_of(random, count, behind)
}

/// A byte too much before or behind the name or the reading of a line.
fn spoilt(random: &mut Random, mut line: Vec<u8>, name: usize) -> Vec<u8> {
    let at = random.pick(&[0, name, name + 1, line.len(), line.len()]);
    line.insert(at, random.pick(ROUND));
    line
}
