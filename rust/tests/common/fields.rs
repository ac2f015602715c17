//! The fields of the tables of vectors.

use std::fmt::Debug;
use std::str::FromStr;

/// The parts of a field between commas; V*N is V repeated N times, and a minus is none.
pub fn parts(field: &str) -> Vec<&str> {
    let repeated = |part| match str::split_once(part, '*') {
        Some((value, times)) => vec![value; decimal(times)],
        None => vec![part],
    };
    field
        .split(',')
        .filter(|&part| part != "-")
        .flat_map(repeated)
        .collect()
}

/// Bytes written in hexadecimal.
pub fn bytes(field: &str) -> Vec<u8> {
    let digits = parts(field).concat();
    let pair = |at| hexadecimal(&digits[at..at + 2]) as u8;
    (0..digits.len()).step_by(2).map(pair).collect()
}

pub fn hexadecimal(digits: &str) -> u64 {
    u64::from_str_radix(digits, 16).expect("hexadecimal")
}

pub fn decimal<N: FromStr<Err: Debug>>(digits: &str) -> N {
    digits.parse().expect("a number")
}
