//! Numbers. 01: "A number is an optional minus and one or more decimal digits, within -2147483648
//! to 2147483647".

use crate::answer::Refusal;
use crate::bytes::digit_value;

/// Reads all of the bytes as one number; "an empty one is refused (7)".
pub fn read(bytes: &[u8]) -> Result<i32, Refusal> {
    let (minus, digits) = match bytes.split_first() {
        Some((b'-', digits)) => (true, digits),
        _ => (false, bytes),
    };
    if digits.is_empty() {
        return Err(Refusal::Number);
    }
    let mut size = 0i64;
    for &byte in digits {
        let digit = digit_value(byte, 10).ok_or(Refusal::Number)?;
        size = (size * 10 + i64::from(digit)).min(1 << 32);
    }
    let value = if minus { -size } else { size };
    i32::try_from(value).map_err(|_| Refusal::Number)
}

/// Reads an argument that has no default: "and an absent one without a default" is refused.
pub fn needed(argument: Option<&Vec<u8>>) -> Result<i32, Refusal> {
    argument.map_or(Err(Refusal::Number), |bytes| read(bytes))
}

/// Reads an argument with a default, used "only when absent".
pub fn or_default(argument: Option<&Vec<u8>>, default: i32) -> Result<i32, Refusal> {
    argument.map_or(Ok(default), |bytes| read(bytes))
}

/// Refuses what is outside `least` to `most`.
pub fn within(value: i32, least: i32, most: i32) -> Result<i32, Refusal> {
    if (least..=most).contains(&value) {
        Ok(value)
    } else {
        Err(Refusal::Number)
    }
}

#[cfg(test)]
mod tests {
    use super::*;

    #[test]
    fn good_numbers() {
        let good: [(&[u8], i32); 7] = [
            (b"0", 0),
            (b"-0", 0),
            (b"007", 7),
            (b"-2147483648", i32::MIN),
            (b"2147483647", i32::MAX),
            (b"000000000000000000000000000001", 1),
            (b"-12", -12),
        ];
        for (bytes, value) in good {
            assert_eq!(read(bytes), Ok(value));
        }
    }

    #[test]
    fn bad_numbers() {
        let bad: [&[u8]; 10] = [
            b"",
            b"-",
            b"+1",
            b" 1",
            b"1 ",
            b"1a",
            b"--1",
            b"2147483648",
            b"-2147483649",
            b"99999999999999999999999999",
        ];
        for bytes in bad {
            assert_eq!(read(bytes), Err(Refusal::Number));
        }
    }
}
