//! Decimals. 02: "A decimal has an optional minus, one or more digits, a point, one or more digits,
//! at most 15 digits in all; its value, to the bit, is the digits as a whole number, in f64, divided
//! once by ten to the count of digits after the point, then negated if there was a minus."
//!
//! Both numbers of that division are exact in f64, and one division is rounded to the nearest, ties to
//! even. So the value is worked out here in whole numbers: the double nearest to the quotient.

use crate::bytes::is_digit;

const MOST_DIGITS: usize = 15;
const SIGN: u64 = 1 << 63;

/// Reads all of the bytes as one decimal, and gives the bits of its value.
pub fn read(bytes: &[u8]) -> Option<u64> {
    let (sign, size) = match bytes.split_first() {
        Some((b'-', size)) => (SIGN, size),
        _ => (0, bytes),
    };
    let point = size.iter().position(|&byte| byte == b'.')?;
    let (before, behind) = (&size[..point], &size[point + 1..]);
    if before.is_empty() || behind.is_empty() || before.len() + behind.len() > MOST_DIGITS {
        return None;
    }
    let mut digits = 0;
    for &byte in before.iter().chain(behind) {
        if !is_digit(byte) {
            return None;
        }
        digits = 10 * digits + u128::from(byte - b'0');
    }
    let ten = 10u128.pow(behind.len() as u32);
    // zero has a sign too
    Some(sign | nearest(digits, ten))
}

/// The bits of the double nearest to a quotient, of two equally near ones that with an even fraction.
/// Both numbers are below 2^64, so nothing here is too large or too small for a double with all its
/// 53 bits.
fn nearest(over: u128, under: u128) -> u64 {
    const LEAST: u128 = 1 << 52;
    if over == 0 {
        return 0;
    }
    // the exponent of a quotient of 53 bits before the point, as a double stores it
    let (mut over, mut under, mut exponent) = (over, under, 1023 + 52);
    while over / under < LEAST {
        over *= 2;
        exponent -= 1;
    }
    while over / under >= 2 * LEAST {
        under *= 2;
        exponent += 1;
    }
    let (below, rest) = (over / under, over % under);
    let up = 2 * rest > under || 2 * rest == under && below % 2 == 1;
    let fraction = below - LEAST + u128::from(up);
    // a fraction that becomes 2^52 is carried into the exponent
    (exponent << 52) + fraction as u64
}

#[cfg(test)]
mod tests {
    use super::*;
    use crate::random::Random;

    #[test]
    fn known_bits() {
        let known: [(&[u8], u64); 9] = [
            (b"0.0", 0),
            (b"-0.0", 0x8000_0000_0000_0000),
            (b"1.0", 0x3ff0_0000_0000_0000),
            (b"-2.50", 0xc004_0000_0000_0000),
            (b"0.1", 0x3fb9_9999_9999_999a),
            (b"0.3", 0x3fd3_3333_3333_3333),
            (b"0.00000000000001", 0x3d06_849b_86a1_2b9b),
            (b"12345678901234.5", 0x42a6_74e7_9c5f_e500),
            (b"99999999999999.9", 0x42d6_bcc4_1e8f_fffa),
        ];
        for (bytes, bits) in known {
            assert_eq!(read(bytes), Some(bits), "{bytes:?}");
        }
    }

    #[test]
    fn no_decimals() {
        let none = [
            "",
            ".",
            "-.",
            "1",
            "1.",
            ".5",
            "-.5",
            "-1.",
            "+1.5",
            "--1.5",
            "1.-5",
            "1.5.5",
            "1..5",
            " 1.5",
            "1.5 ",
            "1.5e3",
            "1,5",
            "a.5",
            "0x1.5",
            "0.000000000000001",
            "123456789012345.6",
            "000000000000000.1",
            "1234567890.123456",
        ];
        for bytes in none {
            assert_eq!(read(bytes.as_bytes()), None, "{bytes}");
        }
    }

    /// Whole numbers of 64 bits meet every case of rounding: ties, up and down, and carries.
    #[test]
    fn rounded_as_whole_numbers_are() {
        let mut random = Random::new(4);
        let near = (0..64).flat_map(|bit| (0..9).map(move |more| (1u64 << bit) + more));
        let below =
            (1..64).flat_map(|bit| (1..9).map(move |less| (1u64 << bit).wrapping_sub(less)));
        let any = (0..100_000).map(|_| random.bits() >> random.below(64));
        for whole in near.chain(below).chain(any).chain([u64::MAX]) {
            let bits = nearest(u128::from(whole), 1);
            assert_eq!(bits, (whole as f64).to_bits(), "{whole}");
        }
    }

    /// A random decimal: its digits before and behind the point.
    fn decimal(random: &mut Random) -> (String, usize) {
        let count = random.between(2, MOST_DIGITS);
        let behind = random.between(1, count - 1);
        let alphabet = random.pick(&[&b"0123456789"[..], b"0123456789", b"09", b"0005", b"9998"]);
        let mut text = String::from_utf8(random.bytes(alphabet, count)).unwrap();
        text.insert(count - behind, '.');
        (text, behind)
    }

    /// The nearest double, as Rust reads decimals; and 02's one division.
    #[test]
    fn random_decimals() {
        let mut random = Random::new(5);
        for _ in 0..500_000 {
            let (text, behind) = decimal(&mut random);
            let parsed: f64 = text.parse().unwrap();
            let whole: u64 = text.replace('.', "").parse().unwrap();
            let divided = whole as f64 / 10u64.pow(behind as u32) as f64;
            let bits = read(text.as_bytes()).unwrap();
            assert_eq!(
                (bits, bits),
                (parsed.to_bits(), divided.to_bits()),
                "{text}"
            );
            let negated = read(format!("-{text}").as_bytes());
            assert_eq!(negated, Some((-divided).to_bits()), "-{text}");
        }
    }
}
