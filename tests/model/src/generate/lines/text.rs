//! Texts for an index: dense and thin in newlines, with none, and with nothing else.

use crate::random::Random;

/// Newlines, control bytes, and bytes that are a newline but for one bit.
const CONTROLS: &[u8] = b"\n\n\n\r\t\x00\x02\x08\x0b\x0c\x0e\x1a\x2a\x4a\x7f\x8a\xff";

/// A text of this length.
pub fn text(random: &mut Random, length: usize) -> Vec<u8> {
    let one_in = random.pick(&[2, 2, 3, 10, 70, 500]);
    match random.below(8) {
        0..=3 if length > 60_000 => vec![b'\n'; length],
        0 => vec![b'\n'; length],
        1 => vec![random.pick(b"a\r\x8a\x00"); length],
        2 => bytes(length, |_| random.pick(CONTROLS)),
        3 => bytes(length, |_| random.bits() as u8),
        4 => bytes(length, |at| at_border(random, at)),
        _ => bytes(length, |_| newline_or(random, one_in)),
    }
}

fn bytes(length: usize, byte: impl FnMut(usize) -> u8) -> Vec<u8> {
    (0..length).map(byte).collect()
}

fn newline_or(random: &mut Random, one_in: usize) -> u8 {
    if random.below(one_in) == 0 {
        b'\n'
    } else {
        b'x'
    }
}

/// Newlines only where a word ends or begins.
fn at_border(random: &mut Random, at: usize) -> u8 {
    match at % 64 {
        0 | 63 => newline_or(random, 2),
        _ => b'-',
    }
}
