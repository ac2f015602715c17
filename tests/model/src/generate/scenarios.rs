//! Short texts with a purpose, written with the default quote marks.

mod calls;
mod definitions;
mod flow;
mod tokens;
mod values;

use crate::random::Random;

/// A text with a purpose.
pub fn scenario(random: &mut Random) -> Vec<u8> {
    match random.below(68) {
        0..=2 => tokens::border(random),
        3..=9 => tokens::marked(random),
        10..=14 => calls::nested_calls(random),
        15..=18 => calls::many_arguments(random),
        19..=20 => calls::collected(random),
        21..=23 => calls::parameters(random),
        24..=27 => definitions::pushed(random),
        28..=31 => definitions::gone(random),
        32..=34 => definitions::copied(random),
        35..=38 => flow::streams(random),
        39..=41 => flow::wrapped(random),
        42..=44 => flow::loops(random),
        45 => flow::doubled(random),
        46 => flow::lines(random),
        47 => flow::exits(random),
        48..=54 => values::arithmetic(random),
        55..=56 => values::found(random),
        57..=58 => values::partners(random),
        59..=60 => values::strings(random),
        61 => values::numbers(random),
        _ => tokens::refused(random),
    }
}

fn join(parts: &[&[u8]]) -> Vec<u8> {
    parts.concat()
}
