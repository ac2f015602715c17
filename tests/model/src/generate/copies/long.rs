//! Copies of texts that are about as long as may be.

use crate::random::Random;
use crate::LIMIT;

/// What is done with the long text of x.
const ENDS: [&str; 12] = [
    "copydef(`x',`y')",
    "copydef(`x',`yy')",
    "copydef(`x',`y')copydef(`x',`z')",
    "copydef(`x',`y')copydef(`len',`x')copydef(`y',`z')",
    "copydef(`x',`y')copydef(`y',`x')y",
    "copydef(`x',`x')copydef(`x',`x')x",
    "copydef(`x',`s')copydef(`t',`x')s",
    "copydef(`s',`x')copydef(`x',`t')x",
    "copydef(`x',`y')undefine(`x')copydef(`y',`x')undefine(`y')x",
    "copydef(`x',`len')len",
    "pushdef(`s')copydef(`x',`s')popdef(`s')s",
    "copydef(`x',`y')copydef(`dnl',`z')",
];

/// A long text is copied; short definitions stand before and behind it.
pub fn long(random: &mut Random) -> Vec<u8> {
    let each = random.pick(&[LIMIT / 2, LIMIT / 2, LIMIT / 3, 40_000, 60_000]);
    let length = each + random.below(5) - 4;
    let before = random.pick(&["", "define(`s',`1')"]);
    let behind = random.pick(&["", "define(`t',`22')", "copydef(`len',`t')"]);
    let end = random.pick(&ENDS);
    let text = "w".repeat(length);
    format!("{before}define(`x',`{text}'){behind}{end}").into_bytes()
}
