//! Old bytes of the output buffer that would go on with what is written before them.

use crate::random::Random;

const OLD: [&[u8]; 14] = [
    b"d", b"5", b"5\n", b".5\n", b"e5\n", b"=1\n", b"x=1\n", b"\n", b"\nx=1", b"\nx=1\n", b"\n?\n",
    b"\x00", b"\xff", b"`",
];

/// Old bytes behind this text: anything, or some of its lines once more.
pub fn behind(random: &mut Random, written: &[u8]) -> Vec<u8> {
    match random.below(10) {
        0 => Vec::new(),
        1 => written.to_vec(),
        2 => [b"\n", written].concat(),
        _ => random.pick(&OLD).into(),
    }
}
