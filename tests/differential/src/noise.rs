//! What the lent memory holds before a call: bytes that no run may look at or change by mistake.

use model::random::Random;
use std::borrow::Cow;

/// No window of lent memory with its surroundings is longer, but for that of a set.
pub const LONGEST: usize = 2 * 65_536;
/// Nor is one of these.
pub const LONGEST_SET: usize = 1_048_576 + LONGEST;

/// Blocks of bytes from which windows are cut; what is longer is a block over and over.
pub struct Noise {
    blocks: Vec<Vec<u8>>,
}

impl Noise {
    pub fn new() -> Noise {
        let mut random = Random::numbered(0, 0);
        let any: Vec<u8> = (0..=255).collect();
        let length = 2 * LONGEST;
        let like_text = b"a`b'(len,f)#\n$1 ".repeat(length / 16);
        Noise {
            blocks: vec![
                random.bytes(&any, length),
                vec![0xff; length],
                vec![0; length],
                like_text,
            ],
        }
    }

    /// The bytes that memory number `area` holds before the case with this salt. Most are random.
    pub fn before(&self, salt: u64, area: usize, length: usize) -> Cow<'_, [u8]> {
        let mut random = Random::numbered(salt, area as u64);
        let block = &self.blocks[random.pick(&[0, 0, 0, 0, 0, 0, 0, 0, 0, 0, 0, 0, 1, 1, 2, 3])];
        if length > LONGEST {
            let mut bytes = block.repeat(length.div_ceil(block.len()));
            bytes.truncate(length);
            return Cow::Owned(bytes);
        }
        let from = random.below(block.len() - length);
        Cow::Borrowed(&block[from..from + length])
    }
}
