//! The text ahead. 01: "The text ahead is the pending text followed by the rest of the input, as
//! one string".

use crate::expansion::Expansion;

/// Pending text, then the input bytes that are not taken yet.
#[derive(Debug)]
pub struct Ahead<'a> {
    /// The pending text, last byte first, so that both taking and pushing back work at the end of
    /// the vector.
    reversed: Vec<u8>,
    /// A result was pushed back that is too long for any lent buffer; it was not built.
    overfull: bool,
    input: &'a [u8],
    taken: usize,
}

impl<'a> Ahead<'a> {
    pub fn new(input: &'a [u8]) -> Ahead<'a> {
        Ahead {
            reversed: Vec::new(),
            overfull: false,
            input,
            taken: 0,
        }
    }

    /// 01: "The place is the count of input bytes taken".
    pub fn place(&self) -> usize {
        self.taken
    }

    /// How many bytes are ahead.
    pub fn length(&self) -> usize {
        self.reversed.len() + self.input.len() - self.taken
    }

    /// The byte that stands `at` bytes behind the front.
    pub fn byte(&self, at: usize) -> Option<u8> {
        let pending = self.reversed.len();
        if at < pending {
            Some(self.reversed[pending - 1 - at])
        } else {
            self.input.get(self.taken + at - pending).copied()
        }
    }

    /// Whether `mark` stands `at` bytes behind the front.
    pub fn matches(&self, at: usize, mark: &[u8]) -> bool {
        (0..mark.len()).all(|i| self.byte(at + i) == Some(mark[i]))
    }

    /// A copy of the bytes from `from` up to `to`, both counted from the front.
    pub fn copy(&self, from: usize, to: usize) -> Vec<u8> {
        let pending = self.reversed.len();
        let (from_pending, to_pending) = (from.min(pending), to.min(pending));
        let mut bytes = self.reversed[pending - to_pending..pending - from_pending].to_vec();
        bytes.reverse();
        let rest = &self.input[self.taken..];
        bytes.extend_from_slice(&rest[from - from_pending..to - to_pending]);
        bytes
    }

    /// Takes `count` bytes, of pending text first. Only input bytes move the place.
    pub fn take(&mut self, count: usize) {
        assert!(count <= self.length());
        let of_pending = count.min(self.reversed.len());
        self.reversed.truncate(self.reversed.len() - of_pending);
        self.taken += count - of_pending;
    }

    /// 01: "dnl drops through the next newline ahead, or everything."
    pub fn drop_line(&mut self) {
        let length = self.length();
        let newline = (0..length).find(|&at| self.byte(at) == Some(b'\n'));
        self.take(newline.map_or(length, |at| at + 1));
    }

    /// 01: "The result goes in front of the text ahead."
    pub fn push_back(&mut self, result: &Expansion) {
        match result.bytes() {
            Some(bytes) => self.reversed.extend(bytes.iter().rev()),
            None => self.overfull = true,
        }
    }

    /// Waiting wrap text "becomes pending"; nothing is pending then.
    pub fn make_pending(&mut self, wrap: &[u8]) {
        self.reversed.extend(wrap.iter().rev());
    }

    /// What buffer 1 holds: "bytes pushed back and not yet read".
    pub fn held(&self) -> usize {
        if self.overfull {
            usize::MAX
        } else {
            self.reversed.len()
        }
    }
}

#[cfg(test)]
mod tests {
    use super::*;

    #[test]
    fn one_string_across_the_border() {
        let mut ahead = Ahead::new(b"cd");
        ahead.push_back(&Expansion::of(b"ab"));
        assert_eq!(ahead.copy(0, 1), b"a");
        assert_eq!(ahead.copy(1, 3), b"bc");
        assert_eq!(ahead.copy(2, 4), b"cd");
        assert_eq!(ahead.copy(2, 2), b"");
        assert!(ahead.matches(0, b"abcd") && ahead.matches(1, b"bc") && !ahead.matches(3, b"de"));
        ahead.take(3);
        assert_eq!((ahead.place(), ahead.held(), ahead.length()), (1, 0, 1));
        ahead.push_back(&Expansion::of(b"x\ny"));
        ahead.drop_line();
        assert_eq!(ahead.copy(0, 2), b"yd");
        ahead.drop_line();
        assert_eq!((ahead.place(), ahead.length()), (2, 0));
    }
}
