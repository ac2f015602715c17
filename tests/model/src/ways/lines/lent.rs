//! What is lent for the index of a text, beside what the text needs.

use crate::lines::case::Case;
use crate::lines::{bit, words_of};
use crate::LIMIT;

pub struct Lent<'a> {
    pub length: usize,
    pub words: &'a [u64],
    pub totals: &'a [u32],
}

impl<'a> Lent<'a> {
    pub fn of(case: &'a Case) -> Lent<'a> {
        Lent {
            length: case.asked.length(),
            words: &case.words,
            totals: &case.totals,
        }
    }

    /// How many words, and how many totals, are the index's own.
    pub fn own(&self) -> usize {
        words_of(self.length)
    }

    pub fn too_long(&self) -> bool {
        self.length > LIMIT
    }

    /// The length would be good in 32 bits.
    pub fn long_but_for_32_bits(&self) -> bool {
        self.too_long() && self.length as u32 as usize <= LIMIT
    }

    /// How many words are missing, and how many totals.
    pub fn missing(&self) -> [usize; 2] {
        [self.words.len(), self.totals.len()].map(|lent| self.own().saturating_sub(lent))
    }

    /// How many words are lent behind the index's own, and how many totals.
    pub fn behind(&self) -> [usize; 2] {
        [self.words.len(), self.totals.len()].map(|lent| lent.saturating_sub(self.own()))
    }

    pub fn short(&self) -> bool {
        self.missing() != [0, 0]
    }

    /// How many words are lent together with their totals.
    pub fn pairs(&self) -> usize {
        self.words.len().min(self.totals.len())
    }

    /// Those of them that are the index's own.
    pub fn own_pairs(&self) -> usize {
        self.pairs().min(self.own())
    }

    /// The newlines of one word.
    pub fn newlines(&self, word: usize) -> u64 {
        (0..64).map(|at| u64::from(self.bit(word, at))).sum()
    }

    pub fn bit(&self, word: usize, at: usize) -> bool {
        bit(self.words[word], at)
    }

    /// The bit of a place is set, if its word is lent.
    pub fn newline_at(&self, place: usize) -> bool {
        place / 64 < self.words.len() && self.bit(place / 64, place % 64)
    }

    /// A bit behind the text is set in the index's last word.
    pub fn set_behind_text(&self) -> bool {
        let last = self.own() - 1;
        (self.length % 64..64).any(|at| self.newline_at(64 * last + at))
    }

    /// Words and totals are those of a text.
    pub fn made(&self) -> bool {
        if self.too_long() || self.short() || self.set_behind_text() {
            return false;
        }
        let mut before = 0;
        (0..self.own()).all(|word| {
            let right = u64::from(self.totals[word]) == before;
            before += self.newlines(word);
            right
        })
    }
}
