//! What the tests of the index of lines share: indexes of texts.

use model::lines::{build, words_of, Answer};

/// The index of a text in words of 7 and totals of 9, so many of each.
pub fn built(text: &[u8], words: usize, totals: usize) -> (Answer, Vec<u64>, Vec<u32>) {
    let (mut words, mut totals) = (vec![7; words], vec![9; totals]);
    let answer = build(text, &mut words, &mut totals);
    (answer, words, totals)
}

/// The index of a text in exact room.
pub fn index(text: &[u8]) -> (Vec<u64>, Vec<u32>) {
    let own = words_of(text.len());
    let (answer, words, totals) = built(text, own, own);
    assert_eq!(answer, Answer::Good(0));
    (words, totals)
}
