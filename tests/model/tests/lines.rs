//! Request 6 of document 02, "Which line is that?": its points one by one, worked out by hand from the
//! paper.

#[path = "common/index.rs"]
mod common;

use common::{built, index};
use model::lines::{line_of, start_of, words_of, Answer};
use model::LIMIT;
use Answer::{Good, NoSuchLine, PlaceBeyondEnd, TextTooLong, TooLittleRoom};

#[test]
fn numbers_and_values() {
    let answers = [
        (Good(5), 0, 5),
        (TextTooLong, 30, 0),
        (PlaceBeyondEnd, 31, 0),
        (NoSuchLine, 32, 0),
        (TooLittleRoom, 33, 0),
    ];
    for (answer, number, value) in answers {
        assert_eq!((answer.number(), answer.value()), (number, value));
    }
}

/// "judged 30, 33, 31, 32", in each function those that it knows.
#[test]
fn refusals_in_their_order() {
    let (words, totals) = ([0; 1_025], [0; 1_025]);
    assert_eq!(built(&[b'a'; LIMIT + 1], 0, 0).0, TextTooLong);
    assert_eq!(built(&[b'a'; LIMIT + 1], 1_025, 1_025).0, TextTooLong);
    assert_eq!(line_of(LIMIT + 1, &[], &[], 0), TextTooLong);
    assert_eq!(line_of(LIMIT + 1, &[], &[], LIMIT + 2), TextTooLong);
    assert_eq!(line_of(LIMIT + 1, &words, &totals, 0), TextTooLong);
    assert_eq!(line_of(usize::MAX, &words, &totals, 0), TextTooLong);
    assert_eq!(line_of(64, &[0], &[0], 0), TooLittleRoom);
    assert_eq!(line_of(64, &[0, 0], &[0], 65), TooLittleRoom);
    assert_eq!(line_of(64, &[0, 0], &[0, 0], 65), PlaceBeyondEnd);
    assert_eq!(start_of(LIMIT + 1, &[], &[], 0), TextTooLong);
    assert_eq!(start_of(LIMIT + 1, &words, &totals, 1), TextTooLong);
    assert_eq!(start_of(64, &[0], &[0, 0], 0), TooLittleRoom);
    assert_eq!(start_of(64, &[0, 0], &[0, 0], 0), NoSuchLine);
}

/// "a text of at most 65,536 bytes": it has 1,025 words.
#[test]
fn the_longest_text() {
    let text = [b'\n'; LIMIT];
    assert_eq!(built(&text, 1_024, 1_025).0, TooLittleRoom);
    assert_eq!(built(&text, 1_025, 1_024).0, TooLittleRoom);
    let (words, totals) = index(&text);
    assert_eq!(totals[1_024], 65_536);
    assert_eq!(words[1_024], 0);
    assert_eq!(line_of(LIMIT, &words, &totals, LIMIT), Good(65_537));
    assert_eq!(line_of(LIMIT, &words, &totals, LIMIT - 1), Good(65_536));
    assert_eq!(start_of(LIMIT, &words, &totals, 65_537), Good(65_536));
    assert_eq!(start_of(LIMIT, &words, &totals, 65_538), NoSuchLine);
}

/// n = 0: n - 1 is below every total, and does not wrap.
#[test]
fn there_is_no_line_0() {
    for total in [0, 1, u32::MAX - 1, u32::MAX] {
        for word in [0, 1, u64::MAX] {
            assert_eq!(start_of(0, &[word], &[total], 0), NoSuchLine);
        }
    }
}

/// "sought in the last word whose total is below n - 1", also where totals do not rise.
#[test]
fn the_last_word_below() {
    assert_eq!(start_of(130, &[1, 1, 2], &[0, 9, 0], 2), Good(130));
    assert_eq!(start_of(64, &[1, 0], &[0, 0], 2), NoSuchLine);
    assert_eq!(start_of(64, &[1, 1], &[0, 1], 2), Good(1));
    assert_eq!(start_of(64, &[1, 1], &[0, 1], 3), Good(65));
    assert_eq!(start_of(64, &[3, 1], &[5, 2], 7), NoSuchLine);
    assert_eq!(start_of(64, &[3, 1], &[5, 2], 4), Good(65));
}

/// The slices may be longer than the index.
#[test]
fn behind_the_index() {
    assert_eq!(start_of(0, &[0, 1], &[0, 0], 2), NoSuchLine);
    assert_eq!(start_of(0, &[1, 1], &[0, 0], 2), Good(1));
    assert_eq!(line_of(2, &[1, 1], &[3, 5], 2), Good(5));
    let (answer, words, totals) = built(b"a\nb\n", 2, 3);
    assert_eq!(answer, Good(0));
    assert_eq!((&words[..], &totals[..]), (&[10, 7][..], &[0, 9, 9][..]));
}

/// "the length divided by 64, rounded down, plus one of them".
#[test]
fn the_word_more() {
    assert_eq!(
        [0, 1, 63, 64, 65, 127, 128].map(words_of),
        [1, 1, 1, 2, 2, 2, 3]
    );
    let (_, words, totals) = built(&[b'\n'; 64], 3, 3);
    assert_eq!(
        (&words[..], &totals[..]),
        (&[u64::MAX, 0, 7][..], &[0, 64, 9][..])
    );
    let (_, words, totals) = built(&[b'\n'; 63], 2, 2);
    assert_eq!(
        (&words[..], &totals[..]),
        (&[u64::MAX >> 1, 7][..], &[0, 9][..])
    );
    assert_eq!(line_of(64, &[u64::MAX, 0], &[0, 64], 64), Good(65));
    assert_eq!(built(b"", 1, 1), (Good(0), vec![0], vec![0]));
}

/// The line of any index may pass 32 bits.
#[test]
fn lines_above_32_bits() {
    assert_eq!(line_of(0, &[0], &[u32::MAX], 0), Good(1 << 32));
    let most = line_of(63, &[u64::MAX], &[u32::MAX], 63);
    assert_eq!(most, Good((1 << 32) + 63));
}

/// "The line of a place is one more than the newlines before it."
#[test]
fn a_newline_ends_its_own_line() {
    assert_eq!(line_of(2, &[2], &[0], 1), Good(1));
    assert_eq!(line_of(2, &[2], &[0], 2), Good(2));
    assert_eq!(start_of(2, &[2], &[0], 2), Good(2));
}

/// Nothing is refused for a bit behind the text.
#[test]
fn a_start_beyond_the_text() {
    assert_eq!(start_of(0, &[32], &[0], 2), Good(6));
    let (mut words, totals) = ([0; 1_025], [0; 1_025]);
    words[1_024] = 1 << 63;
    assert_eq!(start_of(LIMIT, &words, &totals, 2), Good(65_600));
}

/// "Beyond its words and totals, or refused, nothing is written."
#[test]
fn what_is_written() {
    assert_eq!(built(b"", 1, 0), (TooLittleRoom, vec![7], vec![]));
    assert_eq!(built(b"\n", 0, 9), (TooLittleRoom, vec![], vec![9; 9]));
    assert_eq!(built(&[10; 64], 1, 9), (TooLittleRoom, vec![7], vec![9; 9]));
    let long = [10; LIMIT + 1];
    assert_eq!(built(&long, 2, 2), (TextTooLong, vec![7; 2], vec![9; 2]));
    // the bits behind the text are written too
    assert_eq!(built(b"aaa", 1, 1), (Good(0), vec![0], vec![0]));
}

#[test]
fn only_byte_10_is_a_newline() {
    for byte in 0..=u8::MAX {
        let (words, _) = index(&[byte, b'a']);
        assert_eq!(words, [u64::from(byte == 10)], "{byte}");
    }
}

/// "line 1 starts at 0", whatever the totals are.
#[test]
fn line_1_starts_at_0() {
    for total in [0, 1, 5, u32::MAX] {
        assert_eq!(start_of(0, &[0], &[total], 1), Good(0));
    }
    assert_eq!(start_of(0, &[], &[0], 1), TooLittleRoom);
    assert_eq!(start_of(0, &[0], &[], 1), TooLittleRoom);
}

/// Places and lines are not cut to 32 bits.
#[test]
fn wide_questions() {
    const ABOVE: u64 = 1 << 32;
    for line in [ABOVE, ABOVE + 1, ABOVE + 2, u64::MAX] {
        assert_eq!(start_of(0, &[1], &[0], line), NoSuchLine);
    }
    assert_eq!(start_of(0, &[3], &[u32::MAX], ABOVE + 1), Good(1));
    assert_eq!(start_of(0, &[3], &[u32::MAX], ABOVE + 2), Good(2));
    assert_eq!(start_of(0, &[3], &[u32::MAX], ABOVE + 3), NoSuchLine);
    assert_eq!(start_of(0, &[3], &[u32::MAX], ABOVE), NoSuchLine);
    for place in [ABOVE as usize, ABOVE as usize + 1, usize::MAX] {
        assert_eq!(line_of(4, &[0], &[0], place), PlaceBeyondEnd);
    }
}
