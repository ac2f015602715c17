//! The ways of cases, worked out by hand.

use super::*;
use crate::LIMIT;

/// The ways of a case, each without the name of its function.
fn taken_by(asked: Asked, words: &[u64], totals: &[u32]) -> Vec<&'static str> {
    let case = Case::new(asked, words.to_vec(), totals.to_vec());
    let ways = ways(&case).into_iter();
    ways.map(|name| name.split_once(": ").unwrap().1).collect()
}

fn build(text: &[u8], words: &[u64], totals: &[u32]) -> Vec<&'static str> {
    taken_by(Asked::Build(text.to_vec()), words, totals)
}

fn line(length: usize, words: &[u64], totals: &[u32], place: usize) -> Vec<&'static str> {
    taken_by(Asked::Line { length, place }, words, totals)
}

fn start(length: usize, words: &[u64], totals: &[u32], line: u64) -> Vec<&'static str> {
    taken_by(Asked::Start { length, line }, words, totals)
}

#[test]
fn each_has_a_name_of_its_own() {
    let lines = Lines::default();
    let mut names: Vec<_> = lines.counts().iter().map(|&(name, _)| name).collect();
    let count = names.len();
    names.sort_unstable();
    names.dedup();
    assert_eq!(names.len(), count);
}

#[test]
fn ways_of_builds() {
    assert_eq!(build(b"", &[0], &[0]), ["no text", "exact room"]);
    assert_eq!(
        build(b"\n", &[1, 7], &[3]),
        [
            "only newlines",
            "a last newline",
            "newline in a lowest bit",
            "more words",
            "an old first total"
        ]
    );
    assert_eq!(
        build(b"a\r\x0b", &[8], &[0, 0]),
        [
            "no newline",
            "a carriage return",
            "a newline but for one bit",
            "more totals",
            "old bits behind the text"
        ]
    );
    let mut text = vec![b'a'; 65];
    text[63..].fill(b'\n');
    assert_eq!(
        build(&text, &[7; 3], &[0; 3]),
        [
            "a last newline",
            "newline in a lowest bit",
            "newline in a highest bit",
            "newlines on both sides of a border",
            "one byte in the last word",
            "more of both",
            "old bits behind the text"
        ]
    );
    assert_eq!(
        build(&[b'\n'; LIMIT], &[0; 1_025], &[0; 1_025]),
        [
            "only newlines",
            "a last newline",
            "newline in a lowest bit",
            "newline in a highest bit",
            "newlines on both sides of a border",
            "a last word without a byte",
            "65,536 bytes",
            "a total above 8 bits",
            "a total above 16 bits",
            "exact room"
        ]
    );
}

#[test]
fn ways_of_refused_builds() {
    assert_eq!(
        build(b"a", &[], &[7, 7]),
        ["33, a word", "33, all words", "33, more totals"]
    );
    assert_eq!(
        build(&[b'a'; 64], &[7; 2], &[7]),
        ["33, a total", "33, the total without a byte"]
    );
    assert_eq!(build(&[b'a'; 63], &[], &[]), ["33, one of both"]);
    let long = [b'a'; LIMIT + 1];
    assert_eq!(build(&long, &[], &[]), ["30 by one", "30 and 33"]);
    assert_eq!(build(&long, &[0; 1_025], &[0; 1_025]), ["30", "30 by one"]);
}

#[test]
fn ways_of_lines() {
    assert_eq!(
        line(4, &[0xa], &[0], 2),
        [
            "behind a newline",
            "bits below",
            "bits above",
            "an index that was made"
        ]
    );
    assert_eq!(
        line(64, &[u64::MAX, 0, 1], &[0, 64], 64),
        [
            "the end",
            "the end, in a word of its own",
            "a lowest bit",
            "behind a newline",
            "behind a newline of the word before",
            "an index that was made",
            "words behind"
        ]
    );
    assert_eq!(
        line(64, &[u64::MAX, 0], &[0, 64, 1], 63),
        [
            "a highest bit",
            "of a newline",
            "behind a newline",
            "bits below",
            "63 bits below",
            "an index that was made",
            "totals behind"
        ]
    );
    assert_eq!(
        line(0, &[1], &[u32::MAX], 0),
        [
            "of no text",
            "the first place",
            "the first place, a total",
            "the end",
            "of a newline",
            "a total that no text has",
            "bits behind the text",
            "2^32"
        ]
    );
}

#[test]
fn ways_of_refused_lines() {
    assert_eq!(line(LIMIT + 1, &[0; 1_025], &[0; 1_025], 0), ["30"]);
    assert_eq!(
        line(1 << 32, &[0], &[0], (1 << 32) + 1),
        ["30, 33 and 31", "30 but for 32 bits"]
    );
    assert_eq!(
        line(64, &[0], &[0, 0], 1),
        ["33, a word", "33 though its word is lent"]
    );
    assert_eq!(line(64, &[0, 0], &[0], 99), ["33 and 31"]);
    assert_eq!(line(0, &[0], &[0], 1), ["31 by one", "31 in the last word"]);
    assert_eq!(line(3, &[0; 2], &[0; 2], 64), ["31 in a word behind"]);
    assert_eq!(line(3, &[0], &[0], 1 << 32), ["31 but for 32 bits"]);
}

#[test]
fn ways_of_starts() {
    assert_eq!(
        start(0, &[0], &[5], 1),
        ["line 1", "line 1, no total below", "line 1 of no text"]
    );
    assert_eq!(
        start(4, &[0xa], &[0], 3),
        [
            "in the only word",
            "behind a word's second newline",
            "the end of the text",
            "an index that was made",
            "the last line",
            "the last line, empty"
        ]
    );
    assert_eq!(
        start(130, &[1, 1, 2], &[0, 1, 0], 2),
        [
            "line 2",
            "in the last of several",
            "an earlier word has it too",
            "an earlier total is not below",
            "halving would not find it",
            "a total of n - 1 before it",
            "behind a word's first newline",
            "the end of the text"
        ]
    );
    assert_eq!(
        start(64, &[1 << 63, 1, 1], &[0, 1, 0], 2),
        [
            "line 2",
            "in the first of several",
            "the next total is n - 1",
            "behind a highest bit",
            "behind a word's first newline",
            "the end of the text",
            "words behind would answer otherwise"
        ]
    );
    assert_eq!(
        start(64, &[0, 3], &[u32::MAX; 2], (1 << 32) + 2),
        [
            "in the last of several",
            "equal totals, the later word",
            "behind a word's second newline",
            "beyond the text",
            "n - 1 is 2^32 or above",
            "other in 32 bits"
        ]
    );
}

#[test]
fn ways_of_refused_starts() {
    assert_eq!(
        start(LIMIT + 1, &[0; 1_025], &[0; 1_025], 1),
        ["30", "30, line 1"]
    );
    assert_eq!(start(LIMIT + 1, &[], &[], 0), ["30, 33 and 32"]);
    assert_eq!(
        start(64, &[1], &[0, 0], 2),
        ["33, a word", "33 though a word lent has it"]
    );
    assert_eq!(
        start(64, &[1, 1], &[0], 0),
        ["33, a total", "33 and 32", "33, line 0"]
    );
    assert_eq!(
        start(0, &[1], &[u32::MAX - 1], 0),
        ["32, line 0", "32, line 0, answered if n - 1 wraps"]
    );
    assert_eq!(start(0, &[1], &[7], 8), ["32, no word below"]);
    assert_eq!(
        start(64, &[1, 0], &[0, 0], 2),
        [
            "32, the last word runs short",
            "32, a word without bits",
            "32 though an earlier word has it"
        ]
    );
    assert_eq!(
        start(64, &[1, 0, 6], &[0, 1, 0], 3),
        [
            "32, the last word runs short",
            "32, a word without bits",
            "32 though a word behind has it",
            "32, one past the last"
        ]
    );
    assert_eq!(
        start(0, &[u64::MAX], &[0], 66),
        [
            "32, the only word runs short",
            "32, short by one bit",
            "32, short by one of 65 bits"
        ]
    );
    assert_eq!(
        start(1, &[1], &[0], (1 << 32) + 2),
        ["32, the only word runs short", "32 but for 32 bits"]
    );
}
