//! The index of lines: every line of tests/lines.tsv of the repository, and `LineIndex` beside counting through the text.

#[path = "common/fields.rs"]
mod fields;

use fields::{bytes, decimal, hexadecimal, parts};
use quenhovach::lines::{build, line_of, start_of, Refused};
use quenhovach::{LineIndex, Position, LONGEST};

const TABLE: &str = concat!(env!("CARGO_MANIFEST_DIR"), "/../tests/lines.tsv");

/// Number and value of an answer; the value of a refusal is 0.
fn numbers(answer: Result<u64, Refused>) -> (u32, u64) {
    answer.map_or_else(|refused| (refused.number(), 0), |value| (0, value))
}

#[test]
fn all_vectors() {
    let table = std::fs::read_to_string(TABLE).expect("tests/lines.tsv");
    let mut tried = [0; 3];
    for line in table.lines().filter(|line| !line.starts_with('#')) {
        let fields: Vec<&str> = line.split('\t').collect();
        let [label, function, text, asked, words, totals, number, value, words_after, totals_after, _] =
            fields[..]
        else {
            panic!("eleven fields: {line}");
        };
        let words_of = |field| parts(field).into_iter().map(hexadecimal).collect();
        let totals_of = |field| parts(field).into_iter().map(decimal).collect();
        let mut words: Vec<u64> = words_of(words);
        let mut totals: Vec<u32> = totals_of(totals);
        let (kind, answer) = match function {
            "build" => (0, build(&bytes(text), &mut words, &mut totals).map(|()| 0)),
            "line" => (1, line_of(decimal(text), &words, &totals, decimal(asked))),
            "start" => {
                let start = start_of(decimal(text), &words, &totals, decimal(asked));
                (2, start.map(|place| place as u64))
            }
            _ => panic!("a function: {line}"),
        };
        assert_eq!(
            numbers(answer),
            (decimal(number), decimal(value)),
            "{label}"
        );
        assert_eq!(words, words_of(words_after), "{label}");
        assert_eq!(totals, totals_of(totals_after), "{label}");
        tried[kind] += 1;
    }
    assert!(tried.into_iter().all(|count| count >= 10), "{tried:?}");
}

/// Every place of a text and every line.
fn counted_through(text: &[u8]) {
    let index = LineIndex::new(text).expect("it is not too long");
    let mut at = Position { line: 1, column: 1 };
    assert_eq!(index.start(0), Err(Refused::NoLine));
    assert_eq!(index.start(1), Ok(0));
    for (place, &byte) in text.iter().enumerate() {
        assert_eq!(index.position(place), Ok(at), "{place}");
        at.column += 1;
        if byte == b'\n' {
            at.line += 1;
            at.column = 1;
            assert_eq!(index.start(at.line), Ok(place + 1));
        }
    }
    assert_eq!(index.position(text.len()), Ok(at));
    for place in [text.len() + 1, usize::MAX] {
        assert_eq!(index.line(place), Err(Refused::Beyond));
        assert_eq!(index.position(place), Err(Refused::Beyond));
    }
    for line in [at.line + 1, u64::MAX] {
        assert_eq!(index.start(line), Err(Refused::NoLine));
    }
}

#[test]
fn an_index_tells_what_counting_tells() {
    for length in [
        0,
        1,
        2,
        63,
        64,
        65,
        127,
        128,
        129,
        4096,
        LONGEST - 1,
        LONGEST,
    ] {
        for every in [1, 2, 7, 63, 64, 65, 1000, LONGEST] {
            let byte = |n| if n % every == 0 { b'\n' } else { b'x' };
            counted_through(&(1..=length).map(byte).collect::<Vec<u8>>());
        }
    }
    counted_through(b"\r\n\n\x0b\x8a\x00\n\xff");
}

#[test]
fn what_is_shown_of_it_is_short() {
    let index = LineIndex::new(b"a\nb").expect("it is not too long");
    assert_eq!(format!("{index:?}"), "LineIndex { length: 3, .. }");
}

#[test]
fn a_text_that_is_too_long_has_no_index() {
    let refused = LineIndex::new(&[b'\n'; LONGEST + 1]).map(|_| ());
    assert_eq!(refused, Err(Refused::TooLong));
}
