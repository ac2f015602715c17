//! Every line of tests/vectors.tsv of the repository: each number, each written byte, and every byte that must be left alone.

mod common;
#[path = "common/fields.rs"]
mod fields;

use common::run_with;
use fields::{bytes, decimal as number};
use quenhovach::{set::items, Answer, EMPTY_SET};

const TABLE: &str = concat!(env!("CARGO_MANIFEST_DIR"), "/../tests/vectors.tsv");

fn lengths(field: &str) -> [usize; 7] {
    let lengths: Vec<usize> = field.split(',').map(number).collect();
    lengths.try_into().expect("seven lengths")
}

/// The crate's reader finds a fault in those sets that the library refuses, and in no others.
fn read_alike(item: &str, set: &[u8], answer: Answer) {
    let bad = items(set).any(|item| item.is_err());
    if answer != Answer::Lend {
        assert_eq!(bad, answer == Answer::BadSet, "{item}: {set:?}");
    }
}

#[test]
fn all_vectors() {
    let table = std::fs::read_to_string(TABLE).expect("tests/vectors.tsv");
    let (mut lines, mut included) = (0, 0);
    for line in table
        .lines()
        .filter(|line| !line.is_empty() && !line.starts_with('#'))
    {
        let fields: Vec<&str> = line.split('\t').collect();
        let [item, text, set, room, budget, answer, detail, steps, place, output, errors] =
            fields[..]
        else {
            panic!("eleven fields: {line}");
        };
        let (output, errors) = (bytes(output), bytes(errors));
        let expected = [
            number(answer),
            number(detail),
            number(steps),
            number(place),
            output.len() as u32,
            errors.len() as u32,
        ];
        let (text, set) = (bytes(text), bytes(set));
        let run = run_with(&text, &set, lengths(room), number(budget));
        assert_eq!(run.report.numbers(), expected, "{item}: {text:?}");
        assert_eq!(
            run.written(),
            (&errors[..], &output[..]),
            "{item}: {text:?}"
        );
        assert!(run.leaves_the_rest_alone(), "{item}: {text:?}");
        read_alike(item, &set, run.report.answer);
        lines += 1;
        included += usize::from(set != EMPTY_SET);
    }
    assert!(lines > 200, "{lines} lines only");
    assert!(included > 20, "{included} with a set only");
}
