//! Where in the included texts a refused run was reading. A report's place counts bytes of the templates alone, and so stands behind the
//! call that included the text.
//!
//! It is found by running again with other texts in the set, and looking whether the report stays the same. A text was being read if an
//! other beginning makes a difference, and one byte more behind it makes none. How far it was read is told by how much of it can be blanks:
//! blanks, since they take as much room. It is a finding and no proof: a text that was included twice, and read to its end once, is
//! not found.

use crate::sets::{Item, Lent};
use quenhovach::{Answer, Position, Report, Set};

/// What the runs may take in all: about a second.
const MOST_STEPS: u64 = 20_000_000;
/// The runs for one text, at most, beside the one for each.
const RUNS: u64 = 40;
/// Bytes of a set that are judged in the time of a step.
const BYTES_A_STEP: u64 = 16;

/// An included text that was being read.
pub struct Spot {
    /// What messages call the text.
    pub told: String,
    /// The last of its bytes that the refused step has to do with.
    pub position: Position,
}

/// The included texts that were being read in a refused run, in the order of the set; `run` is the same run with another set.
pub fn being_read(report: &Report, lent: &Lent, mut run: impl FnMut(Set) -> Report) -> Vec<Spot> {
    let items = lent.items();
    if matches!(report.answer, Answer::Lend | Answer::BadSet) || is_too_much(report, lent, &items) {
        return Vec::new();
    }
    let mut same = |number: usize, text: Vec<u8>| {
        let texts = items.iter().enumerate().map(|(n, item)| match n {
            _ if n == number => (&item.name, &text),
            _ => (&item.name, &item.text),
        });
        Set::of(texts).is_ok_and(|set| run(set) == *report)
    };
    let spot = |number: usize| {
        let Item { text, told, .. } = &items[number];
        let length = read_of(text, |text| same(number, text))?;
        Some(Spot {
            told: told.clone(),
            position: position(text, length - 1),
        })
    };
    (0..items.len()).filter_map(spot).collect()
}

fn is_too_much(report: &Report, lent: &Lent, items: &[Item]) -> bool {
    let run = u64::from(report.steps) + lent.bytes.len() as u64 / BYTES_A_STEP;
    run * (items.len() as u64 + RUNS) > MOST_STEPS
}

/// How many bytes of a text were read, if it was being read; `same` tells whether another text in its place makes no difference.
fn read_of(text: &[u8], mut same: impl FnMut(Vec<u8>) -> bool) -> Option<usize> {
    let mut begins = |length: usize| {
        let mut blank = text.to_vec();
        blank[length..].fill(b' ');
        same(blank)
    };
    if begins(0) {
        return None;
    }
    let (mut too_few, mut enough) = (0, text.len());
    while enough - too_few > 1 {
        let middle = too_few + (enough - too_few) / 2;
        if begins(middle) {
            enough = middle;
        } else {
            too_few = middle;
        }
    }
    same([text, b"\n"].concat()).then_some(enough)
}

/// Line and column of a byte in a text of any length.
fn position(text: &[u8], place: usize) -> Position {
    let before = &text[..place];
    let start = before
        .iter()
        .rposition(|&b| b == b'\n')
        .map_or(0, |n| n + 1);
    Position {
        line: 1 + before.iter().filter(|&&b| b == b'\n').count() as u64,
        column: 1 + place - start,
    }
}

#[cfg(test)]
mod tests {
    use super::*;
    use crate::sets::Origin;
    use quenhovach::Expander;

    /// What was being read, with these items.
    fn spots(text: &str, items: &[(&str, &str)]) -> Vec<String> {
        let set = Set::of(items.iter().copied()).expect("they fit");
        let lent = Lent {
            bytes: set.into(),
            origin: Origin::File("a.set".to_string()),
        };
        let run = |set: Vec<u8>| {
            Expander::new()
                .with_budget(5000)
                .with_set(set)
                .run(text.as_bytes())
        };
        let report = run(lent.bytes.clone());
        assert!(report.answer.is_refusal(), "{text}");
        let found = being_read(&report, &lent, |set| run(set.into()));
        found
            .iter()
            .map(|spot| format!("{}:{}", spot.told, spot.position))
            .collect()
    }

    #[test]
    fn a_text_that_was_being_read() {
        let unused = ("unused", "incr(x)");
        for (text, included, expected) in [
            ("include(`a')\n", "one\ntwo eval(08) three\n", "a:2:12"),
            ("include(`a')", "eval(08)", "a:1:8"),
            (
                "x sinclude(`a')",
                "define(`f', `incr(x)')\nf three\n",
                "a:2:1",
            ),
            ("include(`a')\n", "one\n `two\nthree\n", "a:2:2"),
            ("include(`a')", "one include(`b')", "a:1:16"),
            ("include(`a')", "include(`a')x", "a:1:12"),
            ("len(include(`a'))", "incr(x)", "a:1:7"),
        ] {
            assert_eq!(
                spots(text, &[("a", included), unused]),
                [expected],
                "{text} {included}"
            );
        }
    }

    #[test]
    fn a_text_that_another_includes() {
        let found = spots(
            "include(`a')",
            &[("b", "two\nincr(x)\n"), ("a", "one\n include(`b') three\n")],
        );
        assert_eq!(found, ["b:2:7", "a:2:13"]);
    }

    #[test]
    fn nothing_that_was_read_before_or_never() {
        for text in [
            "include(`a')\neval(08)",
            "include(`a')`",
            "include(`a')f",
            "eval(08)include(`a')",
            "sinclude(`b')include(`c')",
            "include(`a')len(",
        ] {
            let items = [("a", "define(`f', `incr(x)')one\n")];
            assert_eq!(spots(text, &items), [] as [&str; 0], "{text}");
        }
    }

    #[test]
    fn no_more_runs_than_a_second_takes() {
        let text = "define(`f', `f')f";
        let lent = Lent {
            bytes: Set::of([("a", "b")]).expect("it fits").into(),
            origin: Origin::Nowhere,
        };
        let report = Expander::new().with_budget(1_000_000).run(text.as_bytes());
        let found = being_read(&report, &lent, |_| panic!("it would take too long"));
        assert!(found.is_empty());
    }
}
