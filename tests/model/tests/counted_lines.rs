//! Request 6 of document 02: all small texts and random ones against counting through the text.

#[path = "common/index.rs"]
mod common;

use common::index;
use model::generate::lines::case;
use model::generate::Scale;
use model::lines::case::{Asked, Case};
use model::lines::{counted_line, counted_start, line_of, start_of, Answer};
use model::random::Random;
use model::{expand, LIMIT};
use Answer::{Good, NoSuchLine, PlaceBeyondEnd};

/// Texts that are counted through by hand.
#[test]
fn counting() {
    let text = b"a\n\nb";
    let lines = [0, 1, 2, 3, 4, 5].map(|place| counted_line(text, place));
    assert_eq!(lines, [Some(1), Some(1), Some(2), Some(3), Some(3), None]);
    let starts = [0, 1, 2, 3, 4].map(|line| counted_start(text, line));
    assert_eq!(starts, [None, Some(0), Some(2), Some(3), None]);
    assert_eq!(counted_start(b"\n", 2), Some(1));
    assert_eq!(
        (counted_line(b"", 0), counted_start(b"", 1)),
        (Some(1), Some(0))
    );
}

/// A place gets the line, and a line the start, that counting through the text gives.
fn as_counted(text: &[u8], places: impl Iterator<Item = usize>, lines: impl Iterator<Item = u64>) {
    let (words, totals) = index(text);
    for place in places {
        let got = line_of(text.len(), &words, &totals, place);
        let counted = counted_line(text, place).map_or(PlaceBeyondEnd, Good);
        assert_eq!(got, counted, "place {place} of {text:?}");
    }
    for line in lines {
        let got = start_of(text.len(), &words, &totals, line);
        let counted = counted_start(text, line).map_or(NoSuchLine, Good);
        assert_eq!(got, counted, "line {line} of {text:?}");
    }
}

/// Every place, one beyond, and all lines that there are or might be.
fn all_as_counted(text: &[u8]) {
    as_counted(text, 0..=text.len() + 1, 0..=text.len() as u64 + 3);
}

/// Every text of up to 12 bytes that are a newline or not.
#[test]
fn all_small_texts() {
    for length in 0..=12 {
        for text in 0..1 << length {
            let newline = |at| text >> at & 1 == 1;
            let text: Vec<u8> = (0..length)
                .map(|at| if newline(at) { b'\n' } else { b'a' })
                .collect();
            all_as_counted(&text);
        }
    }
}

/// Texts that end about a word's end: no newline, one anywhere, two side by side, nothing else.
#[test]
fn texts_about_a_word() {
    for length in [62, 63, 64, 65, 66, 126, 127, 128, 129, 130, 192] {
        all_as_counted(&vec![b'\n'; length]);
        all_as_counted(&vec![b'a'; length]);
        for at in 0..length {
            let mut text = vec![b'a'; length];
            text[at] = b'\n';
            all_as_counted(&text);
            text[(at + 1) % length] = b'\n';
            all_as_counted(&text);
        }
    }
}

/// The texts of random cases that are not refused.
fn random_texts(seed: u64, cases: usize) -> Vec<Vec<u8>> {
    let mut random = Random::new(seed);
    let built = |case: Case| match case.asked {
        Asked::Build(text) if case.expected.answer == Good(0) => Some(text),
        _ => None,
    };
    let texts = (0..cases).filter_map(|_| built(case(&mut random)));
    let texts: Vec<Vec<u8>> = texts.collect();
    assert!(texts.iter().any(|text| text.len() == LIMIT));
    texts
}

#[test]
fn random_texts_are_as_counted() {
    let mut random = Random::new(7);
    for text in random_texts(8, 3_000) {
        if text.len() <= 300 {
            all_as_counted(&text);
            continue;
        }
        let last = counted_line(&text, text.len()).unwrap();
        let places = [0, 63, 64, 65, text.len() - 1, text.len(), text.len() + 1];
        let lines = [0, 1, 2, last - 1, last, last + 1];
        let some_places = [(); 4].map(|()| random.between(0, text.len()));
        let some_lines = [(); 4].map(|()| random.between(0, last as usize) as u64);
        as_counted(
            &text,
            places.into_iter().chain(some_places),
            lines.into_iter().chain(some_lines),
        );
    }
}

/// "one bit for each byte, least bit first, set at newlines, .. with a 32-bit running total before
/// each", the bits behind the text 0.
#[test]
fn random_texts_have_their_words() {
    for text in random_texts(9, 3_000) {
        let (words, totals) = index(&text);
        let mut padded = text.clone();
        padded.resize(64 * words.len(), b'a');
        let mut newlines = 0;
        for (i, bytes) in padded.chunks(64).enumerate() {
            let digits = bytes
                .iter()
                .rev()
                .map(|&byte| if byte == 10 { '1' } else { '0' });
            let digits: String = digits.collect();
            assert_eq!(format!("{:064b}", words[i]), digits);
            assert_eq!(totals[i], newlines);
            newlines += bytes.iter().filter(|&&byte| byte == 10).count() as u32;
        }
    }
}

/// The place of a run lies in its text or at its end, and with 5, detail 3, there.
#[test]
fn places_of_runs() {
    let mut random = Random::new(6);
    let mut open_calls = 0;
    for _ in 0..1_000 {
        let run = model::generate::case(&mut random, Scale::Small);
        if run.text.len() > LIMIT {
            continue;
        }
        let report = expand(&run.text, &run.set, &run.setting);
        let place = report.place as usize;
        let (words, totals) = index(&run.text);
        let line = line_of(run.text.len(), &words, &totals, place);
        assert_eq!(Some(line), counted_line(&run.text, place).map(Good));
        if (report.number, report.detail) == (5, 3) {
            assert_eq!(place, run.text.len());
            open_calls += 1;
        }
    }
    assert!(open_calls > 0);
}
