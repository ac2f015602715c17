//! The generators reach every answer, every detail of 4 and 5, every macro and every way of requests
//! 1, 2, 3, 4, 6, 7 and 8, and the third demand holds on random pairs.

use model::demand3::try_pair;
use model::generate::{case, input, lines, pair, sheets, Case, Input, Scale};
use model::predefined::{Calls, Predefined};
use model::random::Random;
use model::ways::copies::Copies;
use model::ways::histories::Histories;
use model::ways::inclusions::Inclusions;
use model::ways::lines::Lines;
use model::ways::remarks::Remarks;
use model::ways::sets::Sets;
use model::ways::sheets::Sheets;
use model::ways::{Use, Way, Ways, NEED_PARENTHESIS};
use model::{expand, expand_traced, Setting, ANSWERS, LIMIT, NO_ITEMS};

#[test]
fn everything_is_reached() {
    let mut random = Random::new(1);
    let (mut answers, mut room, mut unclosed) = ([0; ANSWERS], [0; 8], [0; 4]);
    let mut calls = Calls::default();
    for _ in 0..3_000 {
        let case = case(&mut random, Scale::Small);
        let (report, trace) = expand_traced(&case.text, &case.set, &case.setting);
        answers[report.number as usize] += 1;
        match report.number {
            4 => room[report.detail as usize] += 1,
            5 => unclosed[report.detail as usize] += 1,
            _ => {}
        }
        let more = calls.iter_mut().zip(trace.calls);
        more.for_each(|(count, more)| *count += more);
    }
    assert!(answers.iter().all(|&count| count > 0), "{answers:?}");
    assert!(room[1..].iter().all(|&count| count > 0), "{room:?}");
    assert!(unclosed[1..].iter().all(|&count| count > 0), "{unclosed:?}");
    assert!(calls.iter().all(|&count| count > 0), "{calls:?}");
}

/// 02, request 2: each word as plain text, outside calls and inside, parted from a parenthesis by a
/// blank, a quote and a comment, with its parenthesis across the border, and uncovered.
const OF_EACH_WORD: [&[Way]; 7] = [
    &[Way::ToOutput, Way::ToStream, Way::Discarded],
    &[Way::FirstInArgument, Way::BehindDropped, Way::BehindToken],
    &[Way::SpaceBetween, Way::TabBetween, Way::NewlineBetween],
    &[Way::QuoteBetween],
    &[Way::CommentBetween],
    &[Way::OpenedAtBorder],
    &[Way::PlainAgain],
];

#[test]
fn every_way_of_a_plain_word_is_reached() {
    let mut random = Random::new(1);
    let mut ways = Ways::default();
    for _ in 0..4_000 {
        let case = case(&mut random, Scale::Small);
        let report = expand(&case.text, &case.set, &case.setting);
        let verdict = ways.walk(&case.text, &case.set, &report);
        assert_eq!(verdict, Ok(()), "{}", String::from_utf8_lossy(&case.text));
    }
    for word in NEED_PARENTHESIS {
        assert!(ways.used(Use::Text, word) > 0, "{word:?} is never covered");
        for any in OF_EACH_WORD {
            // A text that covers popdef stays: no other macro uncovers.
            let stays = word == Predefined::Popdef && any.contains(&Way::PlainAgain);
            let taken = any.iter().any(|&way| ways.taken(way, word) > 0);
            assert!(taken || stays, "{word:?} never takes {any:?}");
        }
    }
}

/// 02, request 3: comments that are open at the end of the text ahead, wherever that may be, and what
/// becomes of them.
#[test]
fn every_way_of_a_last_comment_is_reached() {
    let mut random = Random::new(1);
    let mut remarks = Remarks::default();
    for _ in 0..4_000 {
        let case = case(&mut random, Scale::Small);
        let report = expand(&case.text, &case.set, &case.setting);
        let verdict = remarks.walk(&case.text, &case.set, &report);
        assert_eq!(verdict, Ok(()), "{}", String::from_utf8_lossy(&case.text));
    }
    for (way, count) in remarks.counts() {
        assert!(count > 0, "{way} is never reached");
    }
}

/// 02, request 1: sets of every form, and whatever becomes of what is asked for. The longest ones are
/// not among small cases.
#[test]
fn every_way_of_a_set_is_reached() {
    let mut random = Random::new(1);
    let (mut sets, mut inclusions) = (Sets::default(), Inclusions::default());
    for _ in 0..12_000 {
        let Case { text, set, setting } = case(&mut random, Scale::Full);
        let report = expand(&text, &set, &setting);
        let noted = sets.note(&text, &set, &setting, &report);
        assert_eq!(noted, Ok(()), "{}", String::from_utf8_lossy(&text));
        if report.steps <= 300 && set != NO_ITEMS {
            let walked = inclusions.walk(&text, &set, &setting, &report);
            assert_eq!(walked, Ok(()), "{}", String::from_utf8_lossy(&text));
        }
    }
    let counts: Vec<_> = sets
        .counts()
        .into_iter()
        .chain(inclusions.counts())
        .collect();
    let never: Vec<_> = counts.iter().filter(|(_, count)| *count == 0).collect();
    assert!(never.is_empty(), "never reached: {never:?} of {counts:?}");
}

/// 02, request 6: indexes, places and lines of every kind, and each pair of refusals at once.
#[test]
fn every_way_of_the_index_of_lines_is_reached() {
    let mut random = Random::new(1);
    let mut ways = Lines::default();
    for _ in 0..10_000 {
        ways.note(&lines::case(&mut random));
    }
    let counts = ways.counts();
    let never: Vec<_> = counts.iter().filter(|(_, count)| *count == 0).collect();
    assert!(never.is_empty(), "never reached: {never:?} of {counts:?}");
}

/// 02, request 4: sheets and what is nearly one, runs that write them, and questions of every kind. The
/// longest ones are not among small cases, nor are sets and budgets.
#[test]
fn every_way_of_the_sheet_is_reached() {
    let mut random = Random::new(1);
    let mut ways = Sheets::default();
    for _ in 0..20_000 {
        ways.note(&sheets::case(&mut random, Scale::Full));
    }
    let counts = ways.counts();
    let never: Vec<_> = counts.iter().filter(|(_, count)| *count == 0).collect();
    assert!(never.is_empty(), "never reached: {never:?} of {counts:?}");
}

/// 02, request 7: every meaning copied onto every kind of name, and whatever becomes of copies. The
/// longest ones are not among small cases.
#[test]
fn every_way_of_a_copy_is_reached() {
    let mut random = Random::new(1);
    let mut copies = Copies::default();
    for _ in 0..20_000 {
        let Case { text, set, setting } = case(&mut random, Scale::Full);
        let report = expand(&text, &set, &setting);
        if report.steps <= 100 {
            let walked = copies.walk(&text, &set, &setting, &report);
            assert_eq!(walked, Ok(()), "{}", String::from_utf8_lossy(&text));
        }
    }
    let counts = copies.counts();
    let never: Vec<_> = counts.iter().filter(|(_, count)| *count == 0).collect();
    assert!(never.is_empty(), "never reached: {never:?} of {counts:?}");
}

/// 02, request 8: bytes placed and moved in every way, and what request 8 says holds of them. The usual
/// texts alone come to all of this.
#[test]
fn every_way_of_a_history_is_reached() {
    let mut random = Random::new(1);
    let mut histories = Histories::default();
    for _ in 0..10_000 {
        let Case { text, set, setting } = case(&mut random, Scale::Small);
        let report = expand(&text, &set, &setting);
        let walked = histories.walk(&text, &set, &report);
        assert_eq!(walked, Ok(()), "{}", String::from_utf8_lossy(&text));
    }
    let counts = histories.counts();
    let never: Vec<_> = counts.iter().filter(|(_, count)| *count == 0).collect();
    assert!(never.is_empty(), "never reached: {never:?} of {counts:?}");
}

#[test]
fn room_never_shapes_text() {
    let mut random = Random::new(3);
    for _ in 0..1_000 {
        let pair = pair(&mut random, Scale::Small);
        if let Err(violation) = try_pair(&mut random, &pair) {
            panic!("{violation}");
        }
    }
}

/// A run that needs exactly its peaks and steps gets along with just those, and with no less of
/// any.
#[test]
fn peaks_are_exact() {
    let mut random = Random::new(5);
    for _ in 0..500 {
        let Input { text, set } = input(&mut random, Scale::Small);
        let run = |lengths, budget| expand_traced(&text, &set, &Setting { lengths, budget });
        let (report, trace) = run([LIMIT; 7], 4_000);
        if report.number > 1 {
            continue;
        }
        let (lengths, budget) = (trace.peaks, report.steps);
        assert_eq!(run(lengths, budget).0, report);
        let (spent, _) = run(lengths, budget - 1);
        assert_eq!((spent.number, spent.steps), (3, budget - 1));
        for buffer in (0..7).filter(|&buffer| lengths[buffer] > 0) {
            let mut short = lengths;
            short[buffer] -= 1;
            let (refused, _) = run(short, budget);
            assert_eq!((refused.number, refused.detail), (4, buffer as u32 + 1));
        }
    }
}
