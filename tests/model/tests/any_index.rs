//! Request 6 of document 02: indexes that no text has, against the forms that 01 names; and what an
//! answer does not hang on.

use model::generate::lines::case;
use model::lines::case::Asked;
use model::lines::{words_of, Answer};
use model::random::Random;
use Answer::{Good, NoSuchLine, PlaceBeyondEnd, TextTooLong, TooLittleRoom};

/// Other words and totals behind an index change neither its answer nor what is written in it, and
/// stay as they are.
#[test]
fn nothing_behind_counts() {
    let mut random = Random::new(10);
    let mut tried = 0;
    for _ in 0..3_000 {
        let case = case(&mut random);
        let own = words_of(case.asked.length());
        if own > case.words.len() || own > case.totals.len() {
            continue;
        }
        let (mut words, mut totals) = (case.words[..own].to_vec(), case.totals[..own].to_vec());
        let exact = case.asked.outcome(&words, &totals);
        words.extend([random.bits(), random.bits(), u64::MAX]);
        totals.extend([0, random.bits() as u32, random.bits() as u32, 0]);
        let more = case.asked.outcome(&words, &totals);
        assert_eq!(
            (more.answer, exact.answer),
            (case.expected.answer, more.answer)
        );
        assert!(more.words == [&exact.words, &words[own..]].concat());
        assert!(more.totals == [&exact.totals, &totals[own..]].concat());
        tried += 1;
    }
    assert!(tried > 1_000, "{tried}");
}

/// Questions write nothing, and a refusal writes nothing.
#[test]
fn only_a_good_build_writes() {
    let mut random = Random::new(11);
    for _ in 0..3_000 {
        let case = case(&mut random);
        let writes = matches!(case.asked, Asked::Build(_)) && case.expected.answer == Good(0);
        if !writes {
            assert!(case.expected.words == case.words && case.expected.totals == case.totals);
        }
    }
}

/// "The answer reads one total and counts the set bits below the place in one word": all the others
/// may change, and the bits from the place on.
#[test]
fn a_line_reads_one_word() {
    let mut random = Random::new(12);
    let mut tried = 0;
    for _ in 0..6_000 {
        let case = case(&mut random);
        let (Asked::Line { place, .. }, Good(_)) = (&case.asked, case.expected.answer) else {
            continue;
        };
        let (read, at) = (place / 64, place % 64);
        let mut words: Vec<u64> = case.words.iter().map(|_| random.bits()).collect();
        let mut totals: Vec<u32> = case.totals.iter().map(|_| random.bits() as u32).collect();
        words[read] = case.words[read] ^ (random.bits() << at);
        totals[read] = case.totals[read];
        let other = case.asked.outcome(&words, &totals);
        assert_eq!(other.answer, case.expected.answer);
        tried += 1;
    }
    assert!(tried > 500, "{tried}");
}

/// The forms that 01 names: ones of a masked word are counted, and trailing zeros find a newline.
fn by_forms(asked: &Asked, words: &[u64], totals: &[u32]) -> Answer {
    let length = asked.length();
    if length > 65_536 {
        return TextTooLong;
    }
    let (Some(words), Some(totals)) = (words.get(..=length / 64), totals.get(..=length / 64))
    else {
        return TooLittleRoom;
    };
    match *asked {
        Asked::Line { place, .. } if place > length => PlaceBeyondEnd,
        Asked::Line { place, .. } => {
            let below = words[place / 64] & ((1 << (place % 64)) - 1);
            Good(u64::from(totals[place / 64]) + u64::from(below.count_ones()) + 1)
        }
        Asked::Start { line: 1, .. } => Good(0),
        Asked::Start { line, .. } => start_by_forms(words, totals, line).map_or(NoSuchLine, Good),
        Asked::Build(_) => Good(0),
    }
}

fn start_by_forms(words: &[u64], totals: &[u32], line: u64) -> Option<u64> {
    let before = line.checked_sub(1)?;
    let word = (0..words.len())
        .rev()
        .find(|&word| u64::from(totals[word]) < before)?;
    let more = before - u64::from(totals[word]);
    if more > u64::from(words[word].count_ones()) {
        return None;
    }
    let behind = (1..more).fold(words[word], |bits, _| bits & (bits - 1));
    Some(64 * word as u64 + u64::from(behind.trailing_zeros()) + 1)
}

#[test]
fn any_index_by_the_forms() {
    let mut random = Random::new(13);
    let mut numbers = [0; 34];
    for _ in 0..10_000 {
        let case = case(&mut random);
        let answer = case.expected.answer;
        assert_eq!(answer, by_forms(&case.asked, &case.words, &case.totals));
        numbers[answer.number() as usize] += 1;
    }
    let reached = [0, 30, 31, 32, 33].map(|number: usize| numbers[number]);
    assert!(reached.iter().all(|&count| count > 100), "{reached:?}");
}
