//! What request 8 says of a run that ended in 0 or 1. Of refused runs it says nothing: they have no
//! output.

use super::{Byte, Numbers};
use crate::Report;
use std::collections::HashMap;
use std::hash::Hash;

/// Answers 0 and 1.
const DONE: u32 = 0;
const EXIT: u32 = 1;

/// Holds a report to every sentence, by the numbers of its run. Says which one does not hold first.
pub fn check(report: &Report, numbers: &Numbers) -> Result<(), String> {
    let holds: fn(&Byte) -> bool = match report.number {
        // "each number exactly once, except the numbers that an undivert moved while a discarding
        // stream was current; those it holds not at all"
        DONE => |byte| !byte.is_lost(),
        // "After m4exit the output holds exactly the numbers standing in stream 0, each once."
        EXIT => |byte| byte.last_place() == 0,
        _ => return Ok(()),
    };
    every_byte_numbered(report, numbers)?;
    each_once(numbers, holds)?;
    // "Bytes placed in one stream that make every move together keep their order."
    in_order(numbers, "make every move together", |byte| {
        (byte.first_place(), &byte.moves)
    })?;
    // so do those that go one way in different moves: none can overtake another
    in_order(numbers, "go one route", |byte| &byte.route)
}

/// "the output holds no byte without a number", and no number that was not given; the numbers stand for
/// its bytes.
fn every_byte_numbered(report: &Report, numbers: &Numbers) -> Result<(), String> {
    let written = numbers.written();
    let written = written.ok_or("a number in the output was given to no byte")?;
    let output = &report.output;
    if output.len() > written.len() {
        return Err(format!("byte {} has no number", written.len()));
    }
    let differs = (0..written.len()).find(|&at| output.get(at) != Some(&written[at]));
    match differs {
        Some(at) => Err(format!("byte {at} of the output is not that of its number")),
        None => Ok(()),
    }
}

/// Each number that the output has to hold stands there once, and no other does.
fn each_once(numbers: &Numbers, holds: fn(&Byte) -> bool) -> Result<(), String> {
    let mut times = vec![0; numbers.bytes.len()];
    for &number in numbers.output() {
        times[number] += 1;
    }
    for (number, byte) in numbers.bytes.iter().enumerate() {
        let wanted = usize::from(holds(byte));
        if times[number] != wanted {
            return Err(format!(
                "number {number}, by the streams {:?}, is in the output {} times instead of {wanted}",
                byte.route, times[number]
            ));
        }
    }
    Ok(())
}

/// Of the numbers of the output that have one key, each stands behind the smaller ones.
fn in_order<'n, K: Eq + Hash>(
    numbers: &'n Numbers,
    what: &str,
    key: impl Fn(&'n Byte) -> K,
) -> Result<(), String> {
    let mut last = HashMap::new();
    for &number in numbers.output() {
        match last.insert(key(&numbers.bytes[number]), number) {
            Some(before) if before > number => {
                return Err(format!(
                    "number {number} stands behind {before}, although both {what}"
                ));
            }
            _ => {}
        }
    }
    Ok(())
}

#[cfg(test)]
mod tests {
    use super::*;
    use crate::{expand_recorded, Setting, NO_ITEMS};

    /// A run, its numbers, and what was done to them.
    fn changed(
        text: &str,
        change: impl FnOnce(&mut Vec<u8>, &mut Vec<usize>),
    ) -> Result<(), String> {
        let (mut report, trace) = expand_recorded(text.as_bytes(), NO_ITEMS, &Setting::ample());
        let mut numbers = Numbers::of(&trace.history);
        assert_eq!(check(&report, &numbers), Ok(()));
        change(&mut report.output, &mut numbers.streams[0]);
        check(&report, &numbers)
    }

    fn says(text: &str, change: fn(&mut Vec<u8>, &mut Vec<usize>), what: &str) {
        let told = changed(text, change).expect_err(what);
        assert!(told.contains(what), "{told} instead of {what}");
    }

    /// The bytes a and b are joined at the end, c was written before; x is lost.
    const DONE: &str = "divert(2)ab`'divert(3)x`'divert(-1)undivert(3)divert`'c";
    /// a stands in the output, b in stream 1.
    const EXIT: &str = "divert(1)a`'divert`'undivert(1)divert(1)b m4exit";

    #[test]
    fn a_byte_without_a_number() {
        let behind = |output: &mut Vec<u8>, _: &mut Vec<usize>| output.push(b'c');
        says(DONE, behind, "byte 3 has no number");
        says(EXIT, behind, "byte 1 has no number");
        says("", behind, "byte 0 has no number");
    }

    #[test]
    fn another_byte() {
        let first = |output: &mut Vec<u8>, _: &mut Vec<usize>| output[0] = b'?';
        says(
            DONE,
            first,
            "byte 0 of the output is not that of its number",
        );
        let last = |output: &mut Vec<u8>, _: &mut Vec<usize>| output.truncate(2);
        says(DONE, last, "byte 2 of the output is not that of its number");
    }

    #[test]
    fn a_number_that_was_not_given() {
        let none = |_: &mut Vec<u8>, numbers: &mut Vec<usize>| numbers[0] = 4;
        says(DONE, none, "given to no byte");
    }

    #[test]
    fn a_number_twice() {
        let again = |output: &mut Vec<u8>, numbers: &mut Vec<usize>| {
            output.push(output[0]);
            numbers.push(numbers[0]);
        };
        says(
            DONE,
            again,
            "number 3, by the streams [0], is in the output 2 times instead of 1",
        );
        says(
            EXIT,
            again,
            "number 0, by the streams [1, 0], is in the output 2 times instead of 1",
        );
    }

    #[test]
    fn a_number_missing() {
        let gone = |output: &mut Vec<u8>, numbers: &mut Vec<usize>| {
            output.remove(0);
            numbers.remove(0);
        };
        says(
            DONE,
            gone,
            "number 3, by the streams [0], is in the output 0 times instead of 1",
        );
        says(
            EXIT,
            gone,
            "number 0, by the streams [1, 0], is in the output 0 times instead of 1",
        );
    }

    #[test]
    fn a_number_that_must_not_be_there() {
        let lost = |output: &mut Vec<u8>, numbers: &mut Vec<usize>| {
            output.push(b'x');
            numbers.push(2);
        };
        says(
            DONE,
            lost,
            "number 2, by the streams [3, -1], is in the output 1 times instead of 0",
        );
        let dropped = |output: &mut Vec<u8>, numbers: &mut Vec<usize>| {
            output.push(b'b');
            numbers.push(1);
        };
        says(
            EXIT,
            dropped,
            "number 1, by the streams [1], is in the output 1 times instead of 0",
        );
    }

    #[test]
    fn a_pair_that_changed_places() {
        let swapped = |output: &mut Vec<u8>, numbers: &mut Vec<usize>| {
            output.swap(1, 2);
            numbers.swap(1, 2);
        };
        says(
            DONE,
            swapped,
            "number 0 stands behind 1, although both make every move together",
        );
    }

    /// a and b went by one route, each in a move of its own.
    #[test]
    fn a_pair_of_one_route_that_changed_places() {
        let text = "divert(2)a`'divert(1)undivert(2)divert(2)b`'divert(1)undivert(2)";
        let swapped = |output: &mut Vec<u8>, numbers: &mut Vec<usize>| {
            output.swap(0, 1);
            numbers.swap(0, 1);
        };
        says(
            text,
            swapped,
            "number 0 stands behind 1, although both go one route",
        );
    }

    /// y was placed first, in another stream: the order of such numbers is not said.
    #[test]
    fn bytes_that_meet_later() {
        let text = "divert(2)y`'divert(1)x`'undivert(2)";
        let same = |output: &mut Vec<u8>, numbers: &mut Vec<usize>| {
            assert_eq!((&output[..], &numbers[..]), (&b"xy"[..], &[1, 0][..]));
        };
        assert_eq!(changed(text, same), Ok(()));
    }

    #[test]
    fn nothing_of_a_refused_run() {
        let (mut report, trace) = expand_recorded(b"a`", NO_ITEMS, &Setting::ample());
        assert_eq!(report.number, 5);
        let numbers = Numbers::of(&trace.history);
        assert_eq!(numbers.output(), [0]);
        assert_eq!(check(&report, &numbers), Ok(()));
        report.number = 0;
        assert!(check(&report, &numbers).is_err());
    }
}
