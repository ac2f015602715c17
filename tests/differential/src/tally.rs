//! How many cases ended how, and what they reached. What no case reached is not tested.

use crate::case::Case;
use model::predefined::{Calls, Predefined};
use model::ways::copies::Copies;
use model::ways::inclusions::Inclusions;
use model::ways::remarks::Remarks;
use model::ways::sets::Sets;
use model::ways::Ways;
use model::{Report, Trace, ANSWERS, NO_ITEMS};
use std::fmt::Display;

/// From so many cases on everything must be reached.
pub const ENOUGH: u64 = 20_000;
/// The ways of longer runs are not looked at: they take long and show no more.
const MOST_STEPS: u32 = 100;
/// Those of including are seen in fewer cases, and later.
const MOST_STEPS_WITH_ITEMS: u32 = 300;
/// The most characters of a line of counts.
const WIDTH: usize = 128;

#[derive(Default)]
pub struct Tally {
    answers: [u64; ANSWERS],
    room: [u64; 7],
    unclosed: [u64; 3],
    calls: Calls,
    steps: u64,
    crossings: u64,
    ways: Ways,
    remarks: Remarks,
    sets: Sets,
    inclusions: Inclusions,
    copies: Copies,
}

impl Tally {
    pub fn add(&mut self, report: &Report, trace: &Trace) {
        self.answers[report.number as usize] += 1;
        match report.number {
            4 => self.room[report.detail as usize - 1] += 1,
            5 => self.unclosed[report.detail as usize - 1] += 1,
            _ => {}
        }
        for (sum, calls) in self.calls.iter_mut().zip(trace.calls) {
            *sum += calls;
        }
        self.steps += u64::from(report.steps);
        self.crossings += trace.crossings;
    }

    /// Adds the ways of a run, which takes its steps up to four times more. Fails if the model
    /// breaks a rule of 02.
    pub fn add_ways(&mut self, case: &Case, report: &Report) -> Result<(), String> {
        let Case {
            text, set, setting, ..
        } = case;
        self.sets.note(text, set, setting, report)?;
        if set != NO_ITEMS && report.steps <= MOST_STEPS_WITH_ITEMS {
            self.inclusions.walk(text, set, setting, report)?;
        }
        if report.steps <= MOST_STEPS {
            self.ways.walk(text, set, report)?;
            self.remarks.walk(text, set, report)?;
            self.copies.walk(text, set, setting, report)?;
        }
        Ok(())
    }

    /// Every count with its name.
    pub fn counts(&self) -> Vec<(String, u64)> {
        let mut counts = Vec::new();
        counts.extend(
            self.answers
                .iter()
                .enumerate()
                .map(|(i, &count)| (format!("answer {i}"), count)),
        );
        counts.extend(
            self.room
                .iter()
                .enumerate()
                .map(|(i, &count)| (format!("room {}", i + 1), count)),
        );
        counts.extend(
            self.unclosed
                .iter()
                .enumerate()
                .map(|(i, &count)| (format!("unclosed {}", i + 1), count)),
        );
        counts.extend(
            Predefined::ALL
                .iter()
                .zip(self.calls)
                .map(|(which, count)| (format!("call of {}", which.name()), count)),
        );
        counts.push(("token across the border".to_string(), self.crossings));
        counts.push(("step".to_string(), self.steps));
        counts.extend(self.ways.counts());
        counts.extend(named(self.remarks.counts()));
        counts.extend(named(self.sets.counts()));
        counts.extend(named(self.inclusions.counts()));
        counts.extend(self.copies.counts());
        counts
    }

    /// What was never reached.
    pub fn missing(&self) -> Vec<String> {
        missing(&self.counts())
    }
}

fn named<const N: usize>(counts: [(&str, u64); N]) -> [(String, u64); N] {
    counts.map(|(way, count)| (way.to_string(), count))
}

/// Prints all counts, so many in a line. False if something was never reached, in enough cases.
pub fn all_reached<S: Display>(counts: &[(S, u64)], columns: usize, cases: u64) -> bool {
    all_counted(counts, columns, cases < ENOUGH)
}

/// The same, of cases that are too few or not.
pub fn all_counted<S: Display>(counts: &[(S, u64)], columns: usize, few: bool) -> bool {
    print(counts, columns);
    let missing = missing(counts);
    if few || missing.is_empty() {
        return true;
    }
    println!("never reached: {}", missing.join(", "));
    false
}

fn print<S: Display>(counts: &[(S, u64)], columns: usize) {
    let width = WIDTH / columns - 12;
    for line in counts.chunks(columns) {
        let cells: Vec<String> = line
            .iter()
            .map(|(name, count)| format!("{name:>width$} {count:>10}"))
            .collect();
        println!("{}", cells.join(" "));
    }
}

fn missing<S: Display>(counts: &[(S, u64)]) -> Vec<String> {
    let missing = counts.iter().filter(|(_, count)| *count == 0);
    missing.map(|(name, _)| name.to_string()).collect()
}
