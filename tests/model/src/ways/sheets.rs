//! The ways of request 4 of 02: what a written text is as a sheet and why it is none, how a text comes
//! to be read, and what is asked of which lines. Tests look here at cases from outside; no rule asks it.

mod malformed;
mod question;
mod read;
mod readings;
mod run;
#[cfg(test)]
mod tests;

use crate::sheet::case::{Asked, Case, Outcome};
use question::Question;
use read::Read;
use run::Run;

/// A way: its name, and whether a case takes it.
type Way<T> = (&'static str, fn(&T) -> bool);

/// All ways that a case takes.
pub fn ways(case: &Case) -> Vec<&'static str> {
    match (&case.asked, &case.expected) {
        (Asked::Read(text), Outcome::Read(judged)) => {
            let read = Read::of(text, judged);
            let mut ways = taken(read::WAYS, &read);
            ways.extend(taken(readings::WAYS, &read));
            ways.extend(taken(malformed::WAYS, &read));
            ways
        }
        (Asked::Sheet(template), Outcome::Sheet(expanded)) => {
            taken(run::WAYS, &Run::of(template, expanded))
        }
        (Asked::Question { lines, text, name }, Outcome::Question(reading)) => {
            taken(question::WAYS, &Question::of(lines, text, name, *reading))
        }
        _ => Vec::new(),
    }
}

fn taken<T>(ways: &[Way<T>], case: &T) -> Vec<&'static str> {
    let taken = ways.iter().filter(|(_, takes)| takes(case));
    taken.map(|&(name, _)| name).collect()
}

fn names<T>(ways: &[Way<T>]) -> impl Iterator<Item = &'static str> + '_ {
    ways.iter().map(|&(name, _)| name)
}

/// How often each way was taken.
pub struct Sheets {
    counts: Vec<(&'static str, u64)>,
}

impl Default for Sheets {
    fn default() -> Sheets {
        let names = names(read::WAYS)
            .chain(names(readings::WAYS))
            .chain(names(malformed::WAYS))
            .chain(names(run::WAYS))
            .chain(names(question::WAYS));
        Sheets {
            counts: names.map(|name| (name, 0)).collect(),
        }
    }
}

impl Sheets {
    /// Notes the ways of a case.
    pub fn note(&mut self, case: &Case) {
        let ways = ways(case);
        for (name, count) in &mut self.counts {
            *count += u64::from(ways.contains(name));
        }
    }

    /// Every count, with its name. None must stay 0.
    pub fn counts(&self) -> &[(&'static str, u64)] {
        &self.counts
    }
}
