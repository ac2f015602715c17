//! The ways of request 6 of 02: what is lent for an index, what is asked of it, and what another
//! reading would answer. Tests look here at cases from outside; no rule asks it.

mod build;
mod lent;
mod line;
mod start;
#[cfg(test)]
mod tests;

use crate::lines::case::{Asked, Case};
use build::Build;
use line::Line;
use start::Start;

/// A way: its name, and whether a case takes it.
type Way<T> = (&'static str, fn(&T) -> bool);

/// All ways that a case takes.
pub fn ways(case: &Case) -> Vec<&'static str> {
    match case.asked {
        Asked::Build(ref text) => taken(build::WAYS, &Build::of(case, text)),
        Asked::Line { place, .. } => taken(line::WAYS, &Line::of(case, place)),
        Asked::Start { line, .. } => taken(start::WAYS, &Start::of(case, line)),
    }
}

fn taken<T>(ways: &[Way<T>], case: &T) -> Vec<&'static str> {
    let taken = ways.iter().filter(|(_, takes)| takes(case));
    taken.map(|&(name, _)| name).collect()
}

/// How often each way was taken.
pub struct Lines {
    counts: Vec<(&'static str, u64)>,
}

impl Default for Lines {
    fn default() -> Lines {
        let build = build::WAYS.iter().map(|&(name, _)| name);
        let line = line::WAYS.iter().map(|&(name, _)| name);
        let start = start::WAYS.iter().map(|&(name, _)| name);
        let names = build.chain(line).chain(start);
        Lines {
            counts: names.map(|name| (name, 0)).collect(),
        }
    }
}

impl Lines {
    /// Notes the ways of a case.
    pub fn note(&mut self, case: &Case) {
        let ways = ways(case);
        for (name, count) in &mut self.counts {
            *count += u64::from(ways.contains(name));
        }
    }

    /// Every count, with its name. None must stay 0.
    pub fn counts(&self) -> &[(&'static str, u64)] {
        &self.counts
    }
}
