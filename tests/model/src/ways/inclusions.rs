//! The ways of request 1 of 02, second part: what runs include, and what becomes of it. Tests look
//! here at runs from outside. Those of sets are in [`sets`](super::sets).

mod asked;
#[cfg(test)]
mod tests;
mod walk;

use super::start;
use crate::answer::Setting;
use crate::Report;
use walk::Walk;

/// What was asked for, how it was found, and what came of it.
#[derive(Clone, Copy, Debug, PartialEq, Eq)]
pub enum Inclusion {
    IncludeFound,
    SincludeFound,
    IncludeUnknown,
    SincludeUnknown,
    NoNameFound,
    NoNameUnknown,
    LaterItem,
    FirstOfTwo,
    FirstOfTwoEmpty,
    GoesOn,
    IsFront,
    BlankBehind,
    OddName,
    NameAcross,
    TextAcross,
    EmptyContents,
    Surplus,
    InCall,
    CommaInCall,
    FromWrap,
    FromContents,
    Itself,
    ItselfSpent,
    ItselfRoom,
    TokenRunsOn,
    ParenthesisBehind,
    LineRunsOn,
    OpenQuote,
    Room,
    OverLimit,
    UnknownFromContents,
    UnknownNoRoom,
    UnknownSpent,
}

const INCLUSIONS: [(Inclusion, &str); 33] = [
    (Inclusion::IncludeFound, "include, found"),
    (Inclusion::SincludeFound, "sinclude, found"),
    (Inclusion::IncludeUnknown, "include, unknown"),
    (Inclusion::SincludeUnknown, "sinclude, unknown"),
    (Inclusion::NoNameFound, "no name, found"),
    (Inclusion::NoNameUnknown, "no name, unknown"),
    (Inclusion::LaterItem, "found later"),
    (Inclusion::FirstOfTwo, "first of two"),
    (Inclusion::FirstOfTwoEmpty, "first of two, empty"),
    (Inclusion::GoesOn, "item is its front"),
    (Inclusion::IsFront, "front of an item"),
    (Inclusion::BlankBehind, "a blank behind it"),
    (Inclusion::OddName, "found, an odd name"),
    (Inclusion::NameAcross, "found, name in two"),
    (Inclusion::TextAcross, "found, text in two"),
    (Inclusion::EmptyContents, "found, no contents"),
    (Inclusion::Surplus, "surplus arguments"),
    (Inclusion::InCall, "included in a call"),
    (Inclusion::CommaInCall, "a comma in a call"),
    (Inclusion::FromWrap, "included by wrap"),
    (Inclusion::FromContents, "contents include"),
    (Inclusion::Itself, "it includes itself"),
    (Inclusion::ItselfSpent, "itself, spent"),
    (Inclusion::ItselfRoom, "itself, no room 1"),
    (Inclusion::TokenRunsOn, "token runs on"),
    (Inclusion::ParenthesisBehind, "( behind contents"),
    (Inclusion::LineRunsOn, "dropped line runs on"),
    (Inclusion::OpenQuote, "contents open quote"),
    (Inclusion::Room, "contents, no room 1"),
    (Inclusion::OverLimit, "contents over 65,536"),
    (Inclusion::UnknownFromContents, "contents ask unknown"),
    (Inclusion::UnknownNoRoom, "15 before 4"),
    (Inclusion::UnknownSpent, "3 before 15"),
];

/// How often each way was taken.
pub struct Inclusions {
    taken: [u64; INCLUSIONS.len()],
}

impl Default for Inclusions {
    fn default() -> Inclusions {
        Inclusions {
            taken: [0; INCLUSIONS.len()],
        }
    }
}

impl Inclusions {
    /// Notes what the run of a text with a set did that ended in this report. Fails if something was
    /// not included as 02 asks.
    pub fn walk(
        &mut self,
        text: &[u8],
        set: &[u8],
        setting: &Setting,
        report: &Report,
    ) -> Result<(), String> {
        let mut walk = Walk::at_start(self, start(text, set));
        for _ in 0..report.steps {
            walk.completed();
        }
        walk.refused(setting, report);
        walk.verdict
    }

    fn note(&mut self, way: Inclusion) {
        self.taken[way as usize] += 1;
    }

    /// Every count, with its name. None must stay 0.
    pub fn counts(&self) -> [(&'static str, u64); INCLUSIONS.len()] {
        INCLUSIONS.map(|(way, name)| (name, self.taken[way as usize]))
    }
}
