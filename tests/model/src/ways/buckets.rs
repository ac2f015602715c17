//! The ways of request 9 of 02: what a search finds in the bucket of a name and what it passes by, and
//! what becomes of a bucket when definitions come and go. Tests look here at runs from outside. The
//! model itself knows of no buckets, so each run is its plain search's, and what the buckets hold is
//! found out beside it.

mod shelf;
#[cfg(test)]
mod tests;
mod walk;

use super::start;
use crate::answer::Setting;
use crate::Report;
use walk::Walk;

/// So many others passed by are many.
const MANY: usize = 20;
/// A table of so many definitions is large.
const LARGE: usize = 500;
/// Names that differ in so many last bytes alone are alike. (No two that differ in one alone share a
/// bucket.)
const LAST: usize = 4;
/// From so many bytes on a name is long.
const LONG: usize = 300;

/// What was found, and where in its bucket, and what was done to it.
#[derive(Clone, Copy, Debug, PartialEq, Eq)]
pub enum Bucketed {
    // a definition is found
    First,
    Second,
    Later,
    BehindMany,
    NewestOfSeveral,
    SeveralAmongOthers,
    OverOwn,
    PassedLastBytes,
    PassedBeginning,
    Moved,
    InLarge,
    OfOneByte,
    OfLongName,
    // an own meaning is in force, or gone
    OwnAlone,
    OwnBehind,
    OwnGoneAlone,
    OwnGoneBehind,
    // a name that never meant anything
    NoneEmpty,
    NoneBehind,
    NoneBehindMany,
    NonePredefined,
    NonePredefinedBehind,
    // where the name stands
    PendingFound,
    AcrossFound,
    AcrossOwn,
    AcrossNone,
    AcrossClosed,
    // a call that closes
    ClosedOwn,
    ClosedBehind,
    ClosedMoved,
    ClosedGone,
    // who asks
    Ifdef,
    IfdefNone,
    Defn,
    DefnNone,
    // a definition arrives, or another one takes its place
    AddedFirst,
    AddedToOthers,
    AddedToOwnBucket,
    AddedForOwn,
    ReplacedFirst,
    ReplacedBehind,
    CopiedWithin,
    CopiedAcross,
    // one goes
    PoppedLastEmpties,
    PoppedLastOthersBelow,
    PoppedMiddleEmpties,
    PoppedMiddleFirst,
    PoppedMiddleBehind,
    PoppedOldest,
    PoppedOnly,
    PoppedToOlder,
    PoppedOwn,
    PoppedNothing,
    // all of a name go
    UndefinedOne,
    UndefinedSeveral,
    UndefinedSeveralAlone,
    UndefinedMoves,
    UndefinedLast,
    UndefinedOwn,
    UndefinedNothing,
    // refused
    NoRoom,
    Spent,
}

const BUCKETED: [(Bucketed, &str); 62] = [
    (Bucketed::First, "found first in its bucket"),
    (Bucketed::Second, "found second"),
    (Bucketed::Later, "found third or later"),
    (Bucketed::BehindMany, "found behind 20 or more"),
    (Bucketed::NewestOfSeveral, "the newest of several"),
    (Bucketed::SeveralAmongOthers, "of several, others between"),
    (Bucketed::OverOwn, "over an own meaning"),
    (Bucketed::PassedLastBytes, "passed one by its last bytes"),
    (Bucketed::PassedBeginning, "passed one by its length"),
    (Bucketed::Moved, "found where it moved to"),
    (Bucketed::InLarge, "found among 500 or more"),
    (Bucketed::OfOneByte, "found by one byte"),
    (Bucketed::OfLongName, "found by 300 bytes"),
    (Bucketed::OwnAlone, "own meaning, empty bucket"),
    (Bucketed::OwnBehind, "own meaning behind others"),
    (Bucketed::OwnGoneAlone, "own gone, empty bucket"),
    (Bucketed::OwnGoneBehind, "own gone, others there"),
    (Bucketed::NoneEmpty, "nothing in an empty bucket"),
    (Bucketed::NoneBehind, "nothing behind others"),
    (Bucketed::NoneBehindMany, "nothing behind 20 or more"),
    (Bucketed::NonePredefined, "not the predefined one"),
    (Bucketed::NonePredefinedBehind, "nor it behind others"),
    (Bucketed::PendingFound, "found, in pending text"),
    (Bucketed::AcrossFound, "found, across the border"),
    (Bucketed::AcrossOwn, "own meaning, across it"),
    (Bucketed::AcrossNone, "nothing, across it"),
    (Bucketed::AcrossClosed, "closed, opened across it"),
    (Bucketed::ClosedOwn, "own meaning at closing"),
    (Bucketed::ClosedBehind, "found behind others then"),
    (Bucketed::ClosedMoved, "moved while it was open"),
    (Bucketed::ClosedGone, "gone, others in its bucket"),
    (Bucketed::Ifdef, "ifdef finds behind others"),
    (Bucketed::IfdefNone, "ifdef finds none behind them"),
    (Bucketed::Defn, "defn finds behind others"),
    (Bucketed::DefnNone, "defn finds none behind them"),
    (Bucketed::AddedFirst, "added to an empty bucket"),
    (Bucketed::AddedToOthers, "added to others"),
    (Bucketed::AddedToOwnBucket, "added to a predefined one"),
    (Bucketed::AddedForOwn, "instead of an own meaning"),
    (Bucketed::ReplacedFirst, "replaced, first there"),
    (Bucketed::ReplacedBehind, "replaced behind others"),
    (Bucketed::CopiedWithin, "copied within a bucket"),
    (Bucketed::CopiedAcross, "copied to another"),
    (Bucketed::PoppedLastEmpties, "popped newest, empties it"),
    (
        Bucketed::PoppedLastOthersBelow,
        "popped newest, others below",
    ),
    (
        Bucketed::PoppedMiddleEmpties,
        "popped in between, empties it",
    ),
    (Bucketed::PoppedMiddleFirst, "popped in between, first"),
    (Bucketed::PoppedMiddleBehind, "popped in between, behind"),
    (Bucketed::PoppedOldest, "popped oldest of all"),
    (Bucketed::PoppedOnly, "popped the only one"),
    (Bucketed::PoppedToOlder, "popped to an older one"),
    (Bucketed::PoppedOwn, "popped own, others there"),
    (Bucketed::PoppedNothing, "popped nothing, others there"),
    (Bucketed::UndefinedOne, "undefined one among others"),
    (Bucketed::UndefinedSeveral, "undefined several of them"),
    (Bucketed::UndefinedSeveralAlone, "undefined several, alone"),
    (Bucketed::UndefinedMoves, "undefined, others move"),
    (Bucketed::UndefinedLast, "undefined newest of all"),
    (Bucketed::UndefinedOwn, "undefined own, others there"),
    (Bucketed::UndefinedNothing, "undefined nothing among them"),
    (Bucketed::NoRoom, "no room 3 among 100 or more"),
    (Bucketed::Spent, "spent among 100 or more"),
];

/// How often each way was taken.
pub struct Buckets([u64; BUCKETED.len()]);

impl Default for Buckets {
    fn default() -> Buckets {
        Buckets([0; BUCKETED.len()])
    }
}

impl Buckets {
    /// Notes what the run of a text with a set did that ended in this report. Fails if the definitions
    /// are not those that a plain list has after the same calls.
    pub fn walk(
        &mut self,
        text: &[u8],
        set: &[u8],
        setting: &Setting,
        report: &Report,
    ) -> Result<(), String> {
        let mut walk = Walk::at_start(self, setting, start(text, set));
        for _ in 0..report.steps {
            walk.completed();
        }
        walk.refused(report);
        walk.verdict()
    }

    fn note(&mut self, way: Bucketed) {
        self.0[way as usize] += 1;
    }

    /// Every count, with its name. None must stay 0.
    pub fn counts(&self) -> [(&'static str, u64); BUCKETED.len()] {
        BUCKETED.map(|(way, name)| (name, self.0[way as usize]))
    }
}
