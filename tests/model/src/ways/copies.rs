//! The ways of request 7 of 02: what copydef copies onto what, how that is kept, and what becomes of
//! copies. Tests look here at runs from outside: what the definitions have to be is found out by a
//! reading of its own, and then the run is held to it.

mod asked;
mod closing;
mod table;
#[cfg(test)]
mod tests;
mod walk;

use super::{keeps_bare_call, start};
use crate::answer::Setting;
use crate::predefined::{Calls, Predefined};
use crate::Report;
use walk::Walk;

/// What was copied onto what, and what came of it.
#[derive(Clone, Copy, Debug, PartialEq, Eq)]
pub enum Copied {
    // the meaning that is copied
    OwnMeaning,
    OfCopy,
    OfText,
    NoBytes,
    TextOverOwn,
    NewestOfSeveral,
    // what the new name meant
    OntoNone,
    OntoGone,
    OntoOwn,
    OntoText,
    OntoCopy,
    OwnItself,
    CopyItself,
    TextItself,
    OntoSeveral,
    OwnBelow,
    OntoCopydef,
    // what takes the place of what
    TextByText,
    TextByMeaning,
    MeaningByText,
    MeaningByMeaning,
    // where the copied text stands, seen from what it replaces
    BeforeLonger,
    BeforeShorter,
    BeforeSame,
    BehindLonger,
    BehindShorter,
    BehindSame,
    OthersMoveUp,
    OthersMoveDown,
    // buffer 3
    FullByMeaning,
    FullByText,
    OldRoom,
    ShortByMeaning,
    ShortByText,
    NoRoom,
    NoRoomInPlace,
    OverLimit,
    // refusals of copydef
    NoNewName,
    EmptyNewName,
    BadNewName,
    NameBeforeSource,
    NameBeforeRoom,
    UnknownSource,
    EmptySource,
    OddSource,
    GoneSource,
    SourceBeforeRoom,
    CopySpent,
    NameSpent,
    SourceSpent,
    // where copydef stands
    Surplus,
    InCall,
    FromWrap,
    // how copies are used
    OpenedAnother,
    ClosedAnother,
    Gone,
    FullCalls,
    NoRoomForCall,
    SourceGone,
    SourceChanged,
    TextBare,
    TextName,
    TextArgument,
    // what becomes of copies
    DefnOfText,
    DefnOfCopy,
    DefnLater,
    Ifdef,
    Popped,
    PoppedToOwn,
    PoppedToOther,
    Undefined,
    DefinedAnew,
    Covered,
}

const COPIED: [(Copied, &str); 73] = [
    (Copied::OwnMeaning, "copies own meaning"),
    (Copied::OfCopy, "copies a copy"),
    (Copied::OfText, "copies a text"),
    (Copied::NoBytes, "copies an empty text"),
    (Copied::TextOverOwn, "copies text over own"),
    (Copied::NewestOfSeveral, "copies the newest"),
    (Copied::OntoNone, "onto no definition"),
    (Copied::OntoGone, "onto a gone name"),
    (Copied::OntoOwn, "onto own meaning"),
    (Copied::OntoText, "onto a text"),
    (Copied::OntoCopy, "onto a copy"),
    (Copied::OwnItself, "own onto itself"),
    (Copied::CopyItself, "copy onto itself"),
    (Copied::TextItself, "text onto itself"),
    (Copied::OntoSeveral, "onto the newest"),
    (Copied::OwnBelow, "own stays below"),
    (Copied::OntoCopydef, "onto copydef"),
    (Copied::TextByText, "text by text"),
    (Copied::TextByMeaning, "text by meaning"),
    (Copied::MeaningByText, "meaning by text"),
    (Copied::MeaningByMeaning, "meaning by meaning"),
    (Copied::BeforeLonger, "from before, longer"),
    (Copied::BeforeShorter, "from before, shorter"),
    (Copied::BeforeSame, "from before, same"),
    (Copied::BehindLonger, "from behind, longer"),
    (Copied::BehindShorter, "from behind, shorter"),
    (Copied::BehindSame, "from behind, same"),
    (Copied::OthersMoveUp, "others move up"),
    (Copied::OthersMoveDown, "others move down"),
    (Copied::FullByMeaning, "3 full by meaning"),
    (Copied::FullByText, "3 full by text"),
    (Copied::OldRoom, "3 has the old room"),
    (Copied::ShortByMeaning, "3 short by meaning"),
    (Copied::ShortByText, "3 short by text"),
    (Copied::NoRoom, "3 very short"),
    (Copied::NoRoomInPlace, "3 short, in place"),
    (Copied::OverLimit, "copies over 65,536"),
    (Copied::NoNewName, "6, no new name"),
    (Copied::EmptyNewName, "6, empty new name"),
    (Copied::BadNewName, "6, bad new name"),
    (Copied::NameBeforeSource, "6 before 16"),
    (Copied::NameBeforeRoom, "6 before 4"),
    (Copied::UnknownSource, "16, unknown name"),
    (Copied::EmptySource, "16, empty name"),
    (Copied::OddSource, "16, not a name"),
    (Copied::GoneSource, "16, own is gone"),
    (Copied::SourceBeforeRoom, "16 before 4"),
    (Copied::CopySpent, "copydef, spent"),
    (Copied::NameSpent, "3 before 6"),
    (Copied::SourceSpent, "3 before 16"),
    (Copied::Surplus, "copydef, surplus"),
    (Copied::InCall, "copydef in a call"),
    (Copied::FromWrap, "copydef by wrap"),
    (Copied::OpenedAnother, "copy only at closing"),
    (Copied::ClosedAnother, "copy only at opening"),
    (Copied::Gone, "copy gone at closing"),
    (Copied::FullCalls, "copy opened, 2 full"),
    (Copied::NoRoomForCall, "copy, no room 2"),
    (Copied::SourceGone, "called, source gone"),
    (Copied::SourceChanged, "called, source other"),
    (Copied::TextBare, "copied text, bare"),
    (Copied::TextName, "copied text, $0"),
    (Copied::TextArgument, "copied text, $1"),
    (Copied::DefnOfText, "defn of copied text"),
    (Copied::DefnOfCopy, "defn of a copy"),
    (Copied::DefnLater, "text, then a copy"),
    (Copied::Ifdef, "ifdef of a copy"),
    (Copied::Popped, "copy popped"),
    (Copied::PoppedToOwn, "copy popped off own"),
    (Copied::PoppedToOther, "copy popped off one"),
    (Copied::Undefined, "copy undefined"),
    (Copied::DefinedAnew, "copy defined anew"),
    (Copied::Covered, "copy covered"),
];

/// How a predefined meaning was copied, and how names were used that have it by a copy.
#[derive(Clone, Copy, Debug, PartialEq, Eq)]
pub enum Used {
    Copied,
    /// A right parenthesis closed its call.
    Closed,
    Bare,
    Plain,
}

/// How often each way was taken, and how often the copies of each meaning were used.
pub struct Copies {
    taken: [u64; COPIED.len()],
    used: [Calls; 4],
}

impl Default for Copies {
    fn default() -> Copies {
        Copies {
            taken: [0; COPIED.len()],
            used: Default::default(),
        }
    }
}

impl Copies {
    /// Notes what the run of a text with a set did that ended in this report. Fails if something was
    /// not copied, kept, called or refused as 02 asks.
    pub fn walk(
        &mut self,
        text: &[u8],
        set: &[u8],
        setting: &Setting,
        report: &Report,
    ) -> Result<(), String> {
        let mut walk = Walk::at_start(self, setting, start(text, set));
        for _ in 0..report.steps {
            walk.completed();
        }
        walk.refused(report);
        walk.verdict
    }

    fn note(&mut self, way: Copied) {
        self.taken[way as usize] += 1;
    }

    fn note_use(&mut self, how: Used, which: Predefined) {
        self.used[how as usize][which as usize] += 1;
    }

    /// Every count, with its name. None must stay 0.
    pub fn counts(&self) -> Vec<(String, u64)> {
        let ways = COPIED.map(|(way, name)| (name.to_string(), self.taken[way as usize]));
        let mut counts = ways.to_vec();
        for (how, word) in [(Used::Copied, "copied"), (Used::Closed, "via copy")] {
            for which in Predefined::ALL {
                counts.push(self.count(how, word, which));
            }
        }
        for which in Predefined::ALL {
            counts.push(if keeps_bare_call(which) {
                self.count(Used::Bare, "bare copy", which)
            } else {
                self.count(Used::Plain, "plain copy", which)
            });
        }
        counts
    }

    fn count(&self, how: Used, word: &str, which: Predefined) -> (String, u64) {
        let count = self.used[how as usize][which as usize];
        (format!("{word} {}", which.name()), count)
    }
}
