//! The ways of request 2 of 02: names of predefined meanings that stand as plain text, open a call
//! or are called bare, and how often each of them was taken. Tests look here at runs from outside.
//! Those of request 1 are in [`sets`] and [`inclusions`], those of request 3 in [`remarks`], those
//! of request 4 in [`sheets`], those of request 6 in [`lines`], those of request 7 in [`copies`], those
//! of request 8 in [`histories`], those of request 9 in [`buckets`].

pub mod buckets;
pub mod copies;
pub mod histories;
pub mod inclusions;
pub mod lines;
mod name;
pub mod remarks;
pub mod sets;
pub mod sheets;
mod walk;

use crate::house::Set;
use crate::predefined::Calls;
use crate::predefined::Predefined::{self, *};
use crate::state::State;
use crate::Report;
use walk::Walk;

/// 02: these "shall stand as plain text unless `(` directly follows"; request 7: "copydef joins its
/// list". The list is the paper's, and the model's own rule is held to it.
pub const NEED_PARENTHESIS: [Predefined; 20] = [
    Decr, Define, Defn, Errprint, Eval, Ifdef, Ifelse, Incr, Index, Len, M4wrap, Popdef, Pushdef,
    Shift, Substr, Translit, Undefine, Include, Sinclude, Copydef,
];

/// 02: "The other seven keep their bare call."
pub fn keeps_bare_call(which: Predefined) -> bool {
    !NEED_PARENTHESIS.contains(&which)
}

/// What a predefined name did.
#[derive(Clone, Copy, Debug, PartialEq, Eq)]
pub enum Use {
    /// Its meaning is predefined, and it stood for itself.
    Plain,
    /// A predefined meaning was called without arguments.
    Bare,
    /// `(` opened a call of a predefined meaning.
    Opened,
    /// A text defined over the name was called without arguments.
    Text,
    /// It had no definition, and `(` followed.
    Undefined,
}

/// Where a plain word, or the `(` of a call, stood, and what came of it.
#[derive(Clone, Copy, Debug, PartialEq, Eq)]
pub enum Way {
    ToOutput,
    ToStream,
    Discarded,
    FirstInArgument,
    BehindDropped,
    BehindToken,
    BlankKept,
    SpaceBetween,
    TabBetween,
    NewlineBetween,
    QuoteBetween,
    CommentBetween,
    PlainInPending,
    PlainAtBorder,
    PlainAcross,
    PlainAtEnd,
    BeforeWaitingWrap,
    OpenedInPending,
    OpenedAtBorder,
    OpenedAcross,
    PlainAgain,
    Room2,
    Room4,
    Room7,
    Spent,
    EndInCall,
}

const WAYS: [(Way, &str); 26] = [
    (Way::ToOutput, "plain to output"),
    (Way::ToStream, "plain to a stream"),
    (Way::Discarded, "plain discarded"),
    (Way::FirstInArgument, "plain first in call"),
    (Way::BehindDropped, "behind dropped blank"),
    (Way::BehindToken, "behind another token"),
    (Way::BlankKept, "blank kept behind"),
    (Way::SpaceBetween, "space, then ("),
    (Way::TabBetween, "tab, then ("),
    (Way::NewlineBetween, "newline, then ("),
    (Way::QuoteBetween, "quote, then ("),
    (Way::CommentBetween, "comment, then ("),
    (Way::PlainInPending, "plain in pending"),
    (Way::PlainAtBorder, "plain at the border"),
    (Way::PlainAcross, "plain across it"),
    (Way::PlainAtEnd, "plain at the end"),
    (Way::BeforeWaitingWrap, "( in waiting wrap"),
    (Way::OpenedInPending, "opened in pending"),
    (Way::OpenedAtBorder, "opened at the border"),
    (Way::OpenedAcross, "opened across it"),
    (Way::PlainAgain, "uncovered and plain"),
    (Way::Room2, "plain, no room 2"),
    (Way::Room4, "plain, no room 4"),
    (Way::Room7, "plain, no room 7"),
    (Way::Spent, "plain, spent"),
    (Way::EndInCall, "plain, then unclosed"),
];

/// How often each name took each way.
#[derive(Default)]
pub struct Ways {
    ways: [Calls; WAYS.len()],
    uses: [Calls; 5],
}

impl Ways {
    /// Notes what the run of a text with a set did that ended in this report. Fails if a name did
    /// not do what 02 asks.
    pub fn walk(&mut self, text: &[u8], set: &[u8], report: &Report) -> Result<(), String> {
        let mut walk = Walk::at_start(self, start(text, set));
        for _ in 0..report.steps {
            walk.completed();
        }
        walk.refused(report);
        walk.verdict
    }

    fn note(&mut self, way: Way, which: Predefined) {
        self.ways[way as usize][which as usize] += 1;
    }

    fn note_use(&mut self, how: Use, which: Predefined) {
        self.uses[how as usize][which as usize] += 1;
    }

    /// Adds the counts of others.
    pub fn add(&mut self, others: &Ways) {
        let counts = self.ways.iter_mut().chain(&mut self.uses).flatten();
        let more = others.ways.iter().chain(&others.uses).flatten();
        counts.zip(more).for_each(|(count, more)| *count += more);
    }

    /// How often a name took a way.
    pub fn taken(&self, way: Way, which: Predefined) -> u64 {
        self.ways[way as usize][which as usize]
    }

    /// How often a name was used so.
    pub fn used(&self, how: Use, which: Predefined) -> u64 {
        self.uses[how as usize][which as usize]
    }

    /// Every count that must not stay 0, with its name.
    pub fn counts(&self) -> Vec<(String, u64)> {
        let ways = WAYS.map(|(way, name)| (name.to_string(), self.ways[way as usize].iter().sum()));
        let mut counts = ways.to_vec();
        counts.push(("text over it, bare".to_string(), self.sum(Use::Text)));
        counts.push(("undefined before (".to_string(), self.sum(Use::Undefined)));
        for which in Predefined::ALL {
            let (how, word) = if keeps_bare_call(which) {
                (Use::Bare, "bare")
            } else {
                (Use::Plain, "plain")
            };
            counts.push((format!("{word} {}", which.name()), self.used(how, which)));
        }
        for which in Predefined::ALL {
            let opened = self.used(Use::Opened, which);
            counts.push((format!("opened {}", which.name()), opened));
        }
        counts
    }

    /// How often names that need a parenthesis were used so.
    fn sum(&self, how: Use) -> u64 {
        let counts = NEED_PARENTHESIS.iter().map(|&which| self.used(how, which));
        counts.sum()
    }
}

/// The state in which a run begins. One that a bad set keeps from its first step has no items.
fn start<'a>(text: &'a [u8], set: &[u8]) -> State<'a> {
    State::at_start(text, Set::read(set).unwrap_or_default())
}

/// What the buffers hold once a token of `length` bytes left the text ahead and came to one place,
/// whole, if they held `before` until then.
fn held_if_placed(
    before: &[usize; 7],
    length: usize,
    collecting: bool,
    after: &State,
) -> [usize; 7] {
    let mut held = *before;
    held[0] -= length.min(before[0]);
    match after.streams.current() {
        _ if collecting => held[1] += length,
        0 => held[6] += length,
        1..=9 => held[3] += length,
        _ => {}
    }
    held
}
