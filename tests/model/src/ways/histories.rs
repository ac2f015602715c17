//! The ways of request 8 of 02: where bytes are placed, what becomes of them in moves, and how a run
//! ends with them. Tests look here at finished runs from outside.

mod ended;
mod moved;
mod sources;
#[cfg(test)]
mod tests;

use super::start;
use crate::history::{check, Event, Numbers};
use crate::state::State;
use crate::step::step;
use crate::tokens::{next, Token};
use crate::Report;
use sources::Sources;

/// What a step did with bytes, and what a run came to.
#[derive(Clone, Copy, Debug, PartialEq, Eq)]
pub enum Way {
    // where bytes are placed, and what they come from
    PlacedIn0,
    PlacedIn1To9,
    Discarded,
    Comment,
    Quoted,
    Collected,
    ByWrap,
    // where they are moved
    MovedTo0,
    MovedTo1To9,
    Lost,
    MovedTwice,
    Back,
    Together,
    Met,
    MovedByWrap,
    // what an undivert names
    Bare,
    BareInStream,
    BareDiscarding,
    CurrentNamed,
    EmptyNamed,
    NamedTwice,
    NotAscending,
    // done
    Joined,
    JoinedSeveral,
    DoneInStream,
    DoneDiscarding,
    LostBesideKept,
    // exit
    Dropped,
    MovedThenExit,
    ExitInStream,
    ExitDiscarding,
    LostThenExit,
    // the output
    NoNumber,
    OutOfOrder,
    EqualRoute,
}

const WAYS: [(Way, &str); 35] = [
    (Way::PlacedIn0, "placed in 0"),
    (Way::PlacedIn1To9, "placed in 1 to 9"),
    (Way::Discarded, "written while discarding"),
    (Way::Comment, "a comment placed"),
    (Way::Quoted, "a quoted token placed"),
    (Way::Collected, "collected, placed later"),
    (Way::ByWrap, "placed by wrap text"),
    (Way::MovedTo0, "moved to 0"),
    (Way::MovedTo1To9, "moved to 1 to 9"),
    (Way::Lost, "lost"),
    (Way::MovedTwice, "moved twice"),
    (Way::Back, "back where it was"),
    (Way::Together, "moved together"),
    (Way::Met, "moved behind others"),
    (Way::MovedByWrap, "moved by wrap text"),
    (Way::Bare, "bare undivert"),
    (Way::BareInStream, "bare undivert in 1 to 9"),
    (Way::BareDiscarding, "bare undivert, discarding"),
    (Way::CurrentNamed, "the current stream named"),
    (Way::EmptyNamed, "an empty stream named"),
    (Way::NamedTwice, "one stream named twice"),
    (Way::NotAscending, "named in another order"),
    (Way::Joined, "joined by the end"),
    (Way::JoinedSeveral, "several joined by the end"),
    (Way::DoneInStream, "done in 1 to 9"),
    (Way::DoneDiscarding, "done while discarding"),
    (Way::LostBesideKept, "done, lost beside kept"),
    (Way::Dropped, "dropped by m4exit"),
    (Way::MovedThenExit, "moved to 0, then m4exit"),
    (Way::ExitInStream, "m4exit in 1 to 9"),
    (Way::ExitDiscarding, "m4exit while discarding"),
    (Way::LostThenExit, "lost, then m4exit"),
    (Way::NoNumber, "no number at all"),
    (Way::OutOfOrder, "numbers out of order"),
    (Way::EqualRoute, "one route, two undiverts"),
];

/// How often each way was taken.
pub struct Histories {
    taken: [u64; WAYS.len()],
}

impl Default for Histories {
    fn default() -> Histories {
        Histories {
            taken: [0; WAYS.len()],
        }
    }
}

impl Histories {
    /// Notes what the run of a text with a set did that ended in this report; nothing of a refused
    /// one. Fails if what request 8 says does not hold.
    pub fn walk(&mut self, text: &[u8], set: &[u8], report: &Report) -> Result<(), String> {
        if report.number > 1 {
            return Ok(());
        }
        let mut walk = Walk::at_start(self, start(text, set));
        for _ in 0..report.steps {
            walk.completed();
        }
        let numbers = walk.numbers;
        self.note_output(&numbers);
        check(report, &numbers)
    }

    fn note(&mut self, way: Way) {
        self.taken[way as usize] += 1;
    }

    fn note_if(&mut self, taken: bool, way: Way) {
        if taken {
            self.note(way);
        }
    }

    /// Every count, with its name. None must stay 0.
    pub fn counts(&self) -> [(&'static str, u64); WAYS.len()] {
        WAYS.map(|(way, name)| (name, self.taken[way as usize]))
    }
}

/// A run on its way.
struct Walk<'w, 't> {
    ways: &'w mut Histories,
    state: State<'t>,
    /// What its history comes to, so far.
    numbers: Numbers,
    sources: Sources,
}

impl<'w, 't> Walk<'w, 't> {
    fn at_start(ways: &'w mut Histories, mut state: State<'t>) -> Walk<'w, 't> {
        state.streams.record();
        Walk {
            ways,
            state,
            numbers: Numbers::default(),
            sources: Sources::default(),
        }
    }

    /// Takes a step that the run completed.
    fn completed(&mut self) {
        let read = next(&self.state.ahead, &self.state.marks).expect("a completed step");
        self.sources.before(&self.state, &read);
        step(&mut self.state).expect("a completed step");
        self.sources.after(&self.state);
        if let Some(event) = self.state.streams.did() {
            self.note(&read.token, &event);
        }
    }

    /// Notes what the step of a token did, and takes it.
    fn note(&mut self, token: &Token, event: &Event) {
        match event {
            Event::Written(bytes) if !bytes.is_empty() => self.written(token, bytes),
            Event::Undiverted(named) => return self.undiverted(named),
            Event::Joined => self.ways.note_joined(&self.numbers),
            Event::Dropped => self.ways.note_dropped(&self.numbers),
            Event::Written(_) | Event::Diverted(_) => {}
        }
        self.numbers.take(event);
    }

    fn written(&mut self, token: &Token, bytes: &[u8]) {
        let place = match self.numbers.current {
            0 => Way::PlacedIn0,
            1..=9 => Way::PlacedIn1To9,
            _ => return self.ways.note(Way::Discarded),
        };
        self.ways.note(place);
        let (comment, quoted) = (
            matches!(token, Token::Comment(_)),
            matches!(token, Token::Quoted(_)),
        );
        self.ways.note_if(comment, Way::Comment);
        self.ways.note_if(quoted, Way::Quoted);
        self.ways
            .note_if(self.sources.collected(bytes), Way::Collected);
        self.ways.note_if(self.sources.wrapped, Way::ByWrap);
    }
}
