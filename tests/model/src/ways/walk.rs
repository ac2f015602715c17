//! Takes the steps of a run once more and notes its ways. What a name did is told by what its step
//! did, not by the rule, and then held to what 02 asks of it.

use super::name::{Kind, Name};
use super::{keeps_bare_call, Use, Way, Ways};
use crate::answer::Refusal;
use crate::bytes::is_blank;
use crate::predefined::Predefined;
use crate::state::State;
use crate::step::step;
use crate::tokens::{next, Token};
use crate::Report;

/// What a step did, as far as the way of a next one depends on it.
#[derive(Clone, Copy)]
enum Did {
    /// An argument begins.
    Began,
    /// A blank before an argument was dropped.
    Dropped,
    /// A token went where text goes.
    Blank(u8),
    Quoted,
    Comment,
    Collected,
    /// So did a plain word, as the first token of an argument or not.
    Plain {
        which: Predefined,
        first: bool,
    },
    Other,
}

/// A run on its way.
pub struct Walk<'w, 't> {
    ways: &'w mut Ways,
    state: State<'t>,
    /// What the last two steps did, the newest first.
    last: [Did; 2],
    /// Which names were texts and called bare.
    covered: [bool; Predefined::ALL.len()],
    /// What a name did that 02 does not ask of it.
    pub verdict: Result<(), String>,
}

impl<'w, 't> Walk<'w, 't> {
    pub fn at_start(ways: &'w mut Ways, state: State<'t>) -> Walk<'w, 't> {
        Walk {
            ways,
            state,
            last: [Did::Other; 2],
            covered: [false; Predefined::ALL.len()],
            verdict: Ok(()),
        }
    }

    /// Takes a step that the run completed.
    pub fn completed(&mut self) {
        let read = next(&self.state.ahead, &self.state.marks).expect("a completed step");
        let did = match read.token {
            Token::Name(name) => self.name(&Name::of(&self.state, &name)),
            other => self.token(&other),
        };
        self.last = [did, self.last[0]];
    }

    /// Takes a token that is no name.
    fn token(&mut self, token: &Token) -> Did {
        self.note_parenthesis(token);
        let (collecting, held) = (self.state.calls.collecting(), self.state.calls.held());
        step(&mut self.state).expect("a completed step");
        let grew = self.state.calls.held() > held;
        match *token {
            Token::Comment(_) => Did::Comment,
            Token::Quoted(_) => Did::Quoted,
            Token::Byte(b',') if collecting && !grew => Did::Began,
            Token::Byte(byte) if is_blank(byte) && collecting && !grew => Did::Dropped,
            Token::Byte(byte) if is_blank(byte) => {
                if let Did::Plain { which, first: true } = self.last[0] {
                    self.ways.note(Way::BlankKept, which);
                }
                Did::Blank(byte)
            }
            Token::Byte(_) if grew => Did::Collected,
            _ => Did::Other,
        }
    }

    /// A left parenthesis that stands behind a plain word and one token more.
    fn note_parenthesis(&mut self, token: &Token) {
        let (Token::Byte(b'('), [between, Did::Plain { which, .. }]) = (token, self.last) else {
            return;
        };
        let way = match between {
            Did::Blank(b' ') => Way::SpaceBetween,
            Did::Blank(b'\t') => Way::TabBetween,
            Did::Blank(_) => Way::NewlineBetween,
            Did::Quoted => Way::QuoteBetween,
            Did::Comment => Way::CommentBetween,
            _ => return,
        };
        self.ways.note(way, which);
    }

    fn name(&mut self, name: &Name) -> Did {
        if let Some((how, which)) = self.take(name).expect("a completed step") {
            self.ways.note_use(how, which);
            self.covered[which as usize] |= how == Use::Text;
            match how {
                Use::Plain => return self.plain(name, which),
                Use::Opened if !keeps_bare_call(which) => self.note_opened(name, which),
                _ => {}
            }
        }
        match name.kind {
            Kind::Undefined if name.collecting => Did::Collected,
            Kind::Predefined | Kind::Text if name.opens() => Did::Began,
            _ => Did::Other,
        }
    }

    /// Takes the step of a name. Tells what it did if it is a predefined one.
    fn take(&mut self, name: &Name) -> Result<Option<(Use, Predefined)>, Refusal> {
        let ahead = self.state.ahead.length();
        self.state.called = None;
        step(&mut self.state)?;
        let called = self.state.called.is_some();
        let taken = ahead.checked_sub(self.state.ahead.length());
        let how = match name.kind {
            Kind::Predefined if called => Use::Bare,
            Kind::Predefined if taken == Some(name.length) => Use::Plain,
            Kind::Predefined => Use::Opened,
            Kind::Text if !name.opens() => Use::Text,
            Kind::Undefined if name.opens() => Use::Undefined,
            _ => return Ok(None),
        };
        self.judge(name, how);
        Ok(name.which.map(|which| (how, which)))
    }

    /// Holds what the step of a name did to what 02 asks.
    fn judge(&mut self, name: &Name, how: Use) {
        let Some((which, asked)) = name.asked() else {
            return;
        };
        let (held, plain) = (self.state.held(), name.held_if_plain(&self.state));
        if how != asked {
            self.verdict = Err(format!("{which:?} is {how:?} instead of {asked:?}"));
        } else if how == Use::Plain && held != plain {
            self.verdict = Err(format!("{which:?} leaves {held:?} instead of {plain:?}"));
        }
    }

    /// A plain word was delivered or collected.
    fn plain(&mut self, name: &Name, which: Predefined) -> Did {
        let first = matches!(self.last[0], Did::Began | Did::Dropped);
        self.note_target(which);
        self.note_place(name, which);
        if name.own && self.covered[which as usize] {
            self.ways.note(Way::PlainAgain, which);
        }
        Did::Plain { which, first }
    }

    /// Where the plain word of the last step went.
    fn note_target(&mut self, which: Predefined) {
        let way = match self.last[0] {
            _ if !self.state.calls.collecting() => match self.state.streams.current() {
                0 => Way::ToOutput,
                1..=9 => Way::ToStream,
                _ => Way::Discarded,
            },
            Did::Began => Way::FirstInArgument,
            Did::Dropped => Way::BehindDropped,
            // behind a call it may be the first one or not
            Did::Other => return,
            _ => Way::BehindToken,
        };
        self.ways.note(way, which);
    }

    /// Where the plain word of the last step stood.
    fn note_place(&mut self, name: &Name, which: Predefined) {
        let wrap = self.state.wrap.first();
        let way = match name.next {
            None if wrap == Some(&b'(') => Way::BeforeWaitingWrap,
            None => Way::PlainAtEnd,
            _ if name.pending() > name.length => Way::PlainInPending,
            _ if name.pending() == name.length => Way::PlainAtBorder,
            _ if name.pending() > 0 => Way::PlainAcross,
            _ => return,
        };
        self.ways.note(way, which);
    }

    /// Where a name stood that needs a parenthesis and has one.
    fn note_opened(&mut self, name: &Name, which: Predefined) {
        let way = match name.pending() {
            0 => return,
            pending if pending > name.length => Way::OpenedInPending,
            pending if pending == name.length => Way::OpenedAtBorder,
            _ => Way::OpenedAcross,
        };
        self.ways.note(way, which);
    }

    /// Looks at the step that was refused, if one was.
    pub fn refused(&mut self, report: &Report) {
        let Ok(read) = next(&self.state.ahead, &self.state.marks) else {
            return;
        };
        match (report.number, read.token, self.last[0]) {
            (5, Token::End, Did::Plain { which, .. }) => self.ways.note(Way::EndInCall, which),
            (3 | 4, Token::Name(name), _) => {
                let name = Name::of(&self.state, &name);
                // a step for which the budget did not last may be refused anyhow
                if let Ok(Some((Use::Plain, which))) = self.take(&name) {
                    self.note_refused(report, which);
                }
            }
            _ => {}
        }
    }

    /// For a plain word there was no room or no step left.
    fn note_refused(&mut self, report: &Report, which: Predefined) {
        let collecting = self.state.calls.collecting();
        let way = match (report.number, report.detail) {
            (3, 0) => Way::Spent,
            (4, 2) if collecting => Way::Room2,
            (4, 4) if !collecting => Way::Room4,
            (4, 7) if !collecting => Way::Room7,
            other => {
                self.verdict = Err(format!("{which:?} is refused by {other:?}"));
                return;
            }
        };
        self.ways.note(way, which);
    }
}
