//! Takes the steps of a run once more and notes what it copies and what becomes of copies. That is told
//! by what a step did, not by the rule, and then held to what 02 asks.

use super::asked::Asked;
use super::closing::Closing;
use super::table::Table;
use super::{Copied, Copies, Used};
use crate::answer::{Refusal, Setting};
use crate::definitions::Meaning;
use crate::predefined::Predefined;
use crate::state::State;
use crate::step::step;
use crate::tokens::{next, Token};
use crate::Report;
use std::collections::HashMap;

/// What copydef gave to a name, and from which.
pub struct Given {
    pub source: Vec<u8>,
    pub meaning: Meaning,
}

/// A run on its way.
pub struct Walk<'w, 't> {
    copies: &'w mut Copies,
    setting: &'w Setting,
    state: State<'t>,
    /// For each open call the predefined meaning that its name had by a copy then.
    opened: Vec<Option<Predefined>>,
    /// What names got last.
    given: HashMap<Vec<u8>, Given>,
    /// Whether wrap text became pending.
    wrapped: bool,
    /// What was done otherwise than 02 asks.
    pub verdict: Result<(), String>,
}

impl<'w, 't> Walk<'w, 't> {
    pub fn at_start(
        copies: &'w mut Copies,
        setting: &'w Setting,
        state: State<'t>,
    ) -> Walk<'w, 't> {
        Walk {
            copies,
            setting,
            state,
            opened: Vec::new(),
            given: HashMap::new(),
            wrapped: false,
            verdict: Ok(()),
        }
    }

    /// Takes a step that the run completed.
    pub fn completed(&mut self) {
        let read = next(&self.state.ahead, &self.state.marks).expect("a completed step");
        match read.token {
            Token::Name(name) => self.name(&name),
            Token::Byte(b')') if self.state.calls.collecting() => self.parenthesis(),
            token => {
                self.wrapped |= token == Token::End;
                self.step().expect("a completed step");
            }
        }
    }

    /// Takes a step. Tells the predefined meaning that it called, or why it is refused.
    fn step(&mut self) -> Result<Option<Predefined>, Refusal> {
        self.state.called = None;
        step(&mut self.state)?;
        Ok(self.state.called)
    }

    fn note_all(&mut self, ways: Vec<Copied>) {
        ways.into_iter().for_each(|way| self.copies.note(way));
    }

    fn fault(&mut self, what: &str) {
        self.verdict = Err(what.to_string());
    }

    /// Takes a name.
    fn name(&mut self, name: &[u8]) {
        let copy = self.state.definitions.copied(name);
        let ways = Closing::bare(&self.state, name, &self.given).ways;
        let calls = self.state.calls.count();
        let called = self.step().expect("a completed step");
        if self.state.calls.count() > calls {
            self.opened.push(copy);
            let full = self.state.calls.held() == self.setting.lengths[1];
            if copy.is_some() && full {
                self.copies.note(Copied::FullCalls);
            }
            return;
        }
        match copy {
            Some(which) if called.is_none() => self.copies.note_use(Used::Plain, which),
            Some(which) => {
                self.copies.note_use(Used::Bare, which);
                self.judge_called(which, called);
                self.note_all(ways);
            }
            None => self.note_all(ways),
        }
    }

    fn judge_called(&mut self, which: Predefined, called: Option<Predefined>) {
        if called != Some(which) {
            self.fault("a copy is called with another meaning");
        }
    }

    /// Takes a right parenthesis, which may close a call.
    fn parenthesis(&mut self) {
        let closing = Closing::at_front(&self.state, &self.given);
        let calls = self.state.calls.count();
        let held = self.state.held();
        let called = self.step().expect("a completed step");
        if self.state.calls.count() == calls {
            return;
        }
        let at_opening = self.opened.pop().expect("an open call");
        match closing.copy {
            Some(which) => {
                self.copies.note_use(Used::Closed, which);
                self.judge_called(which, called);
                if at_opening != Some(which) {
                    self.copies.note(Copied::OpenedAnother);
                }
            }
            None if at_opening.is_some() => self.copies.note(Copied::ClosedAnother),
            None => {}
        }
        if let Some(asked) = &closing.asked {
            self.copied(asked, &closing, &held);
        }
        self.note_all(closing.ways);
    }

    /// A call of copydef was completed; the buffers held so much before.
    fn copied(&mut self, asked: &Asked, closing: &Closing, held: &[usize; 7]) {
        let (Ok(after), Some(meaning)) = (asked.answer(), asked.meaning()) else {
            self.fault("a copy is completed that has to be refused");
            return;
        };
        let room = self.setting.lengths[2];
        let mut expected = *held;
        expected[0] -= held[0].min(1);
        expected[1] -= closing.held;
        expected[2] = after.held();
        if Table::of(&self.state.definitions) != after {
            self.fault("the definitions are others than were asked for");
        } else if self.state.held() != expected || after.held() > room {
            self.fault("the buffers hold something else than was asked for");
        }
        self.note_all(asked.ways(&meaning));
        self.note_all(asked.ways_of_room(&after, &meaning, room));
        if self.state.calls.collecting() {
            self.copies.note(Copied::InCall);
        }
        if self.wrapped {
            self.copies.note(Copied::FromWrap);
        }
        if let Meaning::Predefined(which) = meaning {
            self.copies.note_use(Used::Copied, which);
        }
        let source = asked.source.clone();
        let given = Given { source, meaning };
        self.given.insert(asked.new_name.clone(), given);
    }

    /// Looks at the step that was refused, if one was.
    pub fn refused(&mut self, report: &Report) {
        let refusal = (report.number, report.detail);
        let read = next(&self.state.ahead, &self.state.marks);
        match read.map(|read| read.token) {
            _ if report.number < 3 => {}
            Ok(Token::Byte(b')')) if self.state.calls.collecting() => self.not_closed(refusal),
            Ok(Token::Name(name)) if refusal == (4, 2) => {
                let copied = self.state.definitions.copied(&name).is_some();
                if copied && self.state.ahead.byte(name.len()) == Some(b'(') {
                    self.copies.note(Copied::NoRoomForCall);
                }
            }
            _ if report.number == 16 => self.fault("no copydef, and one is refused"),
            _ => {}
        }
    }

    /// A right parenthesis was refused.
    fn not_closed(&mut self, refusal: (u32, u32)) {
        let closing = Closing::at_front(&self.state, &self.given);
        let calls = self.state.calls.count();
        let refused = self.step().err();
        if self.state.calls.count() == calls {
            return;
        }
        match (refusal, &closing.asked) {
            ((3, 0), Some(_)) => self.note_all(vec![match refused {
                Some(Refusal::Name) => Copied::NameSpent,
                Some(Refusal::NoDefinition) => Copied::SourceSpent,
                _ => Copied::CopySpent,
            }]),
            (_, Some(asked)) => self.not_copied(asked, refusal),
            ((16, _), None) => self.fault("no copydef, and one is refused"),
            ((12, _), None) if matches!(self.opened.last(), Some(Some(_))) => {
                self.copies.note(Copied::Gone);
            }
            ((11, _), None) => self.note_all(closing.ways_of_no_text),
            _ => {}
        }
    }

    /// A call of copydef was refused.
    fn not_copied(&mut self, asked: &Asked, refusal: (u32, u32)) {
        let room = self.setting.lengths[2];
        let ways = match (refusal, asked.answer(), asked.meaning()) {
            ((6, 0), Err(Refusal::Name), _) => asked.ways_of_bad_name(room),
            ((16, 0), Err(Refusal::NoDefinition), _) => asked.ways_of_no_source(room),
            ((4, 3), Ok(after), Some(meaning)) if after.held() > room => {
                asked.ways_of_no_room(&after, &meaning, room)
            }
            _ => return self.fault("a copy is refused by another number than is due"),
        };
        self.note_all(ways);
    }
}
