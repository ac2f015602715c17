//! Takes the steps of a run once more and notes what it includes. That is told by what the step of a
//! call did, not by the rule, and then held to what 02 asks.

use super::asked::Asked;
use super::{Inclusion, Inclusions};
use crate::answer::{Refusal, Setting};
use crate::definitions::Meaning;
use crate::predefined::Predefined;
use crate::state::State;
use crate::step::step;
use crate::tokens::{next, Token};
use crate::{Report, LIMIT};

/// Contents that are not used up.
#[derive(Clone, Copy)]
struct Contents {
    /// The number of their item.
    item: usize,
    /// How many bytes stand behind them.
    behind: usize,
}

/// A run on its way.
pub struct Walk<'w, 't> {
    inclusions: &'w mut Inclusions,
    state: State<'t>,
    /// Contents in contents, the innermost last.
    contents: Vec<Contents>,
    /// For each open call the item in whose contents its name began.
    opened: Vec<Option<usize>>,
    /// Whether wrap text became pending.
    wrapped: bool,
    /// Whether an item included itself.
    itself: bool,
    /// What was included otherwise than 02 asks.
    pub verdict: Result<(), String>,
}

/// A call of include or sinclude that closes.
struct Closing {
    which: Predefined,
    arguments: Vec<Vec<u8>>,
}

impl<'w, 't> Walk<'w, 't> {
    pub fn at_start(inclusions: &'w mut Inclusions, state: State<'t>) -> Walk<'w, 't> {
        Walk {
            inclusions,
            state,
            contents: Vec::new(),
            opened: Vec::new(),
            wrapped: false,
            itself: false,
            verdict: Ok(()),
        }
    }

    /// Takes a step that the run completed.
    pub fn completed(&mut self) {
        let read = next(&self.state.ahead, &self.state.marks).expect("a completed step");
        let closing = self.closing(&read.token);
        let calls = self.state.calls.count();
        let ahead = self.state.ahead.length();
        self.state.called = None;
        step(&mut self.state).expect("a completed step");
        let opens = self.state.calls.count() > calls;
        let behind = ahead - read.length;
        let left = match self.state.called {
            Some(Predefined::Dnl) => self.state.ahead.length(),
            _ => behind - usize::from(opens),
        };
        self.note_end_of_contents(behind, left);
        if opens {
            self.opened
                .push(self.inside().map(|contents| contents.item));
        }
        self.contents.retain(|contents| contents.behind < left);
        self.wrapped |= ahead == 0;
        if self.state.calls.count() < calls {
            let from = self.opened.pop().expect("an open call");
            if let Some(closing) = closing {
                self.included(&closing, from, left);
            }
        }
    }

    /// The innermost contents that are not used up. The text ahead begins with their rest, or with
    /// what a call in them gave.
    fn inside(&self) -> Option<Contents> {
        self.contents.last().copied()
    }

    /// The call of include or sinclude that this token may close.
    fn closing(&self, token: &Token) -> Option<Closing> {
        let call = self.state.calls.innermost()?;
        match (token, self.state.definitions.newest(&call.name)) {
            (
                Token::Byte(b')'),
                Some(&Meaning::Predefined(which @ (Predefined::Include | Predefined::Sinclude))),
            ) => Some(Closing {
                which,
                arguments: call.arguments.clone(),
            }),
            _ => None,
        }
    }

    /// Whether a step went beyond the contents in which it began. So many bytes stood behind its
    /// token, and so many are left behind all that it took.
    fn note_end_of_contents(&mut self, behind: usize, left: usize) {
        let Some(contents) = self.inside() else {
            return;
        };
        let way = match contents.behind {
            end if left >= end => return,
            end if behind < end => Inclusion::TokenRunsOn,
            _ if self.state.called == Some(Predefined::Dnl) => Inclusion::LineRunsOn,
            _ => Inclusion::ParenthesisBehind,
        };
        self.inclusions.note(way);
    }

    /// A call of include or sinclude was completed; so many bytes stood behind it.
    fn included(&mut self, closing: &Closing, from: Option<usize>, left: usize) {
        let set = std::mem::take(&mut self.state.set);
        let asked = Asked::of(closing.which, &closing.arguments, &set.items);
        let contents = asked.contents();
        let ahead = &self.state.ahead;
        let joined = ahead.length() == left + contents.len();
        if !joined || !ahead.matches(0, contents) {
            self.verdict = Err("something else is included than was asked for".to_string());
        }
        asked
            .ways()
            .into_iter()
            .for_each(|way| self.inclusions.note(way));
        match asked.found {
            Some(item) => self.found(item, contents, from, left),
            None if closing.which == Predefined::Include => {
                self.verdict = Err("an unknown include is completed".to_string());
            }
            None => {}
        }
        self.state.set = set;
    }

    /// The contents of an item became pending text.
    fn found(&mut self, item: usize, contents: &[u8], from: Option<usize>, left: usize) {
        let in_call = self.state.calls.collecting();
        let itself = from == Some(item);
        let ways = [
            (in_call, Inclusion::InCall),
            (in_call && contents.contains(&b','), Inclusion::CommaInCall),
            (self.wrapped, Inclusion::FromWrap),
            (from.is_some(), Inclusion::FromContents),
            (itself, Inclusion::Itself),
        ];
        for (_, way) in ways.into_iter().filter(|(is_so, _)| *is_so) {
            self.inclusions.note(way);
        }
        self.itself |= itself;
        if !contents.is_empty() {
            self.contents.push(Contents { item, behind: left });
        }
    }

    /// Looks at the step that was refused, if one was.
    pub fn refused(&mut self, setting: &Setting, report: &Report) {
        match (report.number, report.detail) {
            (3, 0) if self.itself => self.inclusions.note(Inclusion::ItselfSpent),
            (4, 1) if self.itself => self.inclusions.note(Inclusion::ItselfRoom),
            (5, 1) if self.inside().is_some() => self.inclusions.note(Inclusion::OpenQuote),
            _ => {}
        }
        let read = next(&self.state.ahead, &self.state.marks);
        let closing = read.ok().and_then(|read| self.closing(&read.token));
        match (report.number, closing) {
            (15, Some(closing)) => self.unknown(&closing, setting),
            (15, None) => self.verdict = Err("no include, and one is refused".to_string()),
            (4, Some(closing)) if report.detail == 1 => self.no_room(&closing),
            (3, Some(_)) if step(&mut self.state) == Err(Refusal::NoItem) => {
                self.inclusions.note(Inclusion::UnknownSpent);
            }
            _ => {}
        }
    }

    /// 15: "unknown include".
    fn unknown(&mut self, closing: &Closing, setting: &Setting) {
        let items = &self.state.set.items;
        let asked = Asked::of(closing.which, &closing.arguments, items);
        if asked.found.is_some() || closing.which == Predefined::Sinclude {
            self.verdict = Err("what can be included is refused".to_string());
        }
        let shortest = items.iter().map(|item| item.text.len()).min();
        let no_room = shortest.is_some_and(|shortest| shortest > setting.lengths[0]);
        let from_contents = matches!(self.opened.last(), Some(Some(_)));
        let mut ways = asked.ways();
        if no_room {
            ways.push(Inclusion::UnknownNoRoom);
        }
        if from_contents {
            ways.push(Inclusion::UnknownFromContents);
        }
        ways.into_iter().for_each(|way| self.inclusions.note(way));
    }

    /// For contents there was no room.
    fn no_room(&mut self, closing: &Closing) {
        let asked = Asked::of(closing.which, &closing.arguments, &self.state.set.items);
        if asked.found.is_none() {
            self.verdict = Err("there is no room for nothing".to_string());
        }
        let over = asked.contents().len() > LIMIT;
        self.inclusions.note(Inclusion::Room);
        if over {
            self.inclusions.note(Inclusion::OverLimit);
        }
    }
}
