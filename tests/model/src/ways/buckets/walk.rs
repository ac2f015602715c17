//! Takes the steps of a run once more, and keeps a plain list of the definitions with their buckets
//! beside it.

use super::shelf::{Search, Shelf};
use super::{Bucketed, Buckets};
use crate::answer::Setting;
use crate::predefined::Predefined;
use crate::state::State;
use crate::step::step;
use crate::tokens::{next, Token};
use crate::Report;

/// So many definitions are told of where a run is refused.
const HUNDRED: usize = 100;

/// An open call.
struct Opened {
    /// Whether its name stood across the border of pending text and input.
    across: bool,
    /// How many definitions had gone by then.
    gone: usize,
}

/// A run on its way.
pub struct Walk<'w, 't> {
    buckets: &'w mut Buckets,
    setting: &'w Setting,
    state: State<'t>,
    shelf: Shelf,
    opened: Vec<Opened>,
    /// How many definitions have gone so far.
    gone: usize,
}

impl<'w, 't> Walk<'w, 't> {
    pub fn at_start(
        buckets: &'w mut Buckets,
        setting: &'w Setting,
        state: State<'t>,
    ) -> Walk<'w, 't> {
        Walk {
            buckets,
            setting,
            state,
            shelf: Shelf::at_start(),
            opened: Vec::new(),
            gone: 0,
        }
    }

    fn note_all(&mut self, ways: Vec<Bucketed>) {
        ways.into_iter().for_each(|way| self.buckets.note(way));
    }

    /// Takes a step that the run completed.
    pub fn completed(&mut self) {
        let read = next(&self.state.ahead, &self.state.marks).expect("a completed step");
        match read.token {
            Token::Name(name) => self.name(&name),
            Token::Byte(b')') if self.state.calls.collecting() => self.parenthesis(),
            _ => self.step(),
        }
    }

    fn step(&mut self) {
        self.state.called = None;
        step(&mut self.state).expect("a completed step");
    }

    /// Takes a name. No call without a parenthesis changes a definition.
    fn name(&mut self, name: &[u8]) {
        let pending = self.state.ahead.held();
        let across = 0 < pending && pending < name.len();
        let search = self.shelf.search(name);
        self.note_all(self.shelf.ways(name, &search));
        match search.found {
            Some(_) if across => self.buckets.note(Bucketed::AcrossFound),
            Some(_) if pending > 0 => self.buckets.note(Bucketed::PendingFound),
            None if across && self.shelf.keeps_own(name) => self.buckets.note(Bucketed::AcrossOwn),
            None if across => self.buckets.note(Bucketed::AcrossNone),
            _ => {}
        }
        let calls = self.state.calls.count();
        self.step();
        if self.state.calls.count() > calls {
            let gone = self.gone;
            self.opened.push(Opened { across, gone });
        }
    }

    /// Takes a right parenthesis, which may close a call.
    fn parenthesis(&mut self) {
        let call = self.state.calls.innermost().expect("an open call").clone();
        let calls = self.state.calls.count();
        self.step();
        if self.state.calls.count() == calls {
            return;
        }
        let opened = self.opened.pop().expect("an open call");
        let search = self.shelf.search(&call.name);
        self.note_closed(&opened, &search);
        if let Some(which) = self.state.called {
            let before = self.shelf.count();
            self.done(which, &call.arguments);
            self.gone += before.saturating_sub(self.shelf.count());
        }
    }

    fn note_closed(&mut self, opened: &Opened, search: &Search) {
        if opened.across {
            self.buckets.note(Bucketed::AcrossClosed);
        }
        match search.found {
            None => self.buckets.note(Bucketed::ClosedOwn),
            Some(place) => {
                if search.behind_others() {
                    self.buckets.note(Bucketed::ClosedBehind);
                }
                if self.gone > opened.gone && self.shelf.has_moved(place) {
                    self.buckets.note(Bucketed::ClosedMoved);
                }
            }
        }
    }

    /// What a call does to the definitions, or asks of them.
    fn done(&mut self, which: Predefined, arguments: &[Vec<u8>]) {
        let first = arguments.first().map_or(&[][..], |first| first);
        let second = arguments.get(1).map_or(&[][..], |second| second);
        let ways = match which {
            Predefined::Define => self.shelf.define(first),
            Predefined::Pushdef => self.shelf.push(first),
            Predefined::Popdef => self.each(arguments, Shelf::pop),
            Predefined::Undefine => self.each(arguments, Shelf::undefine),
            Predefined::Copydef => self.copied(first, second),
            Predefined::Ifdef => self.sought(first, [Bucketed::Ifdef, Bucketed::IfdefNone]),
            Predefined::Defn => arguments
                .iter()
                .flat_map(|name| self.sought(name, [Bucketed::Defn, Bucketed::DefnNone]))
                .collect(),
            _ => Vec::new(),
        };
        self.note_all(ways);
    }

    fn each(
        &mut self,
        names: &[Vec<u8>],
        done: fn(&mut Shelf, &[u8]) -> Vec<Bucketed>,
    ) -> Vec<Bucketed> {
        names
            .iter()
            .flat_map(|name| done(&mut self.shelf, name))
            .collect()
    }

    fn copied(&mut self, source: &[u8], name: &[u8]) -> Vec<Bucketed> {
        let within = crate::buckets::bucket_of(source) == crate::buckets::bucket_of(name);
        let mut ways = self.shelf.define(name);
        if source != name {
            ways.push(if within {
                Bucketed::CopiedWithin
            } else {
                Bucketed::CopiedAcross
            });
        }
        ways
    }

    /// A macro seeks a name: one of two ways if there are others before it in its bucket.
    fn sought(&self, name: &[u8], [found, none]: [Bucketed; 2]) -> Vec<Bucketed> {
        let search = self.shelf.search(name);
        match (search.behind_others(), search.found) {
            (false, _) => Vec::new(),
            (true, Some(_)) => vec![found],
            (true, None) => vec![none],
        }
    }

    /// Looks at the step that was refused, if one was.
    pub fn refused(&mut self, report: &Report) {
        match (report.number, report.detail) {
            (4, 3) if self.shelf.count() >= HUNDRED => self.buckets.note(Bucketed::NoRoom),
            (3, 0) if self.shelf.count() >= HUNDRED => self.buckets.note(Bucketed::Spent),
            (12, 0) => {
                let call = self.state.calls.innermost().expect("an open call");
                if self.shelf.search(&call.name).behind_others() {
                    self.buckets.note(Bucketed::ClosedGone);
                }
            }
            _ => {}
        }
    }

    /// The list is that of the definitions, and they fit.
    pub fn verdict(&self) -> Result<(), String> {
        let definitions = self.state.definitions.in_order();
        let names = definitions.iter().map(|(name, _)| *name);
        if !names.eq(self.shelf.names()) {
            return Err("the definitions are others than those of a plain list".to_string());
        }
        if self.state.definitions.held() > self.setting.lengths[2] {
            return Err("the definitions have more bytes than there is room for".to_string());
        }
        Ok(())
    }
}
