//! A name at the front of the text ahead, and what its way depends on.

use super::{held_if_placed, keeps_bare_call, Use};
use crate::definitions::Meaning;
use crate::predefined::Predefined;
use crate::state::State;

pub struct Name {
    pub length: usize,
    pub kind: Kind,
    /// The predefined macro that it means, or that has this name at the start.
    pub which: Option<Predefined>,
    /// Whether that macro has this name at the start.
    pub own: bool,
    /// The byte behind it.
    pub next: Option<u8>,
    /// What the buffers hold before its step.
    held: [usize; 7],
    /// Whether a call is open before its step.
    pub collecting: bool,
}

#[derive(Clone, Copy, PartialEq, Eq)]
pub enum Kind {
    Predefined,
    Text,
    Undefined,
}

impl Name {
    /// The name that was read there.
    pub fn of(state: &State, name: &[u8]) -> Name {
        let (kind, which) = match state.definitions.newest(name) {
            Some(Meaning::Predefined(which)) => (Kind::Predefined, Some(*which)),
            Some(Meaning::Text(_)) => (Kind::Text, predefined(name)),
            None => (Kind::Undefined, predefined(name)),
        };
        Name {
            length: name.len(),
            kind,
            which,
            own: which == predefined(name),
            next: state.ahead.byte(name.len()),
            held: state.held(),
            collecting: state.calls.collecting(),
        }
    }

    /// Whether `(` directly follows.
    pub fn opens(&self) -> bool {
        self.next == Some(b'(')
    }

    /// How many bytes are pending.
    pub fn pending(&self) -> usize {
        self.held[0]
    }

    /// A predefined meaning, and what 02 asks of it.
    pub fn asked(&self) -> Option<(Predefined, Use)> {
        let which = self.which.filter(|_| self.kind == Kind::Predefined)?;
        let asked = match which {
            _ if self.opens() => Use::Opened,
            _ if keeps_bare_call(which) => Use::Bare,
            _ => Use::Plain,
        };
        Some((which, asked))
    }

    /// What the buffers hold once it left the text ahead and came to one place, whole.
    pub fn held_if_plain(&self, after: &State) -> [usize; 7] {
        held_if_placed(&self.held, self.length, self.collecting, after)
    }
}

fn predefined(name: &[u8]) -> Option<Predefined> {
    let mut all = Predefined::ALL.into_iter();
    all.find(|which| which.name().as_bytes() == name)
}
