//! A call that closes or has no parentheses, and what it does to copies or with them.

use super::asked::Asked;
use super::table::Table;
use super::walk::Given;
use super::Copied;
use crate::definitions::Meaning;
use crate::predefined::Predefined;
use crate::state::State;
use std::collections::HashMap;

#[derive(Default)]
pub struct Closing {
    /// The predefined meaning that its name has by a copy.
    pub copy: Option<Predefined>,
    /// How many bytes it holds in buffer 2.
    pub held: usize,
    /// If it is one of copydef, what that asks for.
    pub asked: Option<Asked>,
    /// Its ways if it is completed, but for those of copying.
    pub ways: Vec<Copied>,
    /// Its ways if it is defn and refused by 11.
    pub ways_of_no_text: Vec<Copied>,
}

/// The state before a call, and what copydef gave until then.
struct Before<'s> {
    state: &'s State<'s>,
    given: &'s HashMap<Vec<u8>, Given>,
}

impl Closing {
    /// The innermost call that is open.
    pub fn at_front(state: &State, given: &HashMap<Vec<u8>, Given>) -> Closing {
        let call = state.calls.innermost().expect("an open call");
        let before = Before { state, given };
        let mut closing = Closing {
            copy: state.definitions.copied(&call.name),
            held: call.name.len() + call.arguments.iter().map(Vec::len).sum::<usize>(),
            ways: before.ways_of_call(&call.name, &call.arguments),
            ..Closing::default()
        };
        if let Some(Meaning::Predefined(which)) = state.definitions.newest(&call.name) {
            closing.ways.extend(before.done_to(*which, &call.arguments));
            match which {
                Predefined::Copydef => {
                    closing.asked = Some(Asked::of(&state.definitions, &call.arguments));
                }
                Predefined::Defn => {
                    closing.ways_of_no_text = before.ways_of_no_text(&call.arguments);
                }
                _ => {}
            }
        }
        closing
    }

    /// A name that is called without parentheses.
    pub fn bare(state: &State, name: &[u8], given: &HashMap<Vec<u8>, Given>) -> Closing {
        let before = Before { state, given };
        let mut ways = before.ways_of_call(name, &[]);
        if matches!(before.given(name), Some(Meaning::Text(_))) {
            ways.push(Copied::TextBare);
        }
        Closing {
            ways,
            ..Closing::default()
        }
    }
}

impl Before<'_> {
    /// The predefined meaning that an argument has by a copy.
    fn copy(&self, arguments: &[Vec<u8>], at: usize) -> Option<Predefined> {
        let name = arguments.get(at)?;
        self.state.definitions.copied(name)
    }

    /// The meaning of a name, if it still is what copydef gave to it.
    fn given(&self, name: &[u8]) -> Option<&Meaning> {
        let meaning = self.state.definitions.newest(name)?;
        let given = self.given.get(name)?;
        (given.meaning == *meaning).then_some(meaning)
    }

    /// The ways of a call of what copydef gave to a name.
    fn ways_of_call(&self, name: &[u8], arguments: &[Vec<u8>]) -> Vec<Copied> {
        let Some(meaning) = self.given(name) else {
            return Vec::new();
        };
        let mut ways = Vec::new();
        match self.state.definitions.newest(&self.given[name].source) {
            None => ways.push(Copied::SourceGone),
            Some(other) if other != meaning => ways.push(Copied::SourceChanged),
            Some(_) => {}
        }
        if let Meaning::Text(text) = meaning {
            let has = |parameter: &[u8]| text.windows(2).any(|two| two == parameter);
            if has(b"$0") {
                ways.push(Copied::TextName);
            }
            if has(b"$1") && arguments.first().is_some_and(|first| !first.is_empty()) {
                ways.push(Copied::TextArgument);
            }
        }
        ways
    }

    /// What a call of a predefined meaning does to copies.
    fn done_to(&self, which: Predefined, arguments: &[Vec<u8>]) -> Vec<Copied> {
        let first = self.copy(arguments, 0).is_some();
        let any = (0..arguments.len()).any(|at| self.copy(arguments, at).is_some());
        let text = |name: &Vec<u8>| matches!(self.given(name), Some(Meaning::Text(_)));
        match which {
            Predefined::Define if first => vec![Copied::DefinedAnew],
            Predefined::Pushdef if first => vec![Copied::Covered],
            Predefined::Ifdef if first => vec![Copied::Ifdef],
            Predefined::Popdef if first => self.ways_of_popping(&arguments[0]),
            Predefined::Undefine if any => vec![Copied::Undefined],
            Predefined::Defn if arguments.iter().any(text) => vec![Copied::DefnOfText],
            _ => Vec::new(),
        }
    }

    /// A copy is popped, and what it covered is in force.
    fn ways_of_popping(&self, name: &[u8]) -> Vec<Copied> {
        let table = Table::of(&self.state.definitions);
        let mut ways = vec![Copied::Popped];
        if table.has_several(name) {
            ways.push(Copied::PoppedToOther);
        } else if table.own(name).is_some() {
            ways.push(Copied::PoppedToOwn);
        }
        ways
    }

    /// The first argument of defn that has no text may be a copy.
    fn ways_of_no_text(&self, arguments: &[Vec<u8>]) -> Vec<Copied> {
        let definitions = &self.state.definitions;
        let predefined =
            |name: &Vec<u8>| matches!(definitions.newest(name), Some(Meaning::Predefined(_)));
        let Some(at) = arguments.iter().position(predefined) else {
            return Vec::new();
        };
        let mut ways = Vec::new();
        if self.copy(arguments, at).is_some() {
            ways.push(Copied::DefnOfCopy);
            let text = |name: &Vec<u8>| definitions.newest(name).is_some();
            if arguments[..at].iter().any(text) {
                ways.push(Copied::DefnLater);
            }
        }
        ways
    }
}
