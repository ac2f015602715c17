//! Definitions: those made by the text, and what predefined names mean by themselves. 02, request 7:
//! "A definition is from now on a text or a predefined meaning."

use crate::predefined::Predefined;
use std::collections::HashMap;

/// What a name stands for.
#[derive(Clone, Debug, PartialEq, Eq)]
pub enum Meaning {
    Predefined(Predefined),
    Text(Vec<u8>),
}

impl Meaning {
    /// A text as a meaning.
    pub fn of(text: &[u8]) -> Meaning {
        Meaning::Text(text.to_vec())
    }

    /// Whether a name of this meaning is called only with `(` directly behind it. Request 2 of 02
    /// speaks of predefined meanings alone: a text keeps its bare call.
    pub fn needs_parenthesis(&self) -> bool {
        match self {
            Meaning::Predefined(which) => which.needs_parenthesis(),
            Meaning::Text(_) => false,
        }
    }
}

/// A definition of a name.
#[derive(Debug)]
struct Definition {
    meaning: Meaning,
    /// Its number in the order of arrival, from 1 on. A predefined name's own meaning is not made by
    /// the text and has none.
    arrived: Option<u64>,
}

impl Definition {
    /// "name and text of every live definition made by the text (predefined meanings cost nothing,
    /// ...)"; 02, request 7: "The copy of a predefined meaning costs its name only". Each definition
    /// of a name pays the name again.
    fn cost(&self, name: &[u8]) -> usize {
        match (&self.meaning, self.arrived) {
            (_, None) => 0,
            (Meaning::Predefined(_), Some(_)) => name.len(),
            (Meaning::Text(text), Some(_)) => name.len() + text.len(),
        }
    }
}

/// All live definitions, for each name the newest last.
#[derive(Debug)]
pub struct Definitions {
    by_name: HashMap<Vec<u8>, Vec<Definition>>,
    /// How many have arrived so far.
    arrivals: u64,
    held: usize,
}

impl Definitions {
    /// "These 24 macros are predefined ... No other name is." Requests 1 and 7 of 02 add three.
    pub fn at_start() -> Definitions {
        let predefined = Predefined::ALL.iter();
        let by_name = predefined.map(|&which| {
            let own = Definition {
                meaning: Meaning::Predefined(which),
                arrived: None,
            };
            (which.name().as_bytes().to_vec(), vec![own])
        });
        Definitions {
            by_name: by_name.collect(),
            arrivals: 0,
            held: 0,
        }
    }

    /// The meaning in force. Every rule asks here.
    pub fn newest(&self, name: &[u8]) -> Option<&Meaning> {
        let newest = self.by_name.get(name)?.last()?;
        Some(&newest.meaning)
    }

    /// "define replaces the newest definition"; copydef sets a meaning "as define would set it". 02,
    /// request 10: "A replaced definition keeps its place; one that replaces a predefined name's own
    /// meaning is new."
    pub fn define(&mut self, name: &[u8], meaning: Meaning) {
        let replaced = self.pop(name).and_then(|replaced| replaced.arrived);
        let arrived = replaced.unwrap_or_else(|| self.arrive());
        self.push(name, meaning, arrived);
    }

    /// "pushdef keeps it".
    pub fn pushdef(&mut self, name: &[u8], meaning: Meaning) {
        let arrived = self.arrive();
        self.push(name, meaning, arrived);
    }

    /// "popdef uncovers it ... Unknown names do nothing."
    pub fn popdef(&mut self, name: &[u8]) {
        self.pop(name);
    }

    /// "undefine drops all".
    pub fn undefine(&mut self, name: &[u8]) {
        while self.pop(name).is_some() {}
    }

    /// The number of a definition that is new.
    fn arrive(&mut self) -> u64 {
        self.arrivals += 1;
        self.arrivals
    }

    fn push(&mut self, name: &[u8], meaning: Meaning, arrived: u64) {
        let definition = Definition {
            meaning,
            arrived: Some(arrived),
        };
        self.held += definition.cost(name);
        let stack = self.by_name.entry(name.to_vec()).or_default();
        stack.push(definition);
    }

    /// Takes the newest definition away.
    fn pop(&mut self, name: &[u8]) -> Option<Definition> {
        let stack = self.by_name.get_mut(name)?;
        let newest = stack.pop();
        if stack.is_empty() {
            self.by_name.remove(name);
        }
        if let Some(definition) = &newest {
            self.held -= definition.cost(name);
        }
        newest
    }

    /// What buffer 3 holds; "removed ones give their room back for use".
    pub fn held(&self) -> usize {
        self.held
    }

    /// The definitions that the text made, "oldest first". No rule asks for their order yet; tests do.
    pub fn in_order(&self) -> Vec<(&[u8], &Meaning)> {
        let mut made = Vec::new();
        for (name, stack) in &self.by_name {
            for definition in stack {
                if let Some(arrived) = definition.arrived {
                    made.push((arrived, &name[..], &definition.meaning));
                }
            }
        }
        made.sort_by_key(|&(arrived, ..)| arrived);
        made.into_iter()
            .map(|(_, name, meaning)| (name, meaning))
            .collect()
    }

    /// The predefined meaning in force that the text gave a name. Tests ask here.
    pub fn copied(&self, name: &[u8]) -> Option<Predefined> {
        match self.by_name.get(name)?.last()? {
            Definition {
                meaning: Meaning::Predefined(which),
                arrived: Some(_),
            } => Some(*which),
            _ => None,
        }
    }

    /// Whether a predefined name keeps its own meaning, in force or covered. Tests ask here.
    pub fn keeps_own(&self, which: Predefined) -> bool {
        let stack = self.by_name.get(which.name().as_bytes());
        let oldest = stack.and_then(|stack| stack.first());
        oldest.is_some_and(|oldest| oldest.arrived.is_none())
    }
}

#[cfg(test)]
mod tests {
    use super::*;
    use Predefined::*;

    #[test]
    fn room_comes_back() {
        let mut definitions = Definitions::at_start();
        assert_eq!(definitions.by_name.len(), 27);
        definitions.define(b"len", Meaning::of(b"abc"));
        assert_eq!(definitions.held(), 6);
        definitions.pushdef(b"len", Meaning::of(b""));
        assert_eq!(definitions.held(), 9);
        definitions.define(b"len", Meaning::of(b"x"));
        assert_eq!(definitions.held(), 10);
        definitions.popdef(b"len");
        assert_eq!(definitions.newest(b"len"), Some(&Meaning::of(b"abc")));
        definitions.undefine(b"len");
        definitions.popdef(b"len");
        assert_eq!(definitions.newest(b"len"), None);
        assert_eq!(definitions.held(), 0);
    }

    #[test]
    fn a_covered_predefined_meaning_is_kept() {
        let mut definitions = Definitions::at_start();
        definitions.pushdef(b"len", Meaning::of(b"x"));
        assert!(definitions.keeps_own(Len));
        definitions.popdef(b"len");
        let own = Meaning::Predefined(Len);
        assert_eq!(definitions.newest(b"len"), Some(&own));
        assert_eq!(definitions.copied(b"len"), None);
        assert!(definitions.keeps_own(Len));
        definitions.popdef(b"len");
        assert!(!definitions.keeps_own(Len));
    }

    /// "The copy of a predefined meaning costs its name only".
    #[test]
    fn a_copy_costs_its_name() {
        let mut definitions = Definitions::at_start();
        definitions.define(b"ab", Meaning::Predefined(Len));
        assert_eq!(definitions.held(), 2);
        assert_eq!(definitions.copied(b"ab"), Some(Len));
        // its own meaning, now as a definition
        definitions.define(b"len", Meaning::Predefined(Len));
        assert_eq!(definitions.held(), 5);
        assert_eq!(definitions.copied(b"len"), Some(Len));
        assert!(!definitions.keeps_own(Len));
        definitions.define(b"ab", Meaning::of(b"xyz"));
        assert_eq!((definitions.held(), definitions.copied(b"ab")), (8, None));
        definitions.popdef(b"len");
        assert_eq!((definitions.held(), definitions.newest(b"len")), (5, None));
    }

    #[test]
    fn a_replaced_definition_keeps_its_place() {
        let mut definitions = Definitions::at_start();
        let names = |definitions: &Definitions| {
            let in_order = definitions.in_order();
            let names = in_order.into_iter().map(|(name, _)| name.to_vec());
            names.collect::<Vec<_>>().concat()
        };
        for name in [b"a", b"b", b"c"] {
            definitions.define(name, Meaning::of(name));
        }
        definitions.pushdef(b"a", Meaning::of(b"x"));
        assert_eq!(names(&definitions), b"abca");
        definitions.define(b"b", Meaning::Predefined(Dnl));
        definitions.define(b"a", Meaning::Predefined(Dnl));
        assert_eq!(names(&definitions), b"abca");
        definitions.popdef(b"a");
        definitions.define(b"a", Meaning::of(b"y"));
        assert_eq!(names(&definitions), b"abc");
        // one that replaces an own meaning, or nothing, is new
        definitions.define(b"len", Meaning::of(b"z"));
        definitions.undefine(b"b");
        definitions.define(b"b", Meaning::of(b"z"));
        assert_eq!(names(&definitions), b"aclenb");
    }
}
