//! The definitions as a plain list, and what a copy has to make of it.

use crate::definitions::{Definitions, Meaning};
use crate::predefined::Predefined;

#[derive(Clone, Debug, PartialEq, Eq)]
pub struct Table {
    /// Those that the text made, oldest first.
    pub made: Vec<(Vec<u8>, Meaning)>,
    /// The predefined names that keep their own meaning.
    own: Vec<Predefined>,
}

impl Table {
    pub fn of(definitions: &Definitions) -> Table {
        let in_order = definitions.in_order().into_iter();
        let own = Predefined::ALL.into_iter();
        Table {
            made: in_order.map(|(n, m)| (n.to_vec(), m.clone())).collect(),
            own: own.filter(|&which| definitions.keeps_own(which)).collect(),
        }
    }

    /// Where the newest definition of a name stands that the text made.
    pub fn place(&self, name: &[u8]) -> Option<usize> {
        self.made.iter().rposition(|(other, _)| other == name)
    }

    /// Whether the text made several definitions of a name.
    pub fn has_several(&self, name: &[u8]) -> bool {
        self.made.iter().filter(|(other, _)| other == name).count() > 1
    }

    /// The own meaning of a name, in force or covered.
    pub fn own(&self, name: &[u8]) -> Option<Predefined> {
        let mut own = self.own.iter().copied();
        own.find(|which| which.name().as_bytes() == name)
    }

    /// The meaning in force.
    pub fn meaning(&self, name: &[u8]) -> Option<Meaning> {
        match self.place(name) {
            Some(place) => Some(self.made[place].1.clone()),
            None => self.own(name).map(Meaning::Predefined),
        }
    }

    /// "as define would set it": in the place of the newest definition, and last where there is none,
    /// instead of an own meaning.
    pub fn set(&mut self, name: &[u8], meaning: Meaning) {
        match self.place(name) {
            Some(place) => self.made[place].1 = meaning,
            None => {
                self.own.retain(|which| which.name().as_bytes() != name);
                self.made.push((name.to_vec(), meaning));
            }
        }
    }

    /// What buffer 3 has to hold.
    pub fn held(&self) -> usize {
        let costs = self
            .made
            .iter()
            .map(|(name, m)| name.len() + text_length(m));
        costs.sum()
    }
}

/// How many bytes the text of a meaning has. A predefined one has none.
pub fn text_length(meaning: &Meaning) -> usize {
    match meaning {
        Meaning::Text(text) => text.len(),
        Meaning::Predefined(_) => 0,
    }
}
