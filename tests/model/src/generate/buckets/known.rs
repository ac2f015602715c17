//! What the names of a text are thought to mean, if nothing in it is refused: a plain list.

use crate::predefined::Predefined;

#[derive(Clone, Copy, PartialEq, Eq)]
pub enum Idea {
    Text,
    Predefined(Predefined),
}

/// The definitions in order of arrival, by the numbers of their names, and which predefined names keep
/// their own meaning. Those have the first numbers.
pub struct Known {
    made: Vec<(usize, Idea)>,
    own: [bool; Predefined::ALL.len()],
}

impl Known {
    pub fn at_start() -> Known {
        Known {
            made: Vec::new(),
            own: [true; Predefined::ALL.len()],
        }
    }

    /// How many definitions there are.
    pub fn count(&self) -> usize {
        self.made.len()
    }

    fn newest(&self, name: usize) -> Option<usize> {
        self.made.iter().rposition(|&(other, _)| other == name)
    }

    /// What a name means by now.
    pub fn of(&self, name: usize) -> Option<Idea> {
        match self.newest(name) {
            Some(place) => Some(self.made[place].1),
            None if self.own.get(name) == Some(&true) => {
                Some(Idea::Predefined(Predefined::ALL[name]))
            }
            None => None,
        }
    }

    /// All names that mean this by now.
    pub fn meaning(&self, idea: Idea) -> Vec<usize> {
        let made = self.made.iter().filter(|(_, other)| *other == idea);
        let names = made.map(|&(name, _)| name).chain(0..self.own.len());
        names.filter(|&name| self.of(name) == Some(idea)).collect()
    }

    /// The name of the definition that arrived last, if it may be changed.
    pub fn last(&self, from: usize) -> Option<usize> {
        let name = self.made.last()?.0;
        (name < Predefined::ALL.len() || name >= from).then_some(name)
    }

    /// The name of the oldest definition that is the newest of its name and may be changed.
    pub fn first(&self, from: usize) -> Option<usize> {
        let mut places = (0..self.made.len()).filter(|&place| {
            let name = self.made[place].0;
            name < Predefined::ALL.len() || name >= from
        });
        let first = places.find(|&place| self.newest(self.made[place].0) == Some(place))?;
        Some(self.made[first].0)
    }

    pub fn define(&mut self, name: usize, idea: Idea) {
        match self.newest(name) {
            Some(place) => self.made[place].1 = idea,
            None => {
                self.lose_own(name);
                self.push(name, idea);
            }
        }
    }

    pub fn push(&mut self, name: usize, idea: Idea) {
        self.made.push((name, idea));
    }

    pub fn pop(&mut self, name: usize) {
        match self.newest(name) {
            Some(place) => drop(self.made.remove(place)),
            None => self.lose_own(name),
        }
    }

    pub fn undefine(&mut self, name: usize) {
        self.made.retain(|&(other, _)| other != name);
        self.lose_own(name);
    }

    fn lose_own(&mut self, name: usize) {
        if let Some(own) = self.own.get_mut(name) {
            *own = false;
        }
    }
}
