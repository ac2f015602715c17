//! What the names of a text are thought to mean, if nothing in it is refused.

use crate::predefined::Predefined;
use crate::random::Random;

#[derive(Clone, Copy, PartialEq, Eq)]
pub enum Idea {
    Text,
    Predefined(Predefined),
}

/// A meaning of a name, and whether the text gave it.
#[derive(Clone, Copy)]
struct Known {
    name: &'static str,
    idea: Idea,
    made: bool,
}

/// All meanings, the newest of a name last.
pub struct Ideas(Vec<Known>);

impl Ideas {
    pub fn at_start() -> Ideas {
        let own = Predefined::ALL.map(|which| Known {
            name: which.name(),
            idea: Idea::Predefined(which),
            made: false,
        });
        Ideas(own.to_vec())
    }

    fn newest(&self, name: &str) -> Option<usize> {
        self.0.iter().rposition(|known| known.name == name)
    }

    /// What a name means by now.
    pub fn of(&self, name: &str) -> Option<Idea> {
        self.newest(name).map(|at| self.0[at].idea)
    }

    /// One of the names that mean by now what is wanted, given by the text or not.
    pub fn any(
        &self,
        random: &mut Random,
        wanted: impl Fn(Idea, bool) -> bool,
    ) -> Option<&'static str> {
        let in_force = |at: &usize| self.newest(self.0[*at].name) == Some(*at);
        let known = (0..self.0.len()).filter(in_force).map(|at| self.0[at]);
        let known = known.filter(|known| wanted(known.idea, known.made));
        let names: Vec<&str> = known.map(|known| known.name).collect();
        (!names.is_empty()).then(|| random.pick(&names))
    }

    pub fn define(&mut self, name: &'static str, idea: Idea) {
        self.pop(name);
        self.push(name, idea);
    }

    pub fn push(&mut self, name: &'static str, idea: Idea) {
        let made = true;
        self.0.push(Known { name, idea, made });
    }

    pub fn pop(&mut self, name: &str) {
        if let Some(at) = self.newest(name) {
            self.0.remove(at);
        }
    }

    pub fn undefine(&mut self, name: &str) {
        self.0.retain(|known| known.name != name);
    }
}
