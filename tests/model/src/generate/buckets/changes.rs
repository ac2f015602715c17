//! What is done to the definitions of a table.

use super::known::Idea;
use super::{Table, FIRST_OTHER, FIRST_TOOL, LONGEST};
use crate::predefined::Predefined;
use crate::random::Random;

/// Meanings that are copied, beside those of the tools: they are used without harm.
const COPIED: [Predefined; 9] = [
    Predefined::Decr,
    Predefined::Divnum,
    Predefined::Eval,
    Predefined::Ifelse,
    Predefined::Incr,
    Predefined::Index,
    Predefined::Len,
    Predefined::Shift,
    Predefined::Translit,
];

impl Table<'_> {
    /// A new definition, or another text for a name.
    pub(super) fn new_one(&mut self) {
        let name = self.any();
        match self.random.below(10) {
            0..=1 => self.defined(name),
            2 => self.copied(name),
            _ => self.pushed(name),
        }
    }

    pub(super) fn change(&mut self) {
        let name = self.any();
        match self.random.below(20) {
            0..=4 => self.defined(name),
            5..=7 => self.pushed(name),
            8..=10 => self.copied(name),
            11..=13 => self.popped(name),
            14 => {
                let last = self.known.last(FIRST_OTHER);
                self.popped(last.unwrap_or(name));
            }
            15 => {
                let first = self.known.first(FIRST_OTHER);
                self.popped(first.unwrap_or(name));
            }
            16..=17 => self.undefined(name),
            18 => self.both_taken_away(),
            _ => self.while_open(name),
        }
    }

    /// A text that no other definition has.
    fn new_text(&mut self) -> String {
        self.texts += 1;
        let number = self.texts;
        match self.random.below(12) {
            0 => String::new(),
            1 => format!("{number}"),
            2 => format!("{number}:$1;{}", "-+".repeat(self.random.below(40))),
            _ => format!("{number}:$1;"),
        }
    }

    fn defined(&mut self, name: usize) {
        let (by, text) = (self.by(Predefined::Define), self.new_text());
        self.text += &format!("{by}(`{}',`{text}')", self.names[name]);
        self.known.define(name, Idea::Text);
    }

    fn pushed(&mut self, name: usize) {
        let (by, text) = (self.by(Predefined::Pushdef), self.new_text());
        self.text += &format!("{by}(`{}',`{text}')", self.names[name]);
        self.known.push(name, Idea::Text);
    }

    /// Something that has a meaning goes onto the name.
    fn copied(&mut self, name: usize) {
        let source = match self.random.below(4) {
            0 => copied_meaning(self.random),
            1 => self.random.below(FIRST_TOOL + super::TOOLS.len()),
            _ => self.any(),
        };
        if let Some(idea) = self.known.of(source).filter(|&idea| is_harmless(idea)) {
            let by = self.by(Predefined::Copydef);
            self.text += &format!("{by}(`{}',`{}')", self.names[source], self.names[name]);
            self.known.define(name, idea);
        }
    }

    fn popped(&mut self, name: usize) {
        let by = self.by(Predefined::Popdef);
        self.text += &format!("{by}(`{}')", self.names[name]);
        self.known.pop(name);
    }

    fn undefined(&mut self, name: usize) {
        let by = self.by(Predefined::Undefine);
        self.text += &format!("{by}(`{}')", self.names[name]);
        self.known.undefine(name);
    }

    /// Two names or more in one call.
    fn both_taken_away(&mut self) {
        let pops = self.random.chance(60);
        let by = self.by(if pops {
            Predefined::Popdef
        } else {
            Predefined::Undefine
        });
        let names: Vec<usize> = (0..self.random.between(2, 4)).map(|_| self.any()).collect();
        let quoted = names.iter().map(|&name| format!("`{}'", self.names[name]));
        self.text += &format!("{by}({})", quoted.collect::<Vec<_>>().join(","));
        for name in names {
            if pops {
                self.known.pop(name);
            } else {
                self.known.undefine(name);
            }
        }
    }

    /// The definitions change while a call of one is open. It is not its own that goes.
    fn while_open(&mut self, name: usize) {
        if self.known.of(name) != Some(Idea::Text) {
            return;
        }
        let opened = self.at_front(name);
        self.text += &format!("{opened}(");
        let other = self.any();
        match self.random.below(4) {
            _ if other == name => self.defined(name),
            0 => self.pushed(other),
            1 => self.undefined(other),
            2 => self.defined(name),
            _ => self.popped(other),
        }
        self.text += "8)";
    }

    /// All definitions go, from both ends, and here and there names are asked for.
    pub(super) fn emptied(&mut self) {
        while self.text.len() < LONGEST {
            let next = if self.random.chance(50) {
                self.known.last(FIRST_OTHER)
            } else {
                self.known.first(FIRST_OTHER)
            };
            let Some(name) = next else {
                return;
            };
            self.popped(name);
            self.look();
        }
    }

    /// Some texts end in a call whose name loses its definition meanwhile.
    pub(super) fn end(&mut self) {
        let name = self.any();
        if self.known.of(name) == Some(Idea::Text) && self.random.chance(25) {
            let opened = self.at_front(name);
            self.text += &format!("{opened}(");
            self.undefined(name);
            self.text += "8)";
        }
    }
}

/// The number of a predefined name whose meaning is used without harm.
fn copied_meaning(random: &mut Random) -> usize {
    random.pick(&COPIED) as usize
}

/// Those that change marks, streams and lines stay with their own names.
fn is_harmless(idea: Idea) -> bool {
    match idea {
        Idea::Text => true,
        Idea::Predefined(which) => COPIED.contains(&which) || super::TOOLS.contains(&which),
    }
}
