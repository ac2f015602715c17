//! Texts that copy meanings onto names and use the copies: request 7 of 02. They are written with the
//! default quote marks.

mod calls;
mod ideas;
mod long;
mod refused;

use super::{words, Scale};
use crate::predefined::Predefined;
use crate::random::Random;
use ideas::{Idea, Ideas};

/// Names that get meanings beside the predefined ones.
const NAMES: [&str; 9] = [
    "a",
    "b",
    "f",
    "g",
    "l",
    "_",
    "def",
    "rem",
    "a_rather_long_name",
];
/// What is defined. Some of it is longer than any name, and one calls itself.
const TEXTS: [&str; 18] = [
    "",
    "",
    "x",
    "x",
    "y",
    "xy",
    "xyz",
    "`$0'",
    "`$0'",
    "<$1>",
    "[$1$2]",
    "$#",
    "`$0':$1",
    "a text that is longer than most",
    "$*",
    "len($1)",
    "`$0' and $1, longer than most others",
    "$0",
];

/// A text, and an idea of what it has done so far.
struct Copier<'r> {
    random: &'r mut Random,
    text: String,
    ideas: Ideas,
}

/// A text of copies. Some end in something that is refused.
pub fn copies(random: &mut Random, scale: Scale) -> Vec<u8> {
    if scale == Scale::Full && random.below(25) == 0 {
        return long::long(random);
    }
    let count = match scale {
        Scale::Small => random.pick(&[1, 1, 2, 3, 4]),
        Scale::Full => random.pick(&[1, 1, 2, 2, 3, 4, 7]),
    };
    let mut copier = Copier {
        random,
        text: String::new(),
        ideas: Ideas::at_start(),
    };
    for _ in 0..count {
        copier.piece();
    }
    match copier.random.below(20) {
        0..=8 => copier.refused(),
        9..=10 => copier.among_texts(),
        _ => {}
    }
    copier.text.into_bytes()
}

impl Copier<'_> {
    /// A name that means this, mostly by a copy where there is one.
    fn by(&mut self, which: Predefined) -> &'static str {
        let wanted = Idea::Predefined(which);
        let copy = self
            .ideas
            .any(self.random, |idea, made| made && idea == wanted);
        match copy {
            Some(copy) if self.random.chance(80) => copy,
            _ => which.name(),
        }
    }

    /// A name that the text gave a meaning. If there is none, one gets a text.
    fn made(&mut self) -> &'static str {
        let made = self.ideas.any(self.random, |_, made| made);
        made.unwrap_or_else(|| self.textual())
    }

    /// A name that means a text.
    fn textual(&mut self) -> &'static str {
        let text = self.ideas.any(self.random, |idea, _| idea == Idea::Text);
        text.unwrap_or_else(|| self.defined())
    }

    /// A name that has a predefined meaning by a copy.
    fn copy(&mut self) -> &'static str {
        let copy = |idea, made| made && idea != Idea::Text;
        let copy = self.ideas.any(self.random, copy);
        copy.unwrap_or_else(|| {
            let (source, name) = (words::predefined(self.random), self.random.pick(&NAMES));
            self.copied(source, name)
        })
    }

    /// One thing that is mostly good.
    fn piece(&mut self) {
        match self.random.below(42) {
            0..=13 => self.copied_and_used(),
            14 => drop(self.defined()),
            15..=16 => self.looked_at(),
            17..=18 => self.removed(),
            19..=22 => self.layered(),
            23..=25 => self.among_texts(),
            26..=27 => self.source_changed(),
            28..=29 => self.while_open(),
            30..=34 => self.in_long_argument(),
            35..=36 => self.wrapped(),
            37..=39 => {
                let name = self.copy();
                self.used(name);
            }
            _ => {
                let name = self.made();
                self.used(name);
            }
        }
    }

    fn copied_and_used(&mut self) {
        let (source, name) = self.pair();
        self.copied(source, name);
        if self.random.chance(75) {
            self.used(name);
        }
    }

    /// A call of copydef. Gives the new name.
    fn copied(&mut self, source: &str, name: &'static str) -> &'static str {
        let by = self.by(Predefined::Copydef);
        let more = self
            .random
            .pick(&["", "", "", "", "", "", "", "", ",`b'", ","]);
        self.text += &format!("{by}(`{source}',`{name}'{more})");
        if let Some(idea) = self.ideas.of(source) {
            self.ideas.define(name, idea);
        }
        name
    }

    /// What is copied, and onto what.
    fn pair(&mut self) -> (&'static str, &'static str) {
        let predefined = words::predefined(self.random);
        match self.random.below(26) {
            0..=9 => (predefined, self.random.pick(&NAMES)),
            10..=15 => {
                let (source, name) = (self.textual(), self.made());
                let other = self.random.pick(&NAMES);
                (source, if name == source { other } else { name })
            }
            16..=17 => (self.made(), self.random.pick(&NAMES)),
            18 => (self.made(), predefined),
            19 => (words::predefined(self.random), predefined),
            20 => (predefined, "copydef"),
            21 => (predefined, predefined),
            22 => (predefined, self.made()),
            23 => (self.copy(), self.made()),
            _ => {
                let name = self.made();
                (name, name)
            }
        }
    }

    /// define or pushdef, of texts of all lengths. Gives the name.
    fn defined(&mut self) -> &'static str {
        let name = match self.random.below(12) {
            0 => words::predefined(self.random),
            1 => self.copy(),
            _ => self.random.pick(&NAMES),
        };
        let text = self.random.pick(&TEXTS);
        if self.random.chance(40) {
            let by = self.by(Predefined::Pushdef);
            self.text += &format!("{by}(`{name}',`{text}')");
            self.ideas.push(name, Idea::Text);
        } else {
            let by = self.by(Predefined::Define);
            self.text += &format!("{by}(`{name}',`{text}')");
            self.ideas.define(name, Idea::Text);
        }
        name
    }

    /// ifdef or defn.
    fn looked_at(&mut self) {
        let text = if self.random.chance(40) {
            let (name, by) = (self.made(), self.by(Predefined::Ifdef));
            format!("{by}(`{name}',`y',`n')")
        } else {
            let (name, by) = (self.textual(), self.by(Predefined::Defn));
            format!("{by}(`{name}')")
        };
        self.text += &text;
    }

    /// popdef or undefine, mostly of a copy.
    fn removed(&mut self) {
        let name = match self.random.below(6) {
            0 => words::predefined(self.random),
            1 => self.made(),
            _ => self.copy(),
        };
        self.taken_away(name);
        if self.random.chance(50) {
            self.used(name);
        }
    }

    fn taken_away(&mut self, name: &str) {
        if self.random.chance(60) {
            let by = self.by(Predefined::Popdef);
            self.text += &format!("{by}(`{name}')");
            self.ideas.pop(name);
        } else {
            let by = self.by(Predefined::Undefine);
            self.text += &format!("{by}(`{name}')");
            self.ideas.undefine(name);
        }
    }

    /// A copy onto a name, or of one, that has several meanings, or none any more.
    fn layered(&mut self) {
        let name = match self.random.below(5) {
            0..=2 => words::predefined(self.random),
            _ => self.random.pick(&NAMES),
        };
        for _ in 0..self.random.pick(&[0, 1, 1, 2, 2]) {
            let (by, text) = (self.by(Predefined::Pushdef), self.random.pick(&TEXTS));
            self.text += &format!("{by}(`{name}',`{text}')");
            self.ideas.push(name, Idea::Text);
        }
        if self.random.chance(20) {
            self.taken_away(name);
        }
        if self.ideas.of(name).is_some() && self.random.chance(25) {
            let new_name = self.random.pick(&NAMES);
            self.copied(name, new_name);
            self.used(new_name);
        } else {
            let source = words::predefined(self.random);
            self.copied(source, name);
            self.used(name);
        }
        if self.random.chance(75) {
            self.taken_away(name);
            self.used(name);
        }
    }

    /// Texts of different lengths, and copies of some in the places of others.
    fn among_texts(&mut self) {
        let first = self.random.below(NAMES.len());
        let names = [0, 1, 2].map(|more| NAMES[(first + more) % NAMES.len()]);
        for name in names {
            let text = self.random.pick(&["", "x", "xy", "`$0'$1", "a longer one"]);
            match self.random.below(5) {
                0 => drop(self.copied("len", name)),
                _ => {
                    let by = self.by(Predefined::Define);
                    self.text += &format!("{by}(`{name}',`{text}')");
                    self.ideas.define(name, Idea::Text);
                }
            }
        }
        for _ in 0..self.random.between(1, 2) {
            let [source, name] = self.two_of(names);
            self.copied(source, name);
        }
        let name = self.random.pick(&names);
        self.used(name);
    }

    /// Two different ones.
    fn two_of(&mut self, names: [&'static str; 3]) -> [&'static str; 2] {
        let first = self.random.below(3);
        let second = first + self.random.between(1, 2);
        [names[first], names[second % 3]]
    }

    /// What was copied goes or changes, and the copy is used.
    fn source_changed(&mut self) {
        let source = match self.random.below(3) {
            0 => words::predefined(self.random),
            1 => self.textual(),
            _ => self.made(),
        };
        let name = self.random.pick(&NAMES);
        self.copied(source, name);
        if self.random.chance(50) {
            self.taken_away(source);
        } else {
            let by = self.by(Predefined::Define);
            self.text += &format!("{by}(`{source}',`other')");
            self.ideas.define(source, Idea::Text);
        }
        self.used(name);
    }

    /// A call whose name gets another meaning before it closes.
    fn while_open(&mut self) {
        let name = match self.random.below(2) {
            0 => self.made(),
            _ => self.copy(),
        };
        let change = match self.random.below(3) {
            0 => format!("define(`{name}',`[$1]')"),
            _ => {
                let source = self.random.pick(&["len", "shift", "divnum", "errprint"]);
                format!("copydef(`{source}',`{name}')")
            }
        };
        self.text += &format!("{name}({change}abc)");
    }

    /// A copy that is opened where buffer 2 holds most.
    fn in_long_argument(&mut self) {
        let sources = ["len", "shift", "errprint", "ifelse", "index", "divnum"];
        let (source, name) = (self.random.pick(&sources), self.random.pick(&NAMES));
        self.copied(source, name);
        let long = "long ".repeat(self.random.between(10, 14));
        let arguments = self.random.pick(&["()", "()", "()", "", "(x)"]);
        self.text += &format!("shift(`{long}',{name}{arguments})");
    }

    /// A copy that is made later.
    fn wrapped(&mut self) {
        let (source, name) = self.pair();
        let by = self.by(Predefined::M4wrap);
        self.text += &format!("{by}(`");
        self.copied(source, name);
        if self.random.chance(50) {
            self.used(name);
        }
        self.text += "')";
    }
}

#[cfg(test)]
mod tests {
    use super::*;
    use crate::generate::tests::go_by_the_seed;

    #[test]
    fn copies_go_by_the_seed() {
        go_by_the_seed(|random| copies(random, Scale::Small));
        go_by_the_seed(|random| copies(random, Scale::Full));
    }
}
