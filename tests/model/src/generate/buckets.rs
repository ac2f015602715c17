//! Tables of many names, many of them in one bucket, and whatever is done to them: request 9 of 02. They
//! are written with the default quote marks. Each text that is defined has a number of its own, so that
//! it shows which definition was found.

mod changes;
mod known;
mod named;
mod uses;

use crate::predefined::Predefined;
use crate::random::Random;
use known::{Idea, Known};

/// No text becomes much longer.
const LONGEST: usize = 56_000;
/// A table of fewer definitions may be emptied.
const FEW: usize = 60;
/// What the tools mean: names that can always be used, whatever becomes of the predefined ones.
const TOOLS: [Predefined; 7] = [
    Predefined::Define,
    Predefined::Pushdef,
    Predefined::Popdef,
    Predefined::Undefine,
    Predefined::Copydef,
    Predefined::Ifdef,
    Predefined::Defn,
];
/// The predefined names have the first numbers, then come the tools.
const FIRST_TOOL: usize = Predefined::ALL.len();
/// One more tool gives its first argument: text that was pending.
const PENDING: usize = FIRST_TOOL + TOOLS.len();
/// The names from here on are changed.
const FIRST_OTHER: usize = PENDING + 1;

/// A text, and an idea of what it has done so far.
struct Table<'r> {
    random: &'r mut Random,
    /// All names, and by their numbers what they are thought to mean.
    names: Vec<String>,
    known: Known,
    text: String,
    /// How many texts were defined.
    texts: usize,
}

/// A text that has up to so many definitions at once.
pub fn tables(random: &mut Random, most: usize) -> Vec<u8> {
    let most = random.pick(&[most, most / 3, most / 10, most / 30 + 1, 2]);
    let count = random.pick(&[most + 1, most / 2 + 1, most / 3 + 1]);
    let names = named::names(random, count, FIRST_OTHER);
    let mut table = Table {
        random,
        names,
        known: Known::at_start(),
        text: String::new(),
        texts: 0,
    };
    // without them a predefined name may be missed, and the oldest definition goes more often
    if table.random.chance(85) {
        table.tools();
    }
    while table.known.count() < most && table.text.len() < LONGEST / 2 {
        table.new_one();
    }
    let changes = table.random.between(most / 4, most) + 12;
    for _ in 0..changes {
        if table.text.len() < LONGEST * 3 / 4 {
            table.change();
            table.look();
        }
    }
    table.all();
    if table.known.count() < FEW {
        table.emptied();
    }
    table.end();
    table.text.into_bytes()
}

impl Table<'_> {
    /// The tools get their meanings.
    fn tools(&mut self) {
        for (number, which) in TOOLS.into_iter().enumerate() {
            let tool = FIRST_TOOL + number;
            self.text += &format!("copydef(`{}',`{}')", which.name(), self.names[tool]);
            self.known.define(tool, Idea::Predefined(which));
        }
        self.text += &format!("define(`{}',`$1')", self.names[PENDING]);
        self.known.define(PENDING, Idea::Text);
    }

    /// A name that means this. If there is none, it is a word.
    fn by(&mut self, which: Predefined) -> String {
        let mut names = self.known.meaning(Idea::Predefined(which));
        if names.is_empty() {
            names.push(which as usize);
        }
        let name = self.random.pick(&names);
        self.at_front(name)
    }

    /// A name that may be changed: mostly not a predefined one.
    fn any(&mut self) -> usize {
        if self.random.chance(12) {
            self.random.below(FIRST_TOOL)
        } else {
            self.random.between(FIRST_OTHER, self.names.len() - 1)
        }
    }

    /// Names are used or asked for here and there.
    fn look(&mut self) {
        for _ in 0..self.random.pick(&[0, 0, 1, 1, 2]) {
            let name = self.any();
            match self.random.below(4) {
                0 => self.asked(name),
                1 => self.text_asked(name),
                _ => {
                    let opens = self.random.chance(50);
                    self.used(name, opens);
                }
            }
        }
    }

    /// Every name is used, without and with a parenthesis, and asked for, in any order.
    fn all(&mut self) {
        let mut asks: Vec<(usize, usize)> = (0..self.names.len())
            .flat_map(|name| (0..4).map(move |how| (name, how)))
            .collect();
        for last in (1..asks.len()).rev() {
            asks.swap(last, self.random.below(last + 1));
        }
        for (name, how) in asks {
            if self.text.len() > LONGEST {
                return;
            }
            match how {
                0 => self.asked(name),
                1 => self.text_asked(name),
                _ => self.used(name, how == 2),
            }
        }
    }
}

#[cfg(test)]
mod tests {
    use super::*;
    use crate::generate::tests::go_by_the_seed;
    use crate::LIMIT;

    #[test]
    fn tables_go_by_the_seed() {
        go_by_the_seed(|random| tables(random, 20));
    }

    #[test]
    fn none_is_too_long() {
        let mut random = Random::new(1);
        for _ in 0..300 {
            assert!(tables(&mut random, 600).len() <= LIMIT);
        }
    }
}
