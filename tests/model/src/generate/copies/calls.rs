//! How names are used, by what they are thought to mean.

use super::ideas::Idea;
use super::Copier;
use crate::generate::bare::argument;
use crate::predefined::Predefined;

/// Without a parenthesis directly behind.
const ALONE: [&str; 5] = ["@", "@", "@ (a)", "@`'(a)", "@,"];
const OF_TEXTS: [&str; 6] = ["@", "@", "@()", "@(x)", "@(x)", "@(`y',z)"];

impl Copier<'_> {
    /// A name, bare or with parentheses, and something that ends it.
    pub(super) fn used(&mut self, name: &str) {
        let call = match self.ideas.of(name) {
            None => self.random.pick(&["@", "@(a)", "@ (a)"]).to_string(),
            Some(Idea::Text) => self.random.pick(&OF_TEXTS).to_string(),
            Some(Idea::Predefined(which)) => self.call(which),
        };
        self.text += &call.replace('@', name);
        self.text += self.random.pick(&["`'", "`'", " ", ";", "\n"]);
    }

    /// A use of a name that means this; `@` stands for it.
    fn call(&mut self, which: Predefined) -> String {
        if self.random.chance(40) {
            return self.random.pick(&ALONE).to_string();
        }
        let calls: &[&str] = match which {
            // they leave the marks, the stream and the line about as they were
            Predefined::Changecom | Predefined::Changequote => &["@(`[',`]')[q]@"],
            Predefined::Divert => &["@(2)x`'@", "@(-1)x`'@"],
            Predefined::Divnum => &["@", "@()"],
            Predefined::Dnl => &["@ b\nc", "@(a)b\nc", "@(a)b\nc"],
            Predefined::Undivert => &["divert(2)x`'divert`'@(2)"],
            // few runs are to end here
            Predefined::M4exit => &["@(3)", "@(3)", ";"],
            Predefined::Include => &["@(a)", "@;", "@;"],
            Predefined::Copydef => &["@(`len',`l')", "@(`b',`b')"],
            Predefined::Define | Predefined::Pushdef => &["@(`b',`x')", "@(`l',`y')"],
            Predefined::Popdef | Predefined::Undefine => &["@(`b')", "@(`l',`b')"],
            Predefined::Defn => &["define(`b',`x')@(`b')", "@(`no')"],
            _ => {
                let arguments = argument(self.random, which.name());
                return format!("@({arguments})");
            }
        };
        self.random.pick(calls).to_string()
    }
}
