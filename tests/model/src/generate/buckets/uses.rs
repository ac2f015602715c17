//! How names are used and asked for.

use super::known::Idea;
use super::{Table, PENDING};
use crate::predefined::Predefined;

impl Table<'_> {
    /// A name as it stands in front of something: in the input, in pending text, or across the border.
    pub(super) fn at_front(&mut self, name: usize) -> String {
        let has_pending = self.known.of(PENDING).is_some();
        let (name, pending) = (&self.names[name], &self.names[PENDING]);
        match self.random.below(20) {
            0..=2 if has_pending => {
                let (front, rest) = name.split_at(self.random.between(1, name.len()));
                format!("{pending}(`{front}'){rest}")
            }
            _ => name.clone(),
        }
    }

    /// A name, with a parenthesis behind it or not, by what it is thought to mean.
    pub(super) fn used(&mut self, name: usize, opens: bool) {
        let behind = match (self.known.of(name), opens) {
            // a call without arguments, or a word
            (None | Some(Idea::Text), false) => self.random.pick(&["`'", ";", " ", "\n", " (9)"]),
            (None | Some(Idea::Text), true) => self.random.pick(&["(7)", "(7)", "()", "(`',6)"]),
            (Some(Idea::Predefined(which)), false) => bare(which),
            (Some(Idea::Predefined(which)), true) => called(which),
        };
        let used = self.at_front(name) + &behind.replace('@', &self.names[name]);
        let has_pending = self.known.of(PENDING).is_some();
        let whole = has_pending && self.random.chance(5) && !used.contains('\n');
        self.text += &if whole {
            format!("{}(`{used}')", self.names[PENDING])
        } else {
            used
        };
    }

    pub(super) fn asked(&mut self, name: usize) {
        let by = self.by(Predefined::Ifdef);
        self.text += &format!("{by}(`{}',`1',`0')", self.names[name]);
    }

    /// The text of a name that has one, or nothing.
    pub(super) fn text_asked(&mut self, name: usize) {
        if matches!(self.known.of(name), Some(Idea::Predefined(_))) {
            return self.asked(name);
        }
        let by = self.by(Predefined::Defn);
        let other = self.any();
        let more = match self.known.of(other) {
            Some(Idea::Text) if self.random.chance(30) => format!(",`{}'", self.names[other]),
            _ => String::new(),
        };
        self.text += &format!("{by}(`{}'{more})", self.names[name]);
    }
}

/// What stands behind a name of this meaning without a parenthesis. m4exit would end the run.
fn bare(which: Predefined) -> &'static str {
    match which {
        Predefined::Dnl => "\n",
        Predefined::M4exit => "0;",
        _ => "`'",
    }
}

/// A call that leaves the definitions as they are, and marks, streams and lines about so; `@` stands for
/// the name. For some there is none, and then it is a longer name.
fn called(which: Predefined) -> &'static str {
    match which {
        Predefined::Changecom => "(`#')",
        Predefined::Changequote => "(`[',`]')@`'",
        Predefined::Copydef => "_x(1)",
        Predefined::Define | Predefined::Pushdef | Predefined::Defn => "0(1)",
        Predefined::Decr | Predefined::Incr => "(7)",
        Predefined::Divert => "(0)",
        Predefined::Divnum => "()",
        Predefined::Dnl => "(7)8\n",
        Predefined::Errprint | Predefined::M4wrap => "(`')",
        Predefined::Eval => "(2+3)",
        Predefined::Ifdef => "(`1',`2',`3')",
        Predefined::Ifelse => "(1,1,4,5)",
        Predefined::Include | Predefined::M4exit => "_0(1)",
        Predefined::Index => "(123,3)",
        Predefined::Len => "(123)",
        Predefined::Popdef | Predefined::Undefine => "(`1')",
        Predefined::Shift => "(1,2,3)",
        Predefined::Sinclude => "(1)",
        Predefined::Substr => "(123,1)",
        Predefined::Translit => "(123,2,4)",
        Predefined::Undivert => "(2)",
    }
}
