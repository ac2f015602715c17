//! What copies are refused for, at the end of a text.

use super::Copier;
use crate::generate::words;
use crate::predefined::Predefined;

/// Names that never get a meaning.
const UNKNOWN: [&str; 4] = ["no", "no_such_name", "L", "le"];
/// What is not a name.
const ODD: [&str; 8] = ["1", "9a", "a b", "a ", " a", "-", "a-b", "\u{e9}"];

impl Copier<'_> {
    /// Something that is mostly refused.
    pub(super) fn refused(&mut self) {
        let (made, copy, textual) = (self.made(), self.copy(), self.textual());
        let known = self.random.pick(&["len", made]);
        let unknown = self.random.pick(&UNKNOWN);
        let odd = self.random.pick(&ODD);
        let gone = words::predefined(self.random);
        let away = self.random.pick(&["undefine", "popdef"]);
        let by = self.by(Predefined::Copydef);
        let text = match self.random.below(18) {
            0 => format!("{by}(`{known}')"),
            1 => format!("{by}(`{known}',`')"),
            2..=3 => format!("{by}(`{known}',`{odd}')"),
            4 => format!("{by}(`{unknown}',`{odd}')"),
            5 => format!("{by}(`{unknown}')"),
            6..=7 => format!("{by}(`{unknown}',`a')"),
            8 => format!("{by}(`{odd}',`a')"),
            9 => format!("{by}(,`a')"),
            10 => format!("{by}(`{odd}',`{odd}')"),
            11..=12 => format!("undefine(`{gone}'){by}(`{gone}',`a')"),
            13 => format!("defn(`{copy}')"),
            14 => format!("defn(`{textual}',`{copy}')"),
            15..=16 => format!("{copy}({away}(`{copy}')abc)"),
            _ => format!("{by}(`{known}',`a'"),
        };
        self.text += &text;
    }
}
