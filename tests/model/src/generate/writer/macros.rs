//! Calls of the predefined macros, with arguments that mostly suit them.

use super::Writer;
use crate::generate::expressions::expression;
use crate::generate::sets;
use crate::generate::words::{self, number, BAD_NUMBERS};
use crate::predefined::Predefined;

impl Writer<'_> {
    pub(super) fn predefined_call(&mut self, depth: usize) -> Vec<u8> {
        let which = self.random.pick(&Predefined::ALL);
        let name = which.name().as_bytes();
        if self.random.chance(self.wild) {
            let arguments = self.arguments(0, 4, depth);
            return self.call(name, &arguments);
        }
        match which {
            Predefined::Changecom => self.change_comment(),
            Predefined::Changequote => self.change_quote(),
            Predefined::Define | Predefined::Pushdef => self.definition(depth),
            Predefined::Copydef => self.copy(),
            Predefined::M4exit if self.random.chance(90) => words::plain(self.random),
            // without items this is refused
            Predefined::Include if self.items.is_empty() && self.random.chance(90) => {
                words::plain(self.random)
            }
            Predefined::Dnl => self.dropped_line(),
            _ => {
                let mut arguments = self.suited(which, depth);
                if !arguments.is_empty() && takes_a_fixed_number(which) && self.random.chance(5) {
                    arguments.push(self.argument(depth));
                }
                self.call(name, &arguments)
            }
        }
    }

    fn dropped_line(&mut self) -> Vec<u8> {
        self.random
            .pick(&["dnl\n", "dnl a`\n", "dnl(a,\nb)c\n", "dnl() \n", "dnl#\n"])
            .into()
    }

    fn suited(&mut self, which: Predefined, depth: usize) -> Vec<Vec<u8>> {
        match which {
            Predefined::Incr | Predefined::Decr => vec![self.number(-12, 12)],
            Predefined::Divert => self.numbers(-2, 11, 1),
            Predefined::Undivert => self.numbers(1, 9, 4),
            Predefined::M4exit => self.numbers(0, 255, 1),
            Predefined::Divnum => Vec::new(),
            Predefined::Eval => self.eval_arguments(),
            Predefined::Substr => self.substr_arguments(depth),
            Predefined::Include | Predefined::Sinclude => vec![self.item_name()],
            Predefined::Index => self.index_arguments(depth),
            Predefined::Defn => self.some_names(true),
            Predefined::Popdef | Predefined::Undefine => self.some_names(false),
            Predefined::Ifdef => [vec![self.quoted_name()], self.arguments(0, 2, depth)].concat(),
            Predefined::Ifelse => self.ifelse_arguments(depth),
            Predefined::M4wrap => vec![self.quoted_pieces(depth)],
            Predefined::Translit => self.translit_arguments(depth),
            _ => self.arguments(0, 4, depth),
        }
    }

    /// A number from `least` to `most`; where it is bad on purpose, often one just outside.
    fn number(&mut self, least: i64, most: i64) -> Vec<u8> {
        if self.random.chance(self.wild) {
            let outside = [least - 1, most + 1].map(|number| number.to_string());
            return match self.random.below(5) {
                at @ 0..=1 => outside[at].clone().into(),
                _ => self.random.pick(&BAD_NUMBERS).into(),
            };
        }
        let number = number(self.random, least, most);
        match self.random.below(16) {
            0 => [b"incr(decr(", &number[..], b"))"].concat(),
            _ => number,
        }
    }

    fn numbers(&mut self, least: i64, most: i64, count: usize) -> Vec<Vec<u8>> {
        let count = self.random.below(count + 1);
        (0..count).map(|_| self.number(least, most)).collect()
    }

    /// Names for defn, popdef and undefine; defn of a predefined meaning is refused.
    fn some_names(&mut self, own: bool) -> Vec<Vec<u8>> {
        let count = self.random.between(1, 4);
        let mut names = Vec::new();
        for _ in 0..count {
            let mut name = self.name();
            if own
                && !self.random.chance(self.wild)
                && Predefined::ALL
                    .iter()
                    .any(|which| which.name().as_bytes() == name)
            {
                name = b"a".to_vec();
            }
            names.push(self.quoted(&name));
        }
        names
    }

    /// The name of an item, or of none.
    fn item_name(&mut self) -> Vec<u8> {
        let name = match self.items.len() {
            count if count > 0 && !self.random.chance(self.wild) => {
                self.items[self.random.below(count)].clone()
            }
            _ => sets::name(self.random),
        };
        self.quoted(&name)
    }

    fn eval_arguments(&mut self) -> Vec<Vec<u8>> {
        let mut first = expression(self.random, self.wild);
        if self.random.chance(40) {
            first = self.quoted(&first);
        }
        let mut arguments = vec![first];
        if self.random.chance(40) {
            arguments.push(self.number(2, 36));
            if self.random.chance(60) {
                arguments.push(self.number(0, 12));
            }
        }
        arguments
    }

    /// Starts and lengths at, before and behind the end of the text.
    fn substr_arguments(&mut self, depth: usize) -> Vec<Vec<u8>> {
        let text = self.argument(depth);
        let length = text.len() as i64 + 2;
        let mut arguments = vec![text, self.number(0, length)];
        if self.random.chance(60) {
            arguments.push(self.number(0, length));
        }
        if self.random.chance(4) {
            arguments[1] = b"2147483647".to_vec();
        }
        arguments
    }

    /// A part that mostly stands in the whole.
    fn index_arguments(&mut self, depth: usize) -> Vec<Vec<u8>> {
        let length = self.random.below(9);
        let whole = self.random.bytes(b"ab", length);
        let from = self.random.below(whole.len() + 1);
        let to = self.random.between(from, whole.len());
        let part = whole[from..to].to_vec();
        match self.random.below(6) {
            0 => self.arguments(0, 2, depth),
            1 => vec![part, whole],
            _ => vec![whole, part],
        }
    }

    fn ifelse_arguments(&mut self, depth: usize) -> Vec<Vec<u8>> {
        let mut arguments = self.arguments(0, 9, depth);
        for at in (0..arguments.len().saturating_sub(1)).step_by(3) {
            if self.random.chance(35) {
                arguments[at + 1] = arguments[at].clone();
            }
        }
        arguments
    }

    /// Few different bytes, so that some repeat and some have no partner.
    fn translit_arguments(&mut self, depth: usize) -> Vec<Vec<u8>> {
        let mut arguments = self.arguments(0, 1, depth);
        let count = self.random.between(1, 3);
        while arguments.len() < count {
            let length = self.random.below(7);
            let bytes = self.random.bytes(b"abc-\x80", length);
            arguments.push(self.quoted(&bytes));
        }
        arguments
    }
}

/// Whether an argument more than suits a macro is surplus.
fn takes_a_fixed_number(which: Predefined) -> bool {
    !matches!(
        which,
        Predefined::Defn
            | Predefined::Errprint
            | Predefined::Eval
            | Predefined::Ifelse
            | Predefined::Popdef
            | Predefined::Shift
            | Predefined::Substr
            | Predefined::Undefine
            | Predefined::Undivert
    )
}
