//! Definitions, and calls whose text ends in the middle of something.

use super::{default_quote, Writer};
use crate::generate::words;

/// Two bytes that no other mark has, to quote anything at all.
const OPEN: &[u8] = b"\x01";
const CLOSE: &[u8] = b"\x02";

const BAD_NAMES: [&str; 6] = ["", "1a", "a b", "-", "a\n", "\u{e9}"];
const DOLLARS: [&str; 16] = [
    "$1", "$1", "$2", "$3", "$9", "$0", "$#", "$*", "$@", "$@", "$$1", "$", "$10", "$a", "$1$1",
    "${1}",
];
const FRAGMENTS: [&str; 14] = [
    "len(",
    "(",
    ",",
    ")",
    "ifelse($1,",
    "#",
    "'",
    "le",
    "dnl ",
    "$1(",
    "shift($@)",
    "incr($1)",
    " ",
    "\n",
];

impl Writer<'_> {
    pub(super) fn definition(&mut self, depth: usize) -> Vec<u8> {
        let bad = self.random.chance(self.wild);
        let name = if bad {
            self.random.pick(&BAD_NAMES).into()
        } else {
            self.name()
        };
        let body = self.body(depth);
        let by = self.random.pick(&[&b"define"[..], b"define", b"pushdef"]);
        if !bad {
            self.known.push(name.clone());
        }
        let mut arguments = vec![self.quoted(&name), self.quoted(&body)];
        match self.random.below(12) {
            0 => arguments.truncate(1),
            1 => arguments[0] = name,
            2 => arguments.push(self.argument(depth)),
            _ => {}
        }
        self.call(by, &arguments)
    }

    /// A call of copydef, mostly of a name that has a meaning.
    pub(super) fn copy(&mut self) -> Vec<u8> {
        let source = match self.random.below(10) {
            0..=3 => self.name(),
            4 if self.random.chance(self.wild) => words::odd(self.random),
            _ => words::predefined(self.random).into(),
        };
        let bad = self.random.chance(self.wild);
        let name = if bad {
            self.random.pick(&BAD_NAMES).into()
        } else {
            self.name()
        };
        let mut arguments = vec![self.quoted(&source), self.quoted(&name)];
        // what would end the run is not called on purpose
        if !bad && source != b"m4exit" && source != b"include" {
            self.known.push(name);
        }
        if self.random.chance(5) {
            arguments.push(self.quoted(b"a"));
        }
        self.call(b"copydef", &arguments)
    }

    /// The text of a definition.
    fn body(&mut self, depth: usize) -> Vec<u8> {
        let count = self.random.below(5);
        let mut body = Vec::new();
        for _ in 0..count {
            match self.random.below(12) {
                0..=4 => body.extend(self.random.pick(&DOLLARS).as_bytes()),
                5 => body.extend(self.random.pick(&FRAGMENTS).as_bytes()),
                6 => body.extend(words::odd(self.random)),
                7 => body.extend(words::plain(self.random)),
                _ => body.extend(self.piece(depth + 1)),
            }
        }
        if self.random.chance(6) {
            body.extend(words::needs_parenthesis(self.random).as_bytes());
        }
        body
    }

    /// A piece whose front is the text of a definition, so that its tokens cross the border of
    /// pending text and input.
    pub(super) fn cut(&mut self, depth: usize) -> Vec<u8> {
        let whole = match self.random.below(6) {
            0 => self.quoted_pieces(depth + 1),
            1 => self.comment(),
            2 => words::predefined(self.random).into(),
            3 => self.user_call(depth + 1),
            _ => self.predefined_call(depth + 1),
        };
        let (front, back) = whole.split_at(self.random.below(whole.len() + 1));
        let name = self.random.pick(&[&b"p"[..], b"q"]);
        let call = self.random.pick(&[&b"()"[..], b"()", b"(x)"]);
        let own = |bytes: &[u8]| [OPEN, bytes, CLOSE].concat();
        [
            b"changequote(\x01,\x02)define(",
            &own(name)[..],
            b",",
            &own(front),
            b")",
            &self.quotes_as_before(own),
            &self.quoted(b""),
            name,
            call,
            back,
        ]
        .concat()
    }

    /// A call that sets the quote marks that were in force, from those of [`Writer::cut`].
    fn quotes_as_before(&self, own: impl Fn(&[u8]) -> Vec<u8>) -> Vec<u8> {
        if self.quote == default_quote() {
            return b"changequote".to_vec();
        }
        let (begin, end) = &self.quote;
        [b"changequote(", &own(begin)[..], b",", &own(end), b")"].concat()
    }
}
