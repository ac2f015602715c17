//! Writes texts piece by piece, with an idea of the marks in force and of the names that are
//! defined.

mod changes;
mod definitions;
mod macros;

use super::bare::placed;
use super::marks::Pair;
use super::words::{self, number};
use crate::random::Random;

/// Pieces that are enclosed by as many others are plain words.
const DEEPEST: usize = 4;

pub struct Writer<'r> {
    random: &'r mut Random,
    /// How many choices in a hundred are bad on purpose.
    wild: usize,
    quote: Pair,
    comment: Option<Pair>,
    known: Vec<Vec<u8>>,
    /// The names of what may be included.
    items: Vec<Vec<u8>>,
}

fn default_quote() -> Pair {
    (b"`".to_vec(), b"'".to_vec())
}

fn default_comment() -> Pair {
    (b"#".to_vec(), b"\n".to_vec())
}

impl<'r> Writer<'r> {
    pub fn new(random: &'r mut Random, wild: usize) -> Writer<'r> {
        Writer {
            random,
            wild,
            quote: default_quote(),
            comment: Some(default_comment()),
            known: Vec::new(),
            items: Vec::new(),
        }
    }

    /// Items of these names may be included.
    pub fn including(mut self, names: &[Vec<u8>]) -> Writer<'r> {
        self.items = names.to_vec();
        self
    }

    /// Pieces until the text is about `length` bytes long.
    pub fn text(&mut self, length: usize) -> Vec<u8> {
        let mut text = Vec::new();
        while text.len() < length {
            text.extend(self.piece(0));
        }
        if self.random.chance(12) {
            text.extend(self.last());
        }
        text
    }

    /// What may stand at the end of a text.
    fn last(&mut self) -> Vec<u8> {
        match self.random.below(8) {
            0 => b"dnl".to_vec(),
            1 => b"dnl a b".to_vec(),
            2 => b"m4exit".to_vec(),
            3 => [b"m4exit(", &number(self.random, 0, 255)[..], b")"].concat(),
            _ => self.open_comment(),
        }
    }

    fn piece(&mut self, depth: usize) -> Vec<u8> {
        if depth >= DEEPEST {
            return words::plain(self.random);
        }
        match self.random.below(100) {
            0..=9 => self.parted(),
            10..=14 => words::blanks(self.random),
            15..=17 => words::odd(self.random),
            18..=23 => self.quoted_pieces(depth),
            24..=26 => self.comment(),
            27..=37 => self.definition(depth),
            38..=54 => self.user_call(depth),
            55..=57 => self.cut(depth),
            58..=60 => self.plain_name(),
            61..=64 if depth == 0 && self.quote == default_quote() => placed(self.random).into(),
            _ => self.predefined_call(depth),
        }
    }

    fn pieces(&mut self, depth: usize) -> Vec<u8> {
        let count = self.random.below(4);
        (0..count).flat_map(|_| self.piece(depth)).collect()
    }

    /// A plain word that mostly does not join the name behind it.
    fn parted(&mut self) -> Vec<u8> {
        let behind = match self.random.below(5) {
            0 => b" ".to_vec(),
            1 => b";".to_vec(),
            2..=3 => self.quoted(b""),
            _ => Vec::new(),
        };
        [words::plain(self.random), behind].concat()
    }

    /// A predefined name without `(` directly behind it; one may stand behind what comes between.
    fn plain_name(&mut self) -> Vec<u8> {
        let between = match self.random.below(8) {
            0..=2 => words::blanks(self.random),
            3..=4 => self.quoted(b""),
            5 => self.comment(),
            _ => b";".to_vec(),
        };
        let behind = self.random.pick(&["", "", "(a)", "(1,b)"]);
        let name = words::needs_parenthesis(self.random);
        [name.as_bytes(), &between, behind.as_bytes()].concat()
    }

    fn quoted(&self, inside: &[u8]) -> Vec<u8> {
        [&self.quote.0, inside, &self.quote.1].concat()
    }

    fn quoted_pieces(&mut self, depth: usize) -> Vec<u8> {
        let inside = self.pieces(depth + 1);
        let mut text = self.quoted(&inside);
        let more = match self.random.below(60) {
            0 => self.random.between(10, 300),
            1..=6 => self.random.between(1, 4),
            _ => 0,
        };
        for _ in 0..more {
            text = self.quoted(&text);
        }
        text
    }

    fn comment(&mut self) -> Vec<u8> {
        let (_, end) = self.comment_marks();
        [self.open_comment(), end].concat()
    }

    /// A comment without its end mark.
    fn open_comment(&mut self) -> Vec<u8> {
        let (begin, _) = self.comment_marks();
        let inside = self
            .random
            .pick(&["", "a", "len(", "`", ",)", " b' ", "$1", "dnl", "#"]);
        [&begin, inside.as_bytes()].concat()
    }

    /// Those in force, or those of the start where comments are off.
    fn comment_marks(&self) -> Pair {
        self.comment.clone().unwrap_or_else(default_comment)
    }

    fn name(&mut self) -> Vec<u8> {
        if !self.known.is_empty() && self.random.chance(65) {
            self.known[self.random.below(self.known.len())].clone()
        } else {
            words::name(self.random)
        }
    }

    fn quoted_name(&mut self) -> Vec<u8> {
        let name = self.name();
        self.quoted(&name)
    }

    fn argument(&mut self, depth: usize) -> Vec<u8> {
        match self.random.below(24) {
            0..=9 => self.quoted_pieces(depth),
            10..=14 => words::plain(self.random),
            15 => self.plain_name(),
            16..=19 => self.piece(depth + 1),
            20..=21 => Vec::new(),
            _ => self.pieces(depth + 1),
        }
    }

    fn arguments(&mut self, least: usize, most: usize, depth: usize) -> Vec<Vec<u8>> {
        let count = self.random.between(least, most);
        (0..count).map(|_| self.argument(depth)).collect()
    }

    /// A call with these arguments, bare if there are none.
    fn call(&mut self, name: &[u8], arguments: &[Vec<u8>]) -> Vec<u8> {
        if arguments.is_empty() {
            return self.bare(name);
        }
        let mut text = [name, b"("].concat();
        for (i, argument) in arguments.iter().enumerate() {
            if i > 0 {
                text.push(b',');
            }
            if self.random.chance(8) {
                text.extend(words::blanks(self.random));
            }
            text.extend(argument);
        }
        text.push(b')');
        text
    }

    /// A bare call, mostly with something behind it that ends the name.
    fn bare(&mut self, name: &[u8]) -> Vec<u8> {
        let behind = match self.random.below(10) {
            0..=5 => self.quoted(b""),
            6 => b" ".to_vec(),
            7 => b"()".to_vec(),
            8 => b";".to_vec(),
            _ => Vec::new(),
        };
        [name, &behind].concat()
    }

    /// A call of a name that the text may have defined. A parenthesis behind it may open a call of
    /// the name that its result ends with.
    fn user_call(&mut self, depth: usize) -> Vec<u8> {
        let name = self.name();
        let most = if self.random.chance(4) { 14 } else { 4 };
        let arguments = self.arguments(0, most, depth);
        let mut text = self.call(&name, &arguments);
        if !arguments.is_empty() && self.random.chance(8) {
            text.extend(b"(a)");
        }
        text
    }
}
