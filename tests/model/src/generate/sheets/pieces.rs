//! Pieces of a text that writes a given sheet: each line is quoted, plain, defined, diverted, included,
//! or comes to be written in another way.

use super::Scale;
use crate::generate::Input;
use crate::house::{write, Item};
use crate::random::Random;

/// Quote marks: those of them that a sheet has not can quote it. The first are in force anyway.
const MARKS: [[&[u8]; 2]; 4] = [
    [b"`", b"'"],
    [b"[", b"]"],
    [b"<<", b">>"],
    [b"\x01", b"\x02"],
];

/// What may stand anywhere between lines, and changes what is written, or how the run ends.
const MORE: [&str; 33] = [
    "m4exit",
    "m4exit`'",
    "errprint(`w')",
    "errprint(`a=1')",
    "errprint(`two words',more)",
    "dnl",
    "dnl remark\n",
    "# remark\n",
    "#",
    "\n",
    "divert(-1)",
    "divert(3)",
    "divert(3)undivert(3)",
    "undivert",
    "m4wrap(`z=1')",
    "m4wrap(`\n')",
    "define(`a',`b')",
    "define(`mast',`2')",
    "changecom",
    "changequote",
    "`",
    "len(",
    "changecom(`%',`;')%",
    "define(1)",
    "incr(a)",
    "m4exit(256)",
    "eval(a)",
    "eval(1/0)",
    "changequote(a)",
    "defn(`len')",
    "len(undefine(`len'))",
    "include(`none')",
    "copydef(`none',`b')",
];

pub struct Pieces {
    marks: [&'static [u8]; 2],
    parts: Vec<Vec<u8>>,
    items: Vec<Item>,
}

impl Pieces {
    /// No piece yet, but quote marks that can quote the sheet, if there are any.
    fn of(sheet: &[u8]) -> Pieces {
        let has = |mark: &[u8]| sheet.windows(mark.len()).any(|bytes| bytes == mark);
        let unused = MARKS
            .iter()
            .find(|marks| !marks.iter().any(|mark| has(mark)));
        let marks = *unused.unwrap_or(&MARKS[0]);
        let mut pieces = Pieces {
            marks,
            parts: Vec::new(),
            items: Vec::new(),
        };
        if marks != MARKS[0] {
            let [begin, end] = marks;
            let change = [b"changequote(", begin, b",", end, b")"].concat();
            pieces.parts.push(change);
        }
        pieces
    }

    /// The sheet in one piece.
    pub fn whole(sheet: &[u8]) -> Pieces {
        let mut pieces = Pieces::of(sheet);
        let quoted = pieces.quoted(sheet);
        pieces.parts.push(quoted);
        pieces
    }

    /// A piece for each line, or two.
    pub fn by_lines(random: &mut Random, sheet: &[u8], scale: Scale) -> Pieces {
        let mut pieces = Pieces::of(sheet);
        for line in sheet.split_inclusive(|&byte| byte == b'\n') {
            let part = pieces.line(random, line, scale);
            pieces.parts.push(part);
        }
        pieces
    }

    /// Puts something else between the pieces.
    pub fn insert_one(&mut self, random: &mut Random) {
        let more = match random.below(60) {
            0 => "len(".repeat(65),
            1 => format!("len({})", ",".repeat(256)),
            2..=14 => format!("m4exit({})", random.pick(&[0, 1, 1, 1, 1, 2, 3, 255])),
            _ => random.pick(&MORE).to_string(),
        };
        let more = self.marked(more.as_bytes());
        let at = random.between(0, self.parts.len());
        self.parts.insert(at, more);
    }

    /// The text, with the set from which it includes.
    pub fn input(self) -> Input {
        Input {
            text: self.parts.concat(),
            set: write(&self.items),
        }
    }

    fn quoted(&self, bytes: &[u8]) -> Vec<u8> {
        let [begin, end] = self.marks;
        [begin, bytes, end].concat()
    }

    /// A text with its quote marks in place of the usual ones.
    fn marked(&self, text: &[u8]) -> Vec<u8> {
        let mark = |&byte: &u8| match byte {
            b'`' => self.marks[0].to_vec(),
            b'\'' => self.marks[1].to_vec(),
            _ => vec![byte],
        };
        text.iter().flat_map(mark).collect()
    }

    /// A text with something quoted for each `@`.
    fn with(&self, text: &str, quoted: &[u8]) -> Vec<u8> {
        let parts: Vec<Vec<u8>> = text
            .split('@')
            .map(|part| self.marked(part.as_bytes()))
            .collect();
        parts.join(&self.quoted(quoted)[..])
    }

    /// What writes a line, mostly.
    fn line(&mut self, random: &mut Random, line: &[u8], scale: Scale) -> Vec<u8> {
        // no name of a sheet begins so
        let name = format!("qq{}", self.parts.len());
        match random.below(20) {
            0..=3 => self.quoted(line),
            4..=7 => line.to_vec(),
            8..=9 => self.with(&format!("define(`{name}',@){name}`'"), line),
            10 => self.with(&format!("divert({})@divert`'", random.between(1, 9)), line),
            11 => self.with("m4wrap(@)", line),
            12 => self.with("ifelse(`x',`x',@)", line),
            13 => self.with("errprint(`w')@", line),
            14 => self.with("dnl remark\n@", line),
            15 => self.with("define(`x',`$1')x(@)", line),
            16 if scale == Scale::Full => {
                self.items.push(Item::new(name.as_bytes(), line));
                format!("include({name})").into()
            }
            17 => worked_out(random, line),
            _ => self.with("substr(@,0)", line),
        }
    }
}

/// A line of one number, which eval writes instead.
fn worked_out(random: &mut Random, line: &[u8]) -> Vec<u8> {
    let text = String::from_utf8_lossy(line);
    let parts = text.trim_end().split_once('=');
    match parts.and_then(|(name, number)| Some((name, number.parse::<i32>().ok()?))) {
        Some((name, number)) => {
            let more = random.below(50) as i32;
            let less = number.wrapping_sub(more);
            format!("{name}=eval({less}+{more})\n").into()
        }
        None => line.to_vec(),
    }
}
