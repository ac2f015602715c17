//! The walk over a template's text that hints.rs goes by.

mod names;

use crate::bytes::{begins_name, is_digit, is_in_name, run_of};
use crate::hints::{Kind, Owned, Seen};
use crate::remarks;
use crate::suspects::looks_alike;

const ORDER_MARK: &[u8] = "\u{feff}".as_bytes();

/// What an open parenthesis has in it.
#[derive(Clone, Copy, Default)]
struct Frame<'t> {
    /// It belongs to a call, or stands in one.
    in_call: bool,
    /// Quoted text in it is written as it is, and not read again.
    as_is: bool,
    /// Quoted text in it is kept, and read at any time.
    keeps: bool,
    /// The name whose definition this is part of.
    defines: Option<&'t str>,
    /// The macro that takes whole numbers, and this is its argument.
    taker: Option<&'t str>,
    /// The macro of the text, and this is its argument.
    given: Option<&'t str>,
}

struct Scan<'t> {
    text: &'t [u8],
    /// Where templates end.
    ends: &'t [usize],
    at: usize,
    frames: Vec<Frame<'t>>,
    /// Of each open quote, how many parentheses were open where it began.
    quotes: Vec<usize>,
    /// In a quote, a comment or what dnl drops: how many quotes were open where it began.
    remark: Option<usize>,
    /// The current stream throws away what it gets.
    discards: bool,
    /// The marks may be others from here on.
    marks_changed: bool,
    own: Owned<'t>,
    /// What of `seen` is read where the outermost open call closes.
    open: Vec<usize>,
    seen: Vec<Seen<'t>>,
}

/// Reads a text of templates that end at these places, where some names have a meaning before: what may be a mistake, as far as the definitions allow,
/// and these.
pub fn walk<'t>(text: &'t [u8], ends: &'t [usize], own: Owned<'t>) -> (Vec<Seen<'t>>, Owned<'t>) {
    let mut scan = Scan {
        text,
        ends,
        at: 0,
        frames: Vec::new(),
        quotes: Vec::new(),
        remark: None,
        discards: false,
        marks_changed: false,
        own,
        open: Vec::new(),
        seen: Vec::new(),
    };
    while scan.at < text.len() {
        scan.step();
    }
    (scan.seen, scan.own)
}

impl<'t> Scan<'t> {
    /// Takes one byte or name or number.
    fn step(&mut self) {
        let byte = self.text[self.at];
        if byte == b'\r' {
            self.carriage_return();
        } else if byte == ORDER_MARK[0] {
            self.order_mark();
        }
        if self.marks_changed {
            self.at += 1;
            return;
        }
        match byte {
            b'\n' => self.remark = None,
            b'`' => self.quotes.push(self.frames.len()),
            b'\'' => self.end_quote(),
            _ if self.remark.is_some() => {}
            b'#' => return self.remark(self.at, "#"),
            b'(' => self.frames.push(self.frame()),
            b')' => self.close(),
            b'$' => return self.parameter(),
            _ if is_digit(byte) => return self.number(),
            _ if begins_name(byte) => return self.name(),
            0x80.. => return self.character(),
            _ => {}
        }
        self.at += 1;
    }

    fn frame(&self) -> Frame<'t> {
        self.frames.last().copied().unwrap_or_default()
    }

    /// Whether a name here is read as one, now or when the text that holds it is read.
    fn is_live(&self) -> bool {
        let Frame { in_call, as_is, .. } = self.frame();
        self.quotes.is_empty() || in_call && !as_is
    }

    fn run_of(&self, from: usize, test: impl Fn(u8) -> bool) -> &'t [u8] {
        run_of(self.text, from, test)
    }

    /// Names and numbers are ASCII.
    fn word(&self, from: usize, test: impl Fn(u8) -> bool) -> &'t str {
        std::str::from_utf8(self.run_of(from, test)).unwrap_or_default()
    }

    fn note(&mut self, place: usize, kind: Kind<'t>) {
        self.note_in(self.frame().in_call, place, kind);
    }

    fn note_in(&mut self, within: bool, place: usize, kind: Kind<'t>) {
        let Frame { in_call, keeps, .. } = self.frame();
        if self.discards && !in_call && kind.is_mere_text() {
            return;
        }
        let ends = (!in_call).then_some(self.at);
        if in_call && (self.quotes.is_empty() || !keeps) {
            self.open.push(self.seen.len());
        }
        self.seen.push(Seen {
            place,
            ends,
            within,
            kind,
        });
    }

    fn carriage_return(&mut self) {
        let behind = self.at + 1;
        let at_end =
            self.text.get(behind) == Some(&b'\n') || self.ends.binary_search(&behind).is_ok();
        if at_end && self.remark.is_none() {
            let Frame { in_call, taker, .. } = self.frame();
            // Lines of a quoted text are many, and CR does no harm in most.
            let within = in_call && (self.quotes.is_empty() || taker.is_some());
            self.note_in(within, self.at, Kind::Return);
        }
    }

    fn order_mark(&mut self) {
        let begins = self.at == 0 || self.ends.binary_search(&self.at).is_ok();
        if begins && self.text[self.at..].starts_with(ORDER_MARK) && self.remark.is_none() {
            self.note(self.at, Kind::OrderMark);
        }
    }

    /// Parentheses in a quote are its own.
    fn end_quote(&mut self) {
        if let Some(open) = self.quotes.pop() {
            self.frames.truncate(open);
            self.remark = self.remark.filter(|&depth| depth <= self.quotes.len());
        }
    }

    fn close(&mut self) {
        let open = self.quotes.last().copied().unwrap_or(0);
        if self.frames.len() <= open {
            return;
        }
        let closed = self.frames.pop().unwrap_or_default();
        if closed.in_call && !self.frame().in_call {
            for number in self.open.drain(..) {
                self.seen[number].ends = Some(self.at + 1);
            }
        }
    }

    /// A comment, or what dnl drops, with its mark or name at a place. In a quote the end mark still counts.
    fn remark(&mut self, place: usize, by: &'t str) {
        self.at = place + by.len();
        if !self.quotes.is_empty() {
            self.remark = Some(self.quotes.len());
            return;
        }
        let remark = self.run_of(self.at, |b| b != b'\n');
        self.at += remark.len();
        if remarks::runs_on(place..self.at, self.ends) {
            self.note(place, Kind::RunsOn { by });
        }
        if self.frame().in_call && remarks::has_closer(remark) {
            self.note(place, Kind::Closer { by });
        }
    }

    fn parameter(&mut self) {
        self.at += 1;
        let quoted = !self.quotes.is_empty();
        let Some(&sign) = self.text.get(self.at) else {
            return;
        };
        if is_digit(sign) || b"*@".contains(&sign) || sign == b'#' && quoted {
            self.at += 1;
            let own = self.frame().defines.and_then(|name| self.own.get_mut(name));
            if let Some(own) = own {
                own.takes |= sign != b'0';
            }
        }
    }

    /// A number with a point, if one stands there; one with two points is none.
    fn pointed(&self, from: usize) -> Option<&'t str> {
        let word = self.word(from, |b| is_digit(b) || b == b'.');
        let (whole, part) = word.trim_end_matches('.').split_once('.')?;
        let is_one = !whole.is_empty() && !part.is_empty() && !part.contains('.');
        is_one.then(|| word.trim_end_matches('.'))
    }

    fn number(&mut self) {
        let place = self.at;
        let Frame { taker, given, .. } = self.frame();
        let found = self.pointed(place).filter(|_| self.is_live());
        self.at += self.run_of(place, |b| is_digit(b) || b == b'.').len();
        match (found, taker, given) {
            (Some(number), Some(taker), _) => self.note(place, Kind::Point { number, taker }),
            (Some(number), None, Some(to)) => {
                let taker = "";
                self.note(place, Kind::GivenPoint { number, to, taker });
            }
            _ => {}
        }
    }

    /// A character above ASCII, whole or not.
    fn character(&mut self) {
        let place = self.at;
        let rest = &self.text[place..self.text.len().min(place + 4)];
        let valid = match std::str::from_utf8(rest) {
            Ok(valid) => valid,
            Err(error) => std::str::from_utf8(&rest[..error.valid_up_to()]).unwrap_or_default(),
        };
        let Some(mark) = valid.chars().next() else {
            self.at += 1;
            return;
        };
        self.at += mark.len_utf8();
        let quoted = !self.quotes.is_empty();
        let is_letter = |byte: Option<&u8>| byte.is_some_and(|&b| is_in_name(b) || b >= 0x80);
        let before = place.checked_sub(1).and_then(|n| self.text.get(n));
        let apostrophe = is_letter(before) && is_letter(self.text.get(self.at));
        if looks_alike(mark, quoted) && !apostrophe {
            self.note(place, Kind::LookAlike { mark, quoted });
        }
    }
}
