//! Ways of a written text: its lines and names, and which of its lines is refused as one too many or as
//! a name given twice.

use crate::bytes::is_name;
use crate::predefined::Predefined;
use crate::sheet::{Fault, Judged, Line};
use crate::LIMIT;

pub struct Read<'a> {
    pub text: &'a [u8],
    /// The lines without their newlines.
    pub lines: Vec<&'a [u8]>,
    pub judged: &'a Judged,
}

impl<'a> Read<'a> {
    pub fn of(text: &'a [u8], judged: &'a Judged) -> Read<'a> {
        let mut lines: Vec<&[u8]> = text.split(|&byte| byte == b'\n').collect();
        if lines.last() == Some(&&b""[..]) {
            lines.pop();
        }
        Read {
            text,
            lines,
            judged,
        }
    }

    /// The lines of a good sheet.
    fn sheet(&self) -> &[Line] {
        self.judged.as_deref().unwrap_or(&[])
    }

    pub fn ends_in_newline(&self) -> bool {
        self.text.last() == Some(&b'\n')
    }

    /// A good sheet of so many lines.
    fn good(&self, lines: usize) -> bool {
        self.judged.is_ok() && self.lines.len() == lines
    }

    /// The names of a good sheet.
    fn names(&self) -> Vec<&'a [u8]> {
        match self.judged {
            Ok(_) => self.lines.iter().map(|line| parts(line).0).collect(),
            Err(_) => Vec::new(),
        }
    }

    /// A good sheet has such a name.
    fn name(&self, such: fn(&[u8]) -> bool) -> bool {
        self.names().into_iter().any(such)
    }

    /// A good sheet has two such names, one line behind the other.
    fn names_side_by_side(&self, such: fn(&[u8], &[u8]) -> bool) -> bool {
        let names = self.names();
        names.windows(2).any(|two| such(two[0], two[1]))
    }

    /// The index of the line that is refused so.
    pub fn refused(&self, fault: Fault) -> Option<usize> {
        match self.judged {
            Err(refused) if refused.fault == fault => Some(refused.line as usize - 1),
            _ => None,
        }
    }

    /// 21, and this holds of both lines: the earlier one and the one that is refused.
    fn twice(&self, such: impl Fn(usize, usize) -> bool) -> bool {
        let Some(second) = self.refused(Fault::Twice) else {
            return false;
        };
        let name = parts(self.lines[second]).0;
        let first = self.lines.iter().position(|line| parts(line).0 == name);
        first.is_some_and(|first| such(first, second))
    }

    /// 22, and line 257 is such a one.
    fn too_many(&self, such: fn(&[u8]) -> bool) -> bool {
        self.refused(Fault::TooMany)
            .is_some_and(|at| such(self.lines[at]))
    }
}

/// What stands before and behind the first `=`. A line without one has only a front.
pub fn parts(line: &[u8]) -> (&[u8], &[u8]) {
    match line.iter().position(|&byte| byte == b'=') {
        Some(at) => (&line[..at], &line[at + 1..]),
        None => (line, b""),
    }
}

pub fn is_predefined(bytes: &[u8]) -> bool {
    let mut all = Predefined::ALL.iter();
    all.any(|which| which.name().as_bytes() == bytes)
}

type Way = (&'static str, fn(&Read) -> bool);

pub const WAYS: &[Way] = &[
    ("read: no byte", |r| r.text.is_empty()),
    ("read: one line", |r| r.good(1)),
    ("read: a few lines", |r| (2..=9).contains(&r.sheet().len())),
    ("read: a last newline", |r| {
        r.judged.is_ok() && r.ends_in_newline()
    }),
    ("read: no last newline", |r| {
        r.judged.is_ok() && !r.text.is_empty() && !r.ends_in_newline()
    }),
    ("read: 255 lines", |r| r.good(255)),
    ("read: 256 lines and a newline", |r| {
        r.good(256) && r.ends_in_newline()
    }),
    ("read: 256 lines, the last without newline", |r| {
        r.good(256) && !r.ends_in_newline()
    }),
    ("read: 65,536 bytes", |r| {
        r.judged.is_ok() && r.text.len() == LIMIT
    }),
    ("read: a name of one byte", |r| {
        r.name(|name| name.len() == 1)
    }),
    ("read: a name above 64 bytes", |r| {
        r.name(|name| name.len() > 64)
    }),
    ("read: a name above 255 bytes", |r| {
        r.name(|name| name.len() > 255)
    }),
    ("read: the longest name", |r| {
        r.name(|name| name.len() == LIMIT - 2)
    }),
    ("read: a name with a digit", |r| {
        r.name(|name| name.iter().any(u8::is_ascii_digit))
    }),
    ("read: an underscore first", |r| {
        r.name(|name| name[0] == b'_')
    }),
    ("read: a predefined name", |r| r.name(is_predefined)),
    ("read: names that differ in case", |r| {
        r.names_side_by_side(|a, b| a.eq_ignore_ascii_case(b))
    }),
    ("read: a front of the name before", |r| {
        r.names_side_by_side(|a, b| a.starts_with(b))
    }),
    ("read: more than the name before", |r| {
        r.names_side_by_side(|a, b| b.starts_with(a))
    }),
    ("read: an end of the name before", |r| {
        r.names_side_by_side(|a, b| b.ends_with(a))
    }),
    ("read: but for the last byte the name before", |r| {
        r.names_side_by_side(|a, b| a.len() == b.len() && a[..a.len() - 1] == b[..b.len() - 1])
    }),
    ("read: but for the first byte the name before", |r| {
        r.names_side_by_side(|a, b| a.len() == b.len() && a.len() > 1 && a[1..] == b[1..])
    }),
    ("read: 21, line 2", |r| r.twice(|_, second| second == 1)),
    ("read: 21, as the line before", |r| {
        r.twice(|first, second| first > 0 && second == first + 1)
    }),
    ("read: 21, as the first line", |r| {
        r.twice(|first, second| first == 0 && second > 1)
    }),
    ("read: 21, as a line between", |r| {
        r.twice(|first, second| first > 0 && second > first + 1)
    }),
    ("read: 21, line 256 as line 1", |r| {
        r.twice(|first, second| first == 0 && second == 255)
    }),
    ("read: 21, line 256 as line 255", |r| {
        r.twice(|first, second| first == 254 && second == 255)
    }),
    ("read: 21, the same line", |r| {
        r.twice(|first, second| r.lines[first] == r.lines[second])
    }),
    ("read: 21, another reading", |r| {
        r.twice(|first, second| r.lines[first] != r.lines[second])
    }),
    ("read: 21, a name above 64 bytes", |r| {
        r.twice(|first, _| parts(r.lines[first]).0.len() > 64)
    }),
    ("read: 21, a last line without newline", |r| {
        !r.ends_in_newline() && r.twice(|_, second| second + 1 == r.lines.len())
    }),
    ("read: 21, then a malformed line", |r| {
        r.twice(|_, second| r.lines[second + 1..].contains(&&b"?"[..]))
    }),
    ("read: 21, then line 257", |r| {
        r.twice(|_, _| r.lines.len() > 256)
    }),
    ("read: 22, a good line", |r| {
        r.too_many(|line| is_name(parts(line).0) && parts(line).1 == b"1")
    }),
    ("read: 22, an empty line", |r| r.too_many(<[u8]>::is_empty)),
    ("read: 22, a malformed line", |r| {
        r.too_many(|line| !line.is_empty() && parts(line).1.is_empty())
    }),
    ("read: 22, a name given twice", |r| {
        r.refused(Fault::TooMany)
            .is_some_and(|at| r.lines[..at].contains(&r.lines[at]))
    }),
    ("read: 22, a last line without newline", |r| {
        !r.ends_in_newline()
            && r.refused(Fault::TooMany)
                .is_some_and(|at| at + 1 == r.lines.len())
    }),
    ("read: 22, then more lines", |r| {
        r.refused(Fault::TooMany)
            .is_some_and(|at| at + 1 < r.lines.len())
    }),
];
