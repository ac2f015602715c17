//! Ways of a question by name.

use crate::bytes::is_name;
use crate::sheet::{read, Line, Reading};

pub struct Question<'a> {
    lines: &'a [Line],
    text: &'a [u8],
    name: &'a [u8],
    reading: Option<Reading>,
    /// The first line that has the name.
    found: Option<usize>,
}

impl<'a> Question<'a> {
    pub fn of(
        lines: &'a [Line],
        text: &'a [u8],
        name: &'a [u8],
        reading: Option<Reading>,
    ) -> Question<'a> {
        let found = lines
            .iter()
            .position(|line| bytes(text, line.place, line.length) == Some(name));
        Question {
            lines,
            text,
            name,
            reading,
            found,
        }
    }

    fn absent(&self) -> bool {
        self.reading.is_none()
    }

    /// The name of a line, if it lies in the text.
    fn named(&self, line: &Line) -> Option<&[u8]> {
        bytes(self.text, line.place, line.length)
    }

    /// Absent, and some line has such a name.
    fn no(&self, such: impl Fn(&[u8]) -> bool) -> bool {
        let mut names = self.lines.iter().filter_map(|line| self.named(line));
        self.absent() && names.any(such)
    }

    /// Found behind a line that has such a name, or none that lies in the text.
    fn passed(&self, such: impl Fn(Option<&[u8]>) -> bool) -> bool {
        let before = &self.lines[..self.found.unwrap_or(0)];
        before.iter().any(|line| such(self.named(line)))
    }

    /// Found at such a place of the text, with such a length.
    fn found_at(&self, such: impl Fn(usize, usize) -> bool) -> bool {
        self.found.is_some_and(|at| {
            let line = &self.lines[at];
            such(line.place as usize, line.length as usize)
        })
    }

    /// A line before the one that is found, or any if there is none.
    fn passed_line(&self, such: impl Fn(u64, u64) -> bool) -> bool {
        let before = &self.lines[..self.found.unwrap_or(self.lines.len())];
        before.iter().any(|line| such(line.place, line.length))
    }

    /// A line is passed whose name would be found with its place and length changed so.
    fn passed_but_for(&self, changed: impl Fn(u64, u64) -> (u64, u64)) -> bool {
        self.passed_line(|place, length| {
            let (place, length) = changed(place, length);
            bytes(self.text, place, length) == Some(self.name)
        })
    }

    /// Where the text ends.
    fn end(&self) -> u64 {
        self.text.len() as u64
    }

    fn made(&self) -> bool {
        !self.lines.is_empty() && read(self.text).as_deref() == Ok(self.lines)
    }
}

fn bytes(text: &[u8], place: u64, length: u64) -> Option<&[u8]> {
    let place = usize::try_from(place).ok()?;
    let end = place.checked_add(usize::try_from(length).ok()?)?;
    text.get(place..end)
}

type Way = (&'static str, fn(&Question) -> bool);

pub const WAYS: &[Way] = &[
    ("question: no line", |q| q.lines.is_empty()),
    ("question: no text", |q| {
        q.text.is_empty() && !q.lines.is_empty()
    }),
    ("question: of a sheet and its text", |q| {
        q.made() && q.found.is_some()
    }),
    ("question: of a sheet and its text, absent", |q| {
        q.made() && q.absent()
    }),
    ("question: of 256 lines and their text", |q| {
        q.made() && q.lines.len() == 256
    }),
    ("question: more than 256 lines", |q| q.lines.len() > 256),
    ("found: the only line", |q| {
        q.found == Some(0) && q.lines.len() == 1
    }),
    ("found: the first line", |q| {
        q.found == Some(0) && q.lines.len() > 1
    }),
    ("found: the last line", |q| {
        q.found.is_some_and(|at| at > 0 && at + 1 == q.lines.len())
    }),
    ("found: a line between", |q| {
        q.found.is_some_and(|at| at > 0 && at + 1 < q.lines.len())
    }),
    ("found: another line has the name too", |q| {
        q.found.is_some_and(|at| {
            let mut later = q.lines[at + 1..].iter();
            later.any(|line| q.named(line) == Some(q.name) && line.reading != q.lines[at].reading)
        })
    }),
    ("found: behind a line outside the text", |q| {
        q.passed(|name| name.is_none())
    }),
    ("found: behind a front of it", |q| {
        q.passed(|name| name.is_some_and(|name| !name.is_empty() && q.name.starts_with(name)))
    }),
    ("found: behind a longer one", |q| {
        !q.name.is_empty() && q.passed(|name| name.is_some_and(|name| name.starts_with(q.name)))
    }),
    ("found: a number", |q| {
        matches!(q.reading, Some(Reading::Number(_)))
    }),
    ("found: a decimal", |q| {
        matches!(q.reading, Some(Reading::Decimal(_)))
    }),
    ("found: minus zero", |q| {
        q.reading == Some(Reading::Decimal(1 << 63))
    }),
    ("found: a word in the text", |q| {
        matches!(q.reading, Some(Reading::Word { place, length })
            if bytes(q.text, place, length).is_some_and(is_name))
    }),
    ("found: a word outside the text", |q| {
        matches!(q.reading, Some(Reading::Word { place, length })
            if bytes(q.text, place, length).is_none())
    }),
    ("found: the empty name at the front", |q| {
        q.text.len() > 1 && q.found_at(|place, length| place == 0 && length == 0)
    }),
    ("found: the empty name within", |q| {
        q.found_at(|place, length| place > 0 && place < q.text.len() && length == 0)
    }),
    ("found: the empty name at the end", |q| {
        q.text.len() > 1 && q.found_at(|place, length| place == q.text.len() && length == 0)
    }),
    ("found: the empty name, no text", |q| {
        q.text.is_empty() && q.found.is_some()
    }),
    ("found: all of the text", |q| {
        q.text.len() > 1 && q.found_at(|_, length| length == q.text.len())
    }),
    ("found: at the end of the text", |q| {
        q.found_at(|place, length| place > 0 && length > 0 && place + length == q.text.len())
    }),
    ("found: what is no name", |q| {
        q.found.is_some() && !q.name.is_empty() && !is_name(q.name)
    }),
    ("absent: a front of a name", |q| {
        !q.name.is_empty() && q.no(|name| name.len() > q.name.len() && name.starts_with(q.name))
    }),
    ("absent: more than a name", |q| {
        q.no(|name| !name.is_empty() && q.name.len() > name.len() && q.name.starts_with(name))
    }),
    ("absent: an end of a name", |q| {
        !q.name.is_empty() && q.no(|name| name.len() > q.name.len() && name.ends_with(q.name))
    }),
    ("absent: another case", |q| {
        q.no(|name| !name.is_empty() && name.eq_ignore_ascii_case(q.name))
    }),
    ("absent: another first byte", |q| {
        q.no(|name| name.len() > 1 && name.len() == q.name.len() && name[1..] == q.name[1..])
    }),
    ("absent: another last byte", |q| {
        let front = |name: &[u8]| name[..name.len() - 1].to_vec();
        q.no(|name| name.len() > 1 && name.len() == q.name.len() && front(name) == front(q.name))
    }),
    ("absent: the empty name", |q| {
        q.name.is_empty() && q.no(|name| !name.is_empty())
    }),
    ("absent: it stands elsewhere in the text", |q| {
        let mut parts = q.text.windows(q.name.len().max(1));
        q.absent() && !q.lines.is_empty() && parts.any(|bytes| bytes == q.name)
    }),
    ("absent: longer than the text", |q| {
        q.absent() && !q.lines.is_empty() && q.name.len() > q.text.len()
    }),
    ("outside: at the end, one byte", |q| {
        q.passed_line(|place, length| place == q.end() && length == 1)
    }),
    ("outside: one behind the end, the empty name", |q| {
        q.name.is_empty() && q.passed_line(|place, length| place == q.end() + 1 && length == 0)
    }),
    ("outside: one byte too long, the rest is the name", |q| {
        q.passed_line(|place, length| {
            place < q.end() && length == q.end() - place + 1 && q.text[place as usize..] == *q.name
        })
    }),
    ("outside: the place but for 32 bits", |q| {
        q.passed_but_for(|place, length| (place & 0xffff_ffff, length))
    }),
    ("outside: the length but for 32 bits", |q| {
        q.passed_but_for(|place, length| (place, length & 0xffff_ffff))
    }),
    ("outside: the place but for its highest bit", |q| {
        q.passed_but_for(|place, length| (place & !(1 << 63), length))
    }),
    ("outside: the sum but for 32 bits", |q| {
        q.passed_line(|place, length| {
            let sum = (place as u32).wrapping_add(length as u32);
            place >> 32 == 0 && place > q.end() && u64::from(sum) <= q.end()
        })
    }),
    ("outside: the sum but for 64 bits", |q| {
        q.passed_line(|place, length| place > q.end() && place.wrapping_add(length) <= q.end())
    }),
    ("outside: place in the text, the sum but for 64 bits", |q| {
        q.passed_line(|place, length| {
            place <= q.end() && length > q.end() && place.wrapping_add(length) < place
        })
    }),
    ("outside: the highest place", |q| {
        q.passed_line(|place, _| place == u64::MAX)
    }),
    ("outside: the greatest length", |q| {
        q.passed_line(|_, length| length == u64::MAX)
    }),
];
