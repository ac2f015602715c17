//! Ways of a malformed line: where it stands, and what is wrong with it.

use super::read::{parts, Read};
use crate::bytes::is_name;
use crate::sheet::Fault;

impl Read<'_> {
    /// The malformed line that is refused, with its index.
    fn malformed(&self) -> Option<(usize, &[u8])> {
        let at = self.refused(Fault::Malformed)?;
        Some((at, self.lines[at]))
    }

    fn bad_line(&self, such: impl Fn(&[u8]) -> bool) -> bool {
        self.malformed().is_some_and(|(_, line)| such(line))
    }

    /// It has a `=`, and this before it is no name.
    fn bad_name(&self, such: fn(&[u8]) -> bool) -> bool {
        self.bad_line(|line| {
            let name = parts(line).0;
            name.len() < line.len() && !is_name(name) && such(name)
        })
    }

    /// It has a name and a `=`, and this behind them is no reading.
    fn bad_reading(&self, such: fn(&[u8]) -> bool) -> bool {
        self.bad_line(|line| {
            let (name, reading) = parts(line);
            name.len() < line.len() && is_name(name) && such(reading)
        })
    }

    /// Its reading has only digits, perhaps behind a minus, and a size in 128 bits.
    fn beyond(&self, such: fn(bool, u128) -> bool) -> bool {
        self.bad_line(|line| {
            let reading = parts(line).1;
            let size = reading.strip_prefix(b"-").unwrap_or(reading);
            let minus = size.len() < reading.len();
            whole(size).is_some_and(|size| such(minus, size))
        })
    }

    /// Its reading is a decimal but for the count of its digits.
    fn digits(&self, such: fn(&[u8], &[u8]) -> bool) -> bool {
        self.bad_line(|line| {
            let reading = parts(line).1;
            let size = reading.strip_prefix(b"-").unwrap_or(reading);
            let point = size.iter().position(|&byte| byte == b'.');
            point.is_some_and(|point| {
                let (before, behind) = (&size[..point], &size[point + 1..]);
                let only_digits = [before, behind].concat().iter().all(u8::is_ascii_digit);
                only_digits && such(before, behind)
            })
        })
    }
}

/// The number that digits are, if 128 bits hold it.
fn whole(digits: &[u8]) -> Option<u128> {
    let text = std::str::from_utf8(digits).ok()?;
    let digits = text.bytes().all(|byte| byte.is_ascii_digit());
    if digits {
        text.parse().ok()
    } else {
        None
    }
}

fn blank(byte: Option<&u8>) -> bool {
    byte.is_some_and(|byte| b" \t".contains(byte))
}

type Way = (&'static str, fn(&Read) -> bool);

pub const WAYS: &[Way] = &[
    ("20: line 1", |r| r.refused(Fault::Malformed) == Some(0)),
    ("20: a later line", |r| {
        r.refused(Fault::Malformed).is_some_and(|at| at > 0)
    }),
    ("20: line 256", |r| r.refused(Fault::Malformed) == Some(255)),
    ("20: then line 257", |r| {
        r.malformed().is_some() && r.lines.len() > 256
    }),
    ("20: a last line without newline", |r| {
        !r.ends_in_newline() && r.malformed().is_some_and(|(at, _)| at + 1 == r.lines.len())
    }),
    ("20: a name given twice", |r| {
        r.malformed().is_some_and(|(at, line)| {
            let name = parts(line).0;
            name.len() < line.len() && r.lines[..at].iter().any(|line| parts(line).0 == name)
        })
    }),
    ("20: then a name given twice", |r| {
        r.malformed().is_some_and(|(at, _)| {
            let mut later = r.lines[at + 1..].iter();
            later.any(|line| r.lines[..at].contains(line))
        })
    }),
    ("20: an empty first line", |r| {
        r.malformed() == Some((0, &b""[..]))
    }),
    ("20: an empty line between", |r| {
        r.malformed()
            .is_some_and(|(at, line)| at > 0 && line.is_empty() && at + 1 < r.lines.len())
    }),
    ("20: an empty last line", |r| {
        r.malformed()
            .is_some_and(|(at, line)| at > 0 && line.is_empty() && at + 1 == r.lines.len())
    }),
    ("20: only a newline", |r| r.text == b"\n"),
    ("20: no =", |r| r.bad_line(|line| !line.contains(&b'='))),
    ("20: only a name", |r| r.bad_line(is_name)),
    ("20: a remark", |r| {
        r.bad_line(|line| line.starts_with(b"#"))
    }),
    ("20: only =", |r| r.bad_line(|line| line == b"=")),
    ("20: no name", |r| r.bad_name(<[u8]>::is_empty)),
    ("20: a digit first in the name", |r| {
        r.bad_name(|name| name.first().is_some_and(u8::is_ascii_digit))
    }),
    ("20: a blank before the name", |r| {
        r.bad_name(|name| blank(name.first()) && is_name(&name[1..]))
    }),
    ("20: a blank behind the name", |r| {
        r.bad_name(|name| blank(name.last()) && is_name(&name[..name.len() - 1]))
    }),
    ("20: a carriage return in the name", |r| {
        r.bad_name(|name| name.contains(&b'\r'))
    }),
    ("20: a point in the name", |r| {
        r.bad_name(|name| name.contains(&b'.'))
    }),
    ("20: a minus in the name", |r| {
        r.bad_name(|name| name.contains(&b'-'))
    }),
    ("20: a byte 0 in the name", |r| {
        r.bad_name(|name| name.contains(&0))
    }),
    ("20: a byte above 127 in the name", |r| {
        r.bad_name(|name| name.iter().any(|&byte| byte > 127))
    }),
    ("20: no reading", |r| r.bad_reading(<[u8]>::is_empty)),
    ("20: a blank before the reading", |r| {
        r.bad_reading(|reading| blank(reading.first()) && reading.len() > 1)
    }),
    ("20: a blank behind the reading", |r| {
        r.bad_reading(|reading| blank(reading.last()) && reading.len() > 1)
    }),
    ("20: a carriage return behind the reading", |r| {
        r.bad_reading(|reading| reading.last() == Some(&b'\r') && reading.len() > 1)
    }),
    ("20: only a carriage return", |r| {
        r.bad_reading(|reading| reading == b"\r")
    }),
    ("20: = behind the first", |r| {
        r.bad_reading(|reading| reading.first() == Some(&b'='))
    }),
    ("20: a second =", |r| {
        r.bad_reading(|reading| reading.iter().skip(1).any(|&byte| byte == b'='))
    }),
    ("20: a remark behind the reading", |r| {
        r.bad_reading(|reading| reading.iter().skip(1).any(|&byte| byte == b'#'))
    }),
    ("20: a plus", |r| {
        r.bad_reading(|reading| reading.strip_prefix(b"+").and_then(whole).is_some())
    }),
    ("20: a plus and a decimal", |r| {
        r.bad_reading(|reading| reading.starts_with(b"+") && reading.contains(&b'.'))
    }),
    ("20: only a minus", |r| {
        r.bad_reading(|reading| reading == b"-")
    }),
    ("20: two minus", |r| {
        r.bad_reading(|reading| reading.starts_with(b"--"))
    }),
    ("20: a minus and a word", |r| {
        r.bad_reading(|reading| reading.strip_prefix(b"-").is_some_and(is_name))
    }),
    ("20: one above the range", |r| {
        r.beyond(|minus, size| !minus && size == 1 << 31)
    }),
    ("20: one below the range", |r| {
        r.beyond(|minus, size| minus && size == (1 << 31) + 1)
    }),
    ("20: in the range but for 32 bits", |r| {
        r.beyond(|_, size| size >> 32 != 0 && size & 0xffff_ffff < 1 << 31)
    }),
    ("20: in the range but for 64 bits", |r| {
        r.beyond(|_, size| size >> 64 != 0 && size & u128::from(u64::MAX) < 1 << 31)
    }),
    ("20: an exponent", |r| {
        r.bad_reading(|reading| reading.eq_ignore_ascii_case(b"1e3"))
    }),
    ("20: a decimal with an exponent", |r| {
        r.bad_reading(|reading| reading == b"1.5e3")
    }),
    ("20: hexadecimal", |r| {
        r.bad_reading(|reading| reading.starts_with(b"0x"))
    }),
    ("20: a letter behind a digit", |r| {
        r.bad_reading(|reading| reading == b"12a")
    }),
    ("20: an underscore behind a digit", |r| {
        r.bad_reading(|reading| reading == b"1_")
    }),
    ("20: a comma for the point", |r| {
        r.bad_reading(|reading| reading == b"1,5")
    }),
    ("20: no digit before the point", |r| {
        r.digits(|before, behind| before.is_empty() && !behind.is_empty())
    }),
    ("20: no digit behind the point", |r| {
        r.digits(|before, behind| !before.is_empty() && behind.is_empty())
    }),
    ("20: only a point", |r| {
        r.bad_reading(|reading| reading == b".")
    }),
    ("20: minus, no digit before the point", |r| {
        r.bad_reading(|reading| reading == b"-.5")
    }),
    ("20: two points", |r| {
        r.bad_reading(|reading| reading == b"1.5.5" || reading == b"1..5")
    }),
    ("20: a minus behind the point", |r| {
        r.bad_reading(|reading| reading == b"1.-5")
    }),
    ("20: 16 digits", |r| {
        r.digits(|before, behind| before.len() + behind.len() == 16)
    }),
    ("20: minus and 16 digits", |r| {
        r.digits(|before, behind| before.len() + behind.len() == 16)
            && r.bad_reading(|reading| reading[0] == b'-')
    }),
    ("20: 15 digits before the point", |r| {
        r.digits(|before, behind| before.len() == 15 && behind.len() == 1)
    }),
    ("20: 15 digits behind the point", |r| {
        r.digits(|before, behind| before.len() == 1 && behind.len() == 15)
    }),
    ("20: 16 digits, a zero in front", |r| {
        r.digits(|before, behind| {
            before.len() + behind.len() == 16 && before.len() > 1 && before[0] == b'0'
        })
    }),
    ("20: 16 digits, a zero at the end", |r| {
        r.digits(|before, behind| {
            before.len() + behind.len() == 16 && behind.len() > 1 && behind.last() == Some(&b'0')
        })
    }),
    ("20: more than 16 digits", |r| {
        r.digits(|before, behind| before.len() + behind.len() > 16)
    }),
    ("20: a word with a point", |r| {
        r.bad_reading(|reading| reading == b"a.b")
    }),
    ("20: a word with a minus", |r| {
        r.bad_reading(|reading| reading == b"a-b")
    }),
    ("20: a word with a blank", |r| {
        r.bad_reading(|reading| reading == b"a b")
    }),
    ("20: a byte 0 in the reading", |r| {
        r.bad_reading(|reading| reading.contains(&0))
    }),
    ("20: a byte above 127 in the reading", |r| {
        r.bad_reading(|reading| reading.iter().any(|&byte| byte > 127))
    }),
];
