//! Ways of the readings of a good sheet.

use super::read::{is_predefined, parts, Read};
use crate::sheet::Reading;

impl Read<'_> {
    /// Each reading of a good sheet, with the bytes that were read.
    fn readings(&self) -> impl Iterator<Item = (Reading, &[u8])> {
        let sheet = self.judged.iter().flatten();
        let lines = sheet.zip(&self.lines);
        lines.map(|(line, bytes)| (line.reading, parts(bytes).1))
    }

    fn number(&self, such: fn(i32, &[u8]) -> bool) -> bool {
        self.readings()
            .any(|(reading, bytes)| matches!(reading, Reading::Number(n) if such(n, bytes)))
    }

    fn decimal(&self, such: fn(&Decimal) -> bool) -> bool {
        self.readings().any(|(reading, bytes)| match reading {
            Reading::Decimal(bits) => such(&Decimal::of(bits, bytes)),
            _ => false,
        })
    }

    fn word(&self, such: fn(&[u8]) -> bool) -> bool {
        self.readings()
            .any(|(reading, bytes)| matches!(reading, Reading::Word { .. } if such(bytes)))
    }
}

/// A decimal: its value, and how it was written.
struct Decimal {
    value: f64,
    minus: bool,
    before: usize,
    behind: usize,
    /// The digits as a whole number.
    whole: f64,
}

impl Decimal {
    fn of(bits: u64, bytes: &[u8]) -> Decimal {
        let minus = bytes[0] == b'-';
        let size = &bytes[usize::from(minus)..];
        let digits = size.iter().filter(|&&byte| byte != b'.');
        let whole = digits.fold(0u64, |whole, digit| 10 * whole + u64::from(digit - b'0'));
        let point = size.iter().position(|&byte| byte == b'.');
        let before = point.unwrap_or(size.len());
        Decimal {
            value: f64::from_bits(bits),
            minus,
            before,
            behind: size.len() - before - 1,
            whole: whole as f64,
        }
    }

    fn size(&self) -> f64 {
        self.value.abs()
    }

    /// A value by another way of working it out is another one.
    fn differs(&self, other: f64) -> bool {
        self.size() != other
    }

    /// The digits before the point, and those behind it times a tenth for each, joined.
    fn summed(&self) -> f64 {
        let ten = 10f64.powi(self.behind as i32);
        let before = (self.whole / ten).trunc();
        before + (self.whole - before * ten) / ten
    }

    /// Divided by ten once for each digit behind the point.
    fn divided_often(&self) -> f64 {
        (0..self.behind).fold(self.whole, |value, _| value / 10.0)
    }
}

type Way = (&'static str, fn(&Read) -> bool);

pub const WAYS: &[Way] = &[
    ("number: 0", |r| r.number(|_, bytes| bytes == b"0")),
    ("number: -0", |r| r.number(|_, bytes| bytes == b"-0")),
    ("number: negative", |r| r.number(|number, _| number < 0)),
    ("number: the largest", |r| {
        r.number(|number, _| number == i32::MAX)
    }),
    ("number: the least", |r| {
        r.number(|number, _| number == i32::MIN)
    }),
    ("number: a zero in front", |r| {
        r.number(|number, bytes| number > 0 && bytes[0] == b'0')
    }),
    ("number: minus and a zero in front", |r| {
        r.number(|number, bytes| number < 0 && bytes[1] == b'0')
    }),
    ("number: more than 15 digits", |r| {
        r.number(|_, bytes| bytes.len() > 16)
    }),
    ("number: more than 255 digits", |r| {
        r.number(|_, bytes| bytes.len() > 256)
    }),
    ("number: more than 60,000 digits", |r| {
        r.number(|_, bytes| bytes.len() > 60_000)
    }),
    ("decimal: plus zero", |r| {
        r.decimal(|d| d.value == 0.0 && !d.minus)
    }),
    ("decimal: minus zero", |r| {
        r.decimal(|d| d.value == 0.0 && d.minus)
    }),
    ("decimal: negative", |r| r.decimal(|d| d.value < 0.0)),
    ("decimal: two digits", |r| {
        r.decimal(|d| (d.before, d.behind) == (1, 1))
    }),
    ("decimal: 14 digits", |r| {
        r.decimal(|d| d.before + d.behind == 14)
    }),
    ("decimal: 15 digits", |r| {
        r.decimal(|d| d.before + d.behind == 15)
    }),
    ("decimal: minus and 15 digits", |r| {
        r.decimal(|d| d.minus && d.before + d.behind == 15)
    }),
    ("decimal: 14 digits behind the point", |r| {
        r.decimal(|d| d.behind == 14)
    }),
    ("decimal: 14 digits before the point", |r| {
        r.decimal(|d| d.before == 14)
    }),
    ("decimal: zeros in front", |r| {
        r.decimal(|d| d.before > 1 && d.whole < 10f64.powi(d.behind as i32 + 1))
    }),
    ("decimal: the least above zero", |r| {
        r.decimal(|d| d.size() == 1e-14)
    }),
    ("decimal: a whole number", |r| {
        r.decimal(|d| d.size() >= 1.0 && d.value.fract() == 0.0)
    }),
    ("decimal: beyond the range of numbers", |r| {
        r.decimal(|d| d.size() > 4_294_967_295.0)
    }),
    ("decimal: exact", |r| {
        r.decimal(|d| d.value.fract() != 0.0 && (d.value * 1_048_576.0).fract() == 0.0)
    }),
    ("decimal: not by a product", |r| {
        r.decimal(|d| d.differs(d.whole * 10f64.powi(-(d.behind as i32))))
    }),
    ("decimal: not by a sum", |r| {
        r.decimal(|d| d.differs(d.summed()))
    }),
    ("decimal: not by many divisions", |r| {
        r.decimal(|d| d.differs(d.divided_often()))
    }),
    ("decimal: not in 32 bits", |r| {
        r.decimal(|d| d.differs(f64::from(d.value.abs() as f32)))
    }),
    ("word: one byte", |r| r.word(|word| word.len() == 1)),
    ("word: a digit", |r| {
        r.word(|word| word.iter().any(u8::is_ascii_digit))
    }),
    ("word: an underscore first", |r| {
        r.word(|word| word[0] == b'_')
    }),
    ("word: a predefined name", |r| r.word(is_predefined)),
    ("word: inf or nan", |r| {
        r.word(|word| [&b"inf"[..], b"nan", b"NaN", b"Infinity"].contains(&word))
    }),
    ("word: like an exponent", |r| r.word(|word| word == b"e5")),
    ("word: above 64 bytes", |r| r.word(|word| word.len() > 64)),
    ("word: the longest", |r| r.word(|word| word.len() == 65_534)),
    ("word: to the end of the text", |r| {
        !r.ends_in_newline() && matches!(r.readings().last(), Some((Reading::Word { .. }, _)))
    }),
    ("word: before a last newline", |r| {
        r.ends_in_newline() && matches!(r.readings().last(), Some((Reading::Word { .. }, _)))
    }),
    ("word: before another line", |r| {
        matches!(r.readings().next(), Some((Reading::Word { .. }, _))) && r.lines.len() > 1
    }),
    ("word: the name of its line", |r| {
        r.judged.is_ok() && r.lines.iter().any(|line| parts(line).0 == parts(line).1)
    }),
    ("word: the name of the line before", |r| {
        r.judged.is_ok()
            && r.lines
                .windows(2)
                .any(|two| parts(two[0]).0 == parts(two[1]).1)
    }),
];
