//! The 17 ways in which a run ends, with their numbers.

use core::fmt;

/// How a run ended. Done and exit give text; all others are refusals.
///
/// The list is whole, so that a `match` over it forgets none.
///
/// ```
/// use quenhovach::{Answer, Buffer};
///
/// let answer = Answer::Room(Buffer::Pending);
/// assert_eq!((answer.number(), answer.detail(), answer.name()), (4, 1, "room"));
/// assert!(answer.is_refusal());
/// assert_eq!(answer.to_string(), "no room for pending text");
/// ```
#[derive(Clone, Copy, Debug, PartialEq, Eq, Hash)]
pub enum Answer {
    /// 0: the text is used up.
    Done,
    /// 1: `m4exit` ended the run, with this code.
    Exit(u8),
    /// 2: the text or a buffer is longer than 65,536 bytes.
    Lend,
    /// 3: a step was due and the budget used up.
    Spent,
    /// 4: after the step this buffer would have held more than its length.
    Room(Buffer),
    /// 5: the text ends in a quote, a comment or a call.
    Unclosed(Opened),
    /// 6: `define`, `pushdef` or `copydef` of what is not a name.
    Name,
    /// 7: not a number, or not one that the macro takes.
    Number,
    /// 8: `eval` can't read its expression.
    Expression,
    /// 9: a zero divisor, or a shift count outside 0 to 31.
    Divisor,
    /// 10: a bad quote or comment mark.
    Mark,
    /// 11: `defn` of a name whose meaning is a predefined macro's: its own name, or a copy.
    NoText,
    /// 12: a call closed and its name had no definition.
    Gone,
    /// 13: a 65th open call, or a 257th argument over all open calls.
    Deep,
    /// 14: the set is bad, or longer than 1,048,576 bytes.
    BadSet,
    /// 15: `include` of a name that no item of the set has.
    NoItem,
    /// 16: `copydef` of a name that has no definition.
    NoDefinition,
}

/// A lent buffer, by its number.
#[derive(Clone, Copy, Debug, PartialEq, Eq, Hash)]
pub enum Buffer {
    /// 1: text pushed back and not yet read.
    Pending = 1,
    /// 2: names and arguments of all open calls.
    Calls = 2,
    /// 3: names and texts of the definitions.
    Definitions = 3,
    /// 4: the text in streams 1 to 9.
    Streams = 4,
    /// 5: wrap text waiting for the end.
    Wrap = 5,
    /// 6: error text.
    Errors = 6,
    /// 7: output.
    Output = 7,
}

/// What was left open, by its number.
#[derive(Clone, Copy, Debug, PartialEq, Eq, Hash)]
pub enum Opened {
    /// 1: a quote.
    Quote = 1,
    /// 2: a comment whose end mark is not a newline. Where it is one, the end of the text closes the comment too.
    Comment = 2,
    /// 3: a call.
    Call = 3,
}

impl Answer {
    /// The answer's number, 0 to 16.
    pub fn number(self) -> u32 {
        match self {
            Answer::Done => 0,
            Answer::Exit(_) => 1,
            Answer::Lend => 2,
            Answer::Spent => 3,
            Answer::Room(_) => 4,
            Answer::Unclosed(_) => 5,
            Answer::Name => 6,
            Answer::Number => 7,
            Answer::Expression => 8,
            Answer::Divisor => 9,
            Answer::Mark => 10,
            Answer::NoText => 11,
            Answer::Gone => 12,
            Answer::Deep => 13,
            Answer::BadSet => 14,
            Answer::NoItem => 15,
            Answer::NoDefinition => 16,
        }
    }

    /// The answer's detail: the exit code, the number of the buffer or of what is unclosed, else 0.
    pub fn detail(self) -> u32 {
        match self {
            Answer::Exit(code) => u32::from(code),
            Answer::Room(buffer) => buffer.number(),
            Answer::Unclosed(opened) => opened.number(),
            _ => 0,
        }
    }

    /// The answer with this number and detail, if there is one.
    ///
    /// ```
    /// use quenhovach::{Answer, Opened};
    ///
    /// assert_eq!(Answer::from_numbers(5, 3), Some(Answer::Unclosed(Opened::Call)));
    /// assert_eq!(Answer::from_numbers(5, 4), None);
    /// ```
    pub fn from_numbers(number: u32, detail: u32) -> Option<Answer> {
        Some(match (number, detail) {
            (0, 0) => Answer::Done,
            (1, code) => Answer::Exit(u8::try_from(code).ok()?),
            (2, 0) => Answer::Lend,
            (3, 0) => Answer::Spent,
            (4, buffer) => Answer::Room(Buffer::from_number(buffer)?),
            (5, opened) => Answer::Unclosed(Opened::from_number(opened)?),
            (6, 0) => Answer::Name,
            (7, 0) => Answer::Number,
            (8, 0) => Answer::Expression,
            (9, 0) => Answer::Divisor,
            (10, 0) => Answer::Mark,
            (11, 0) => Answer::NoText,
            (12, 0) => Answer::Gone,
            (13, 0) => Answer::Deep,
            (14, 0) => Answer::BadSet,
            (15, 0) => Answer::NoItem,
            (16, 0) => Answer::NoDefinition,
            _ => return None,
        })
    }

    /// The answer's short name in the rules.
    pub fn name(self) -> &'static str {
        match self {
            Answer::Done => "done",
            Answer::Exit(_) => "exit",
            Answer::Lend => "lend",
            Answer::Spent => "spent",
            Answer::Room(_) => "room",
            Answer::Unclosed(_) => "unclosed",
            Answer::Name => "name",
            Answer::Number => "number",
            Answer::Expression => "expression",
            Answer::Divisor => "divisor",
            Answer::Mark => "mark",
            Answer::NoText => "no text",
            Answer::Gone => "gone",
            Answer::Deep => "deep",
            Answer::BadSet => "bad set",
            Answer::NoItem => "no item",
            Answer::NoDefinition => "no definition",
        }
    }

    /// Whether there is no text: every answer but done and exit.
    pub fn is_refusal(self) -> bool {
        !matches!(self, Answer::Done | Answer::Exit(_))
    }
}

impl Buffer {
    /// All seven, in the order of their numbers.
    pub const ALL: [Buffer; 7] = [
        Buffer::Pending,
        Buffer::Calls,
        Buffer::Definitions,
        Buffer::Streams,
        Buffer::Wrap,
        Buffer::Errors,
        Buffer::Output,
    ];

    /// The buffer's number, 1 to 7.
    pub fn number(self) -> u32 {
        self as u32
    }

    /// The buffer with this number, if there is one.
    pub fn from_number(number: u32) -> Option<Buffer> {
        Buffer::ALL.into_iter().find(|b| b.number() == number)
    }
}

impl Opened {
    /// All three, in the order of their numbers.
    pub const ALL: [Opened; 3] = [Opened::Quote, Opened::Comment, Opened::Call];

    /// Its number, 1 to 3.
    pub fn number(self) -> u32 {
        self as u32
    }

    /// The one with this number, if there is one.
    pub fn from_number(number: u32) -> Option<Opened> {
        Opened::ALL.into_iter().find(|o| o.number() == number)
    }
}

impl fmt::Display for Answer {
    fn fmt(&self, f: &mut fmt::Formatter<'_>) -> fmt::Result {
        match self {
            Answer::Done => f.write_str("done"),
            Answer::Exit(code) => write!(f, "exit with {code}"),
            Answer::Lend => f.write_str("the text or a buffer is longer than 65,536 bytes"),
            Answer::Spent => f.write_str("the budget of steps is spent"),
            Answer::Room(buffer) => write!(f, "no room for {buffer}"),
            Answer::Unclosed(opened) => write!(f, "{opened} is not closed"),
            Answer::Name => f.write_str("not a name to define"),
            Answer::Number => f.write_str("not a number that the macro takes"),
            Answer::Expression => f.write_str("eval can't read its expression"),
            Answer::Divisor => f.write_str("a zero divisor, or a shift count outside 0 to 31"),
            Answer::Mark => f.write_str("a bad quote or comment mark"),
            Answer::NoText => f.write_str("defn of a predefined macro, or of a copy of one"),
            Answer::Gone => f.write_str("a call closes and its name has no definition"),
            Answer::Deep => f.write_str("too many open calls or arguments"),
            Answer::BadSet => f.write_str("the set is bad, or longer than 1,048,576 bytes"),
            Answer::NoItem => f.write_str("include of a name that is not in the set"),
            Answer::NoDefinition => f.write_str("copydef of a name that has no definition"),
        }
    }
}

impl fmt::Display for Buffer {
    fn fmt(&self, f: &mut fmt::Formatter<'_>) -> fmt::Result {
        f.write_str(match self {
            Buffer::Pending => "pending text",
            Buffer::Calls => "open calls",
            Buffer::Definitions => "definitions",
            Buffer::Streams => "streams",
            Buffer::Wrap => "wrap text",
            Buffer::Errors => "error text",
            Buffer::Output => "output",
        })
    }
}

impl fmt::Display for Opened {
    fn fmt(&self, f: &mut fmt::Formatter<'_>) -> fmt::Result {
        f.write_str(match self {
            Opened::Quote => "a quote",
            Opened::Comment => "a comment",
            Opened::Call => "a call",
        })
    }
}

#[cfg(test)]
mod tests {
    use super::*;

    /// Number and largest detail of each answer, as the table of answers has them.
    const TABLE: [(u32, core::ops::RangeInclusive<u32>); 17] = [
        (0, 0..=0),
        (1, 0..=255),
        (2, 0..=0),
        (3, 0..=0),
        (4, 1..=7),
        (5, 1..=3),
        (6, 0..=0),
        (7, 0..=0),
        (8, 0..=0),
        (9, 0..=0),
        (10, 0..=0),
        (11, 0..=0),
        (12, 0..=0),
        (13, 0..=0),
        (14, 0..=0),
        (15, 0..=0),
        (16, 0..=0),
    ];

    #[test]
    fn exactly_the_answers_of_the_table_exist() {
        for number in 0..20 {
            for detail in (0..300).chain([u32::MAX]) {
                let listed = TABLE
                    .iter()
                    .any(|(n, d)| *n == number && d.contains(&detail));
                let answer = Answer::from_numbers(number, detail);
                assert_eq!(answer.is_some(), listed, "{number} {detail}");
                if let Some(answer) = answer {
                    assert_eq!((answer.number(), answer.detail()), (number, detail));
                    assert_eq!(answer.is_refusal(), number > 1);
                }
            }
        }
        assert_eq!(Answer::from_numbers(u32::MAX, 0), None);
    }

    #[test]
    fn names_are_those_of_the_table() {
        let names = [
            "done",
            "exit",
            "lend",
            "spent",
            "room",
            "unclosed",
            "name",
            "number",
            "expression",
            "divisor",
            "mark",
            "no text",
            "gone",
            "deep",
            "bad set",
            "no item",
            "no definition",
        ];
        assert_eq!(names.len(), TABLE.len());
        for (number, name) in (0..).zip(names) {
            let detail = *TABLE[number as usize].1.start();
            assert_eq!(
                Answer::from_numbers(number, detail).map(Answer::name),
                Some(name)
            );
        }
    }
}
