//! Lines of a table of cases of the index of lines: label, function, text or its length, place or
//! line, words and totals lent, number, line or start, words and totals afterwards, and what the case
//! shows, parted by tabs. Texts and words are hexadecimal, all else decimal; `V*N` stands for V
//! repeated N times, and `-` for none.

use super::{hex, unhex};
use crate::lines::case::{Asked, Case, Outcome};
use crate::lines::Answer;
use std::str::FromStr;

/// One case with its label and what it shows.
#[derive(Clone, Debug, PartialEq, Eq)]
pub struct Row {
    pub label: String,
    pub case: Case,
    pub shows: String,
}

/// Writes a line, without newline.
pub fn write(row: &Row) -> String {
    [
        row.label.clone(),
        asked(&row.case),
        outcome(&row.case.expected),
        row.shows.clone(),
    ]
    .join("\t")
}

/// The part of a line that says what is asked and lent.
pub fn asked(case: &Case) -> String {
    let [function, of, what] = match &case.asked {
        Asked::Build(text) => ["build".to_string(), write_text(text), "-".to_string()],
        Asked::Line { length, place } => {
            ["line".to_string(), length.to_string(), place.to_string()]
        }
        Asked::Start { length, line } => {
            ["start".to_string(), length.to_string(), line.to_string()]
        }
    };
    let index = index(&case.words, &case.totals);
    [function, of, what, index].join("\t")
}

/// The part of a line that says what comes of it.
pub fn outcome(outcome: &Outcome) -> String {
    let Outcome {
        answer,
        words,
        totals,
    } = outcome;
    let (number, value) = (answer.number(), answer.value());
    format!("{number}\t{value}\t{}", index(words, totals))
}

fn index(words: &[u64], totals: &[u32]) -> String {
    let words = write_list(words, |word| format!("{word:x}"));
    let totals = write_list(totals, u32::to_string);
    format!("{words}\t{totals}")
}

/// A long text of one byte is written as repeated.
fn write_text(text: &[u8]) -> String {
    match text {
        [first, rest @ ..] if rest.len() >= 64 && rest.iter().all(|byte| byte == first) => {
            format!("{first:02x}*{}", text.len())
        }
        _ => hex(text),
    }
}

fn write_list<T: PartialEq>(list: &[T], shown: impl Fn(&T) -> String) -> String {
    if list.is_empty() {
        return "-".to_string();
    }
    let run = |run: &[T]| match run.len() {
        1 => shown(&run[0]),
        length => format!("{}*{length}", shown(&run[0])),
    };
    let runs: Vec<String> = list.chunk_by(T::eq).map(run).collect();
    runs.join(",")
}

/// Reads a line.
pub fn read(line: &str) -> Result<Row, String> {
    let fields: Vec<&str> = line.split('\t').collect();
    let [label, function, of, what, words, totals, number, value, words_after, totals_after, shows] =
        fields[..]
    else {
        return Err(format!("{} fields instead of 11", fields.len()));
    };
    let expected = Outcome {
        answer: read_answer(read_number(number)?, read_number(value)?)?,
        words: read_list(words_after, read_word)?,
        totals: read_list(totals_after, read_number)?,
    };
    let case = Case {
        asked: read_asked(function, of, what)?,
        words: read_list(words, read_word)?,
        totals: read_list(totals, read_number)?,
        expected,
    };
    Ok(Row {
        label: label.to_string(),
        case,
        shows: shows.to_string(),
    })
}

fn read_asked(function: &str, of: &str, what: &str) -> Result<Asked, String> {
    match function {
        "build" if what == "-" => Ok(Asked::Build(read_list(of, unhex)?.concat())),
        "line" => Ok(Asked::Line {
            length: read_number(of)?,
            place: read_number(what)?,
        }),
        "start" => Ok(Asked::Start {
            length: read_number(of)?,
            line: read_number(what)?,
        }),
        _ => Err(format!("no question: {function} {what}")),
    }
}

/// A refusal has no line and no start.
fn read_answer(number: u32, value: u64) -> Result<Answer, String> {
    let refusals = [
        Answer::TextTooLong,
        Answer::PlaceBeyondEnd,
        Answer::NoSuchLine,
        Answer::TooLittleRoom,
    ];
    let mut answers = refusals.into_iter().chain([Answer::Good(value)]);
    answers
        .find(|answer| (answer.number(), answer.value()) == (number, value))
        .ok_or_else(|| format!("no answer: {number} {value}"))
}

fn read_number<T: FromStr>(field: &str) -> Result<T, String> {
    field.parse().map_err(|_| format!("not a number: {field}"))
}

fn read_word(field: &str) -> Result<u64, String> {
    u64::from_str_radix(field, 16).map_err(|_| format!("not a word: {field}"))
}

fn read_list<T: Clone>(
    field: &str,
    read: impl Fn(&str) -> Result<T, String>,
) -> Result<Vec<T>, String> {
    let mut list = Vec::new();
    if field == "-" {
        return Ok(list);
    }
    for run in field.split(',') {
        let (value, times) = match run.split_once('*') {
            Some((value, times)) => (value, read_number(times)?),
            None => (run, 1),
        };
        list.extend(std::iter::repeat_n(read(value)?, times));
    }
    Ok(list)
}

#[cfg(test)]
mod tests {
    use super::*;

    #[test]
    fn lines_there_and_back() {
        let lines = [
            "6.02\tbuild\t610a620a\t-\t7*2\t9*3\t0\t0\ta,7\t0,9*2\tbits",
            "x\tbuild\t-\t-\t-\t7\t33\t0\t-\t7\t",
            "x\tbuild\t61*65\t-\tff\t-\t33\t0\tff\t-\tshort",
            "x\tline\t64\t63\tffffffffffffffff,0\t0,64\t0\t64\tffffffffffffffff,0\t0,64\t-",
            "x\tstart\t0\t18446744073709551615\t1\t4294967295\t32\t0\t1\t4294967295\t",
        ];
        for line in lines {
            assert_eq!(write(&read(line).unwrap()), line);
        }
    }

    #[test]
    fn what_a_line_says() {
        let row = read("x\tbuild\t61,0a62*2\t-\t7*2\t9\t0\t0\t12,7\t0\ty").unwrap();
        let case = row.case;
        assert_eq!(case.asked, Asked::Build(b"a\nb\nb".to_vec()));
        assert_eq!((case.words, case.totals), (vec![7, 7], vec![9]));
        assert_eq!(case.expected.answer, Answer::Good(0));
        assert_eq!(case.expected.words, [0x12, 7]);
        assert_eq!(case.expected.totals, [0]);
        let row = read("x\tstart\t4\t9\ta\t0\t32\t0\ta\t0\ty").unwrap();
        let (length, line) = (4, 9);
        assert_eq!(row.case.asked, Asked::Start { length, line });
        assert_eq!(row.case.expected.answer, Answer::NoSuchLine);
    }

    #[test]
    fn bad_lines() {
        let good = "x\tline\t4\t1\ta\t0\t31\t0\ta\t0\ty";
        assert!(read(good).is_ok());
        let bad = [
            ("\ty", ""),
            ("line", "build"),
            ("line", "lines"),
            ("4\t1", "4\t-"),
            ("4\t1", "-4\t1"),
            ("31\t0", "31\t1"),
            ("31\t0", "34\t0"),
            ("\ta\t0\t31", "\tg\t0\t31"),
            ("\ta\t0\t31", "\ta\t4294967296\t31"),
            ("\ta\t0\t31", "\ta,\t0\t31"),
            ("\ta\t0\t31", "\ta*\t0\t31"),
        ];
        for (from, to) in bad {
            let line = good.replacen(from, to, 1);
            assert_ne!(line, good);
            assert!(read(&line).is_err(), "{line}");
        }
    }
}
