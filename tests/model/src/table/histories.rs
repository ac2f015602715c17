//! Lines of a table of histories: label, the word `history`, text, set, seven lengths, budget, number,
//! detail, output, the numbers of its bytes, the route of each number from 0 on, and why, parted by
//! tabs. Text, set and output are hexadecimal. Numbers are parted by commas; so are routes, whose
//! streams are joined by `>`. `-` stands for none.

use super::{hex, read_lengths, read_number, unhex};
use crate::answer::Setting;
use crate::history::Numbers;
use crate::Report;
use std::str::FromStr;

/// The line above the cases.
pub const HEADER: &str = "# label\thistory\ttext (hex)\tset (hex)\tlengths 1 to 7\tbudget\t\
    number\tdetail\toutput (hex)\tnumbers\troutes\twhy";

/// The second column of every line.
const KIND: &str = "history";
/// What stands for a list of nothing.
const NONE: &str = "-";

/// One run and its history.
#[derive(Clone, Debug, PartialEq, Eq)]
pub struct Row {
    pub label: String,
    pub text: Vec<u8>,
    pub set: Vec<u8>,
    pub setting: Setting,
    pub expected: Outcome,
    pub why: String,
}

/// What comes of a run that ends in 0 or 1.
#[derive(Clone, Debug, PartialEq, Eq)]
pub struct Outcome {
    pub number: u32,
    pub detail: u32,
    pub output: Vec<u8>,
    /// The number of each byte of the output.
    pub numbers: Vec<usize>,
    /// The streams in which each number stood, by the numbers.
    pub routes: Vec<Vec<i32>>,
}

impl Outcome {
    pub fn of(report: &Report, numbers: &Numbers) -> Outcome {
        Outcome {
            number: report.number,
            detail: report.detail,
            output: report.output.clone(),
            numbers: numbers.output().to_vec(),
            routes: numbers.routes(),
        }
    }

    /// The last columns of a line but for why.
    pub fn shown(&self) -> String {
        let routes: Vec<String> = self.routes.iter().map(|route| joined(route, ">")).collect();
        [
            self.number.to_string(),
            self.detail.to_string(),
            hex(&self.output),
            joined(&self.numbers, ","),
            joined(&routes, ","),
        ]
        .join("\t")
    }
}

/// Writes a line, without newline.
pub fn write(row: &Row) -> String {
    [
        row.label.clone(),
        KIND.to_string(),
        hex(&row.text),
        hex(&row.set),
        joined(&row.setting.lengths, ","),
        row.setting.budget.to_string(),
        row.expected.shown(),
        row.why.clone(),
    ]
    .join("\t")
}

fn joined<T: ToString>(list: &[T], by: &str) -> String {
    if list.is_empty() {
        return NONE.to_string();
    }
    let list: Vec<String> = list.iter().map(T::to_string).collect();
    list.join(by)
}

/// Reads a line.
pub fn read(line: &str) -> Result<Row, String> {
    let fields: Vec<&str> = line.split('\t').collect();
    let [label, KIND, text, set, lengths, budget, number, detail, output, numbers, routes, why] =
        fields[..]
    else {
        return Err(format!("no history of 12 fields: {} fields", fields.len()));
    };
    Ok(Row {
        label: label.to_string(),
        text: unhex(text)?,
        set: unhex(set)?,
        setting: Setting {
            lengths: read_lengths(lengths)?,
            budget: read_number(budget)?,
        },
        expected: Outcome {
            number: read_number(number)?,
            detail: read_number(detail)?,
            output: unhex(output)?,
            numbers: read_list(numbers, ',', element)?,
            routes: read_list(routes, ',', |route| read_list(route, '>', element))?,
        },
        why: why.to_string(),
    })
}

fn read_list<T>(
    field: &str,
    by: char,
    read: impl Fn(&str) -> Result<T, String>,
) -> Result<Vec<T>, String> {
    match field {
        NONE => Ok(Vec::new()),
        _ => field.split(by).map(read).collect(),
    }
}

fn element<T: FromStr>(field: &str) -> Result<T, String> {
    field.parse().map_err(|_| format!("not a number: {field}"))
}

#[cfg(test)]
mod tests {
    use super::*;

    const LINE: &str =
        "8.00\thistory\t6162\t00\t1,2,3,4,5,6,7\t8\t1\t255\t6200\t1,0\t2>1>0,0,3>-1\tsome words";

    #[test]
    fn a_line_there_and_back() {
        let row = read(LINE).unwrap();
        assert_eq!((&row.label[..], &row.why[..]), ("8.00", "some words"));
        assert_eq!((&row.text[..], &row.set[..]), (&b"ab"[..], &b"\0"[..]));
        assert_eq!(row.setting.lengths, [1, 2, 3, 4, 5, 6, 7]);
        assert_eq!(row.setting.budget, 8);
        let expected = Outcome {
            number: 1,
            detail: 255,
            output: b"b\0".to_vec(),
            numbers: vec![1, 0],
            routes: vec![vec![2, 1, 0], vec![0], vec![3, -1]],
        };
        assert_eq!(row.expected, expected);
        assert_eq!(write(&row), LINE);
        let none = LINE.replace("6200\t1,0\t2>1>0,0,3>-1", "-\t-\t-");
        let row = read(&none).unwrap();
        assert_eq!(
            (row.expected.numbers, row.expected.routes),
            (vec![], vec![])
        );
        assert_eq!(write(&read(&none).unwrap()), none);
    }

    #[test]
    fn what_is_no_line() {
        for (part, other) in [
            ("\thistory", "\tsheet"),
            ("\thistory", ""),
            ("\t8\t", "\t\t"),
            ("1,0", "1,,0"),
            ("1,0", "1,-1"),
            ("1,0", ""),
            ("2>1>0", "2>>0"),
            ("2>1>0", "2>1>"),
            ("3>-1", "3>x"),
            ("6200", "62 00"),
            ("\tsome words", ""),
        ] {
            assert!(
                read(&LINE.replacen(part, other, 1)).is_err(),
                "{part} {other}"
            );
        }
    }
}
