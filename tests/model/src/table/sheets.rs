//! Lines of a table of cases of the sheet: label, function, text, lengths 1 to 7 or the lines that are
//! asked, name, number, detail, steps, place, output, error text, the lines of the sheet or the
//! reading, and what the case shows, parted by tabs. Texts and names are hexadecimal; `-` stands for an
//! empty one and for what a function has not. A run has a set of one byte 0 and budget 16777216.

mod sheet;

use super::{hex, read_lengths, unhex};
use crate::answer::{Report, Setting};
use crate::sheet::case::{Asked, Case, Outcome, Template};
use crate::sheet::{Expanded, Fault, Judged, Refused};
use crate::NO_ITEMS;
use sheet::{read_lines, read_reading, read_sheet, write_lines, write_reading, write_sheet};
use std::str::FromStr;

/// The line above the cases.
pub const HEADER: &str = "# label\tfunction\ttext (hex)\t\
    lengths 1 to 7, or the lines of the sheet that is asked\tname that is asked for (hex)\t\
    number\tdetail\tsteps\tplace\toutput (hex)\terror (hex)\tlines of the sheet, or the reading\t\
    what it shows";

/// What stands for what is not there.
const NONE: &str = "-";
const ABSENT: &str = "absent";

/// One case with its label and what it shows.
#[derive(Clone, Debug, PartialEq, Eq)]
pub struct Row {
    pub label: String,
    pub case: Case,
    pub shows: String,
}

/// Whether a line can say all that matters of a case: a table has no column for a set and a budget.
pub fn has_a_line(case: &Case) -> bool {
    match &case.asked {
        Asked::Sheet(Template { set, setting, .. }) => {
            set == NO_ITEMS && setting.budget == Setting::ample().budget
        }
        _ => true,
    }
}

/// Writes a line, without newline.
pub fn write(row: &Row) -> String {
    [
        row.label.clone(),
        asked(&row.case.asked),
        outcome(&row.case.expected),
        row.shows.clone(),
    ]
    .join("\t")
}

/// The part of a line that says what is asked and lent.
pub fn asked(asked: &Asked) -> String {
    let (function, text, lent, name) = match asked {
        Asked::Read(text) => ("read", text, NONE.to_string(), NONE.to_string()),
        Asked::Sheet(Template { text, setting, .. }) => {
            let lengths = setting.lengths.map(|length| length.to_string());
            ("sheet", text, lengths.join(","), NONE.to_string())
        }
        Asked::Question { lines, text, name } => ("question", text, write_lines(lines), hex(name)),
    };
    [function, &hex(text), &lent, &name].join("\t")
}

/// The part of a line that says what comes of it.
pub fn outcome(outcome: &Outcome) -> String {
    match outcome {
        Outcome::Read(judged) => {
            let (number, detail) = numbers(judged);
            let sheet = write_sheet(judged.as_deref().ok());
            format!("{number}\t{detail}\t-\t-\t-\t-\t{sheet}")
        }
        Outcome::Sheet(Expanded { report, sheet }) => [
            report.number.to_string(),
            report.detail.to_string(),
            report.steps.to_string(),
            report.place.to_string(),
            hex(&report.output),
            hex(&report.errors),
            write_sheet(sheet.as_deref()),
        ]
        .join("\t"),
        Outcome::Question(reading) => {
            let reading = reading.map_or(ABSENT.to_string(), write_reading);
            format!("-\t-\t-\t-\t-\t-\t{reading}")
        }
    }
}

fn numbers(judged: &Judged) -> (u32, u32) {
    match judged {
        Ok(_) => (0, 0),
        Err(refused) => (refused.number(), refused.detail()),
    }
}

/// Reads a line.
pub fn read(line: &str) -> Result<Row, String> {
    let fields: Vec<&str> = line.split('\t').collect();
    let [label, function, text, lent, name, answer @ .., shows] = &fields[..] else {
        return Err(format!("{} fields instead of 13", fields.len()));
    };
    let answer: [&str; 7] = answer
        .try_into()
        .map_err(|_| format!("{} fields instead of 13", fields.len()))?;
    let case = Case {
        asked: read_asked(function, unhex(text)?, lent, name)?,
        expected: read_outcome(function, answer)?,
    };
    Ok(Row {
        label: label.to_string(),
        case,
        shows: shows.to_string(),
    })
}

fn read_asked(function: &str, text: Vec<u8>, lent: &str, name: &str) -> Result<Asked, String> {
    match (function, lent, name) {
        ("read", NONE, NONE) => Ok(Asked::Read(text)),
        ("sheet", _, NONE) => Ok(Asked::Sheet(Template {
            text,
            set: NO_ITEMS.to_vec(),
            setting: Setting {
                lengths: read_lengths(lent)?,
                ..Setting::ample()
            },
            behind: Vec::new(),
        })),
        ("question", _, _) => Ok(Asked::Question {
            lines: read_lines(lent)?,
            text,
            name: unhex(name)?,
        }),
        _ => Err(format!("no question: {function} {lent} {name}")),
    }
}

fn read_outcome(function: &str, answer: [&str; 7]) -> Result<Outcome, String> {
    match (function, answer) {
        ("read", [number, detail, NONE, NONE, NONE, NONE, sheet]) => {
            read_judged(number, detail, sheet).map(Outcome::Read)
        }
        ("sheet", [number, detail, steps, place, output, errors, sheet]) => {
            Ok(Outcome::Sheet(Expanded {
                report: Report {
                    number: read_number(number)?,
                    detail: read_number(detail)?,
                    steps: read_number(steps)?,
                    place: read_number(place)?,
                    output: unhex(output)?,
                    errors: unhex(errors)?,
                },
                sheet: read_sheet(sheet)?,
            }))
        }
        ("question", [NONE, NONE, NONE, NONE, NONE, NONE, ABSENT]) => Ok(Outcome::Question(None)),
        ("question", [NONE, NONE, NONE, NONE, NONE, NONE, reading]) => {
            read_reading(reading).map(|reading| Outcome::Question(Some(reading)))
        }
        _ => Err(format!("no answer: {}", answer.join(" "))),
    }
}

fn read_judged(number: &str, detail: &str, sheet: &str) -> Result<Judged, String> {
    let fault = match (number, detail, read_sheet(sheet)?) {
        ("0", "0", Some(lines)) => return Ok(Ok(lines)),
        ("20", _, None) => Fault::Malformed,
        ("21", _, None) => Fault::Twice,
        ("22", _, None) => Fault::TooMany,
        _ => return Err(format!("no answer: {number} {detail} {sheet}")),
    };
    let line = read_number(detail)?;
    Ok(Err(Refused { fault, line }))
}

fn read_number<T: FromStr>(field: &str) -> Result<T, String> {
    field.parse().map_err(|_| format!("not a number: {field}"))
}

#[cfg(test)]
mod tests {
    use super::*;
    use crate::sheet::{Line, Reading};

    const GOOD: [&str; 9] = [
        "4.01\tread\t-\t-\t-\t0\t0\t-\t-\t-\t-\t[]\tno line",
        "x\tread\t0a\t-\t-\t20\t1\t-\t-\t-\t-\tnone\t",
        "x\tread\t613d31\t-\t-\t21\t2\t-\t-\t-\t-\tnone\t-",
        "x\tread\t613d31\t-\t-\t22\t257\t-\t-\t-\t-\tnone\t-",
        "x\tread\t61\t-\t-\t0\t0\t-\t-\t-\t-\t0+1 number -5;4+12 decimal 8000000000000000;9+1 word 11+2\ty",
        "x\tsheet\t613d31\t1,2,3,4,5,6,7\t-\t0\t0\t4\t3\t613d31\t65\t0+1 number 1\ty",
        "x\tsheet\t-\t1,2,3,4,5,6,65537\t-\t2\t0\t0\t0\t-\t-\tnone\ty",
        "x\tquestion\t61\t18446744073709551615+0 number 1\t61\t-\t-\t-\t-\t-\t-\tabsent\ty",
        "x\tquestion\t-\t[]\t-\t-\t-\t-\t-\t-\t-\tword 1+2\ty",
    ];

    #[test]
    fn lines_there_and_back() {
        for line in GOOD {
            assert_eq!(write(&read(line).unwrap()), line);
        }
    }

    #[test]
    fn what_a_line_says() {
        let row = read(
            "x\tquestion\t613d31\t0+1 word 3+4\t61\t-\t-\t-\t-\t-\t-\tdecimal 3ff0000000000000\ty",
        );
        let Row { label, case, shows } = row.unwrap();
        assert_eq!((&label[..], &shows[..]), ("x", "y"));
        let reading = Reading::Word {
            place: 3,
            length: 4,
        };
        let asked = Asked::Question {
            lines: vec![Line {
                place: 0,
                length: 1,
                reading,
            }],
            text: b"a=1".to_vec(),
            name: b"a".to_vec(),
        };
        assert_eq!(case.asked, asked);
        let one = Reading::Decimal(1.0f64.to_bits());
        assert_eq!(case.expected, Outcome::Question(Some(one)));
        let Asked::Sheet(template) = read(GOOD[5]).unwrap().case.asked else {
            panic!("no template");
        };
        assert_eq!(template.setting.lengths, [1, 2, 3, 4, 5, 6, 7]);
        assert_eq!(template.setting.budget, 16_777_216);
        assert_eq!(
            (&template.text[..], &template.set[..]),
            (&b"a=1"[..], &[0][..])
        );
    }

    #[test]
    fn a_set_and_a_budget_have_no_column() {
        let mut case = read(GOOD[5]).unwrap().case;
        assert!(has_a_line(&case));
        let change = |case: &mut Case, change: fn(&mut Template)| {
            if let Asked::Sheet(template) = &mut case.asked {
                change(template);
            }
        };
        change(&mut case, |template| template.setting.budget = 5);
        assert!(!has_a_line(&case));
        change(&mut case, |template| {
            template.setting.budget = 16_777_216;
            template.set = vec![0, 0];
        });
        assert!(!has_a_line(&case));
        assert!(has_a_line(&read(GOOD[0]).unwrap().case));
    }

    #[test]
    fn bad_lines() {
        let bad = [
            (0, "\tno line", ""),
            (0, "read", "reads"),
            (0, "read", "sheet"),
            (0, "-\t-\t0", "-\t61\t0"),
            (0, "0\t0\t-", "0\t1\t-"),
            (0, "[]", "none"),
            (0, "[]", ""),
            (1, "20\t1", "23\t1"),
            (1, "20\t1", "20\t-"),
            (1, "none", "[]"),
            (4, "-5;", "-5; "),
            (4, "-5;", "-5;;"),
            (4, "-5", "2147483648"),
            (4, "8000000000000000", "800000000000000"),
            (4, "number", "numbers"),
            (4, "11+2", "11"),
            (4, "0+1", "0-1"),
            (5, "1,2,3", "1,2"),
            (7, "18446744073709551615", "18446744073709551616"),
            (7, "absent", "none"),
            (8, "\t-\tword", "\t0\tword"),
        ];
        for (which, from, to) in bad {
            let line = GOOD[which].replacen(from, to, 1);
            assert_ne!(line, GOOD[which]);
            assert!(read(&line).is_err(), "{line}");
        }
    }
}
