//! What is asked of a sheet: that the output is one, and the readings of names.

use crate::arguments::Options;
use crate::sheet_words;
use crate::templates::Templates;
use crate::{ABSENT, REFUSED};
use quenhovach::sheet::{line, Outcome, Sheet};
use quenhovach::{Answer, Expander};

/// Why nothing is written of a run that wrote text.
pub struct Unfit {
    pub message: String,
    /// The exit status.
    pub status: u8,
}

/// Expands the text; where a sheet is asked for, the output is read as one.
pub fn run(options: &Options, expander: &mut Expander, text: &[u8]) -> Outcome {
    if options.asks_for_sheet() {
        return expander.run_sheet(text);
    }
    Outcome {
        report: expander.run(text),
        bad_line: None,
    }
}

/// The readings that are asked for, a line for each, of a run that wrote text. Where no sheet is asked for there are none.
pub fn of(
    options: &Options,
    outcome: &Outcome,
    templates: &Templates,
    expander: &Expander,
) -> Result<Vec<u8>, Unfit> {
    if !options.asks_for_sheet() {
        return Ok(Vec::new());
    }
    if let Some(bad) = outcome.bad_line {
        let output = expander.output();
        return Err(Unfit {
            message: sheet_words::bad_line(options, outcome, bad, templates, output),
            status: REFUSED + bad.number() as u8,
        });
    }
    match expander.sheet() {
        Some(sheet) => listed(options, &sheet),
        None => Err(Unfit {
            message: sheet_words::exited(options, outcome, templates),
            status: exit_status(outcome.report.answer),
        }),
    }
}

/// The exit status of a run that `m4exit` ended without a sheet: its number, but never 0.
fn exit_status(answer: Answer) -> u8 {
    match answer {
        Answer::Exit(code @ 1..) => code,
        _ => REFUSED + answer.number() as u8,
    }
}

fn listed(options: &Options, sheet: &Sheet) -> Result<Vec<u8>, Unfit> {
    let names = options.readings.iter().map(String::as_str);
    let mut absent = Vec::new();
    for name in names.clone().filter(|name| sheet.line_of(name).is_none()) {
        if !absent.contains(&name) {
            absent.push(name);
        }
    }
    if !absent.is_empty() {
        return Err(Unfit {
            message: sheet_words::absent(options, &absent, sheet),
            status: ABSENT,
        });
    }
    Ok(names.flat_map(|name| text_of(sheet, name)).collect())
}

/// A reading as it stands in the sheet, and a newline.
fn text_of(sheet: &Sheet, name: &str) -> Vec<u8> {
    let number = sheet.line_of(name).unwrap_or_default();
    let line = line(sheet.text(), number).unwrap_or_default();
    let reading = line.get(name.len() + 1..).unwrap_or_default();
    [reading, b"\n"].concat()
}
