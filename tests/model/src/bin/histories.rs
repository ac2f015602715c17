//! `histories FILE` runs every line of a table of histories through the model, holds what request 8 says
//! to it, and prints each disagreement in full: number, detail, output, numbers and routes.

use model::expand_recorded;
use model::history::{check, Numbers};
use model::table::histories::{read, Outcome};
use model::table::{hex, judge};
use std::process::ExitCode;

fn main() -> ExitCode {
    judge::file("histories", agrees)
}

fn agrees(line: &str) -> Result<(), String> {
    let row = read(line)?;
    let (report, trace) = expand_recorded(&row.text, &row.set, &row.setting);
    let numbers = Numbers::of(&trace.history);
    let got = Outcome::of(&report, &numbers);
    if got != row.expected {
        return Err(format!(
            "{}: text {}\n  expected {}\n  got      {}",
            row.label,
            hex(&row.text),
            row.expected.shown(),
            got.shown()
        ));
    }
    if report.number > 1 {
        return Err(format!("{}: a refused run has no history here", row.label));
    }
    check(&report, &numbers).map_err(|what| format!("{}: {what}", row.label))
}
