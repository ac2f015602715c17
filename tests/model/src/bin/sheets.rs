//! `sheets FILE` asks the model each line of a table of cases of the sheet, and prints each
//! disagreement in full: the numbers, the written bytes, and every line or the reading.

use model::table::judge;
use model::table::sheets::{asked, outcome, read};
use std::process::ExitCode;

fn main() -> ExitCode {
    judge::file("sheets", agrees)
}

fn agrees(line: &str) -> Result<(), String> {
    let row = read(line)?;
    let got = row.case.asked.outcome();
    if got == row.case.expected {
        return Ok(());
    }
    Err(format!(
        "{}: {}\n  expected {}\n  got      {}",
        row.label,
        asked(&row.case.asked),
        outcome(&row.case.expected),
        outcome(&got)
    ))
}
