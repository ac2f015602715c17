//! `lines FILE` asks the model each line of a table of cases of the index of lines, and prints each
//! disagreement in full: the number, the line or start, and every word and total afterwards.

use model::table::judge;
use model::table::lines::{asked, outcome, read};
use std::process::ExitCode;

fn main() -> ExitCode {
    judge::file("lines", agrees)
}

fn agrees(line: &str) -> Result<(), String> {
    let row = read(line)?;
    let case = &row.case;
    let got = case.asked.outcome(&case.words, &case.totals);
    if got == case.expected {
        return Ok(());
    }
    Err(format!(
        "{}: {}\n  expected {}\n  got      {}",
        row.label,
        asked(case),
        outcome(&case.expected),
        outcome(&got)
    ))
}
