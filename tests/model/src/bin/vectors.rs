//! `vectors FILE` runs every line of a table of cases through the model and prints each
//! disagreement in full, with the number of its line: items have several.

use model::table::{hex, judge, read};
use model::{expand, Report};
use std::process::ExitCode;

fn main() -> ExitCode {
    judge::file("vectors", agrees)
}

fn agrees(line: &str) -> Result<(), String> {
    let row = read(line)?;
    let got = expand(&row.text, &row.set, &row.setting);
    if got == row.expected {
        return Ok(());
    }
    Err(format!(
        "{}: text {}\n  set {}\n  lengths {:?}, budget {}\n  expected {}\n  got      {}",
        row.item,
        hex(&row.text),
        hex(&row.set),
        row.setting.lengths,
        row.setting.budget,
        shown(&row.expected),
        shown(&got)
    ))
}

fn shown(report: &Report) -> String {
    format!(
        "{}/{}, {} steps, place {}, output {}, error text {}",
        report.number,
        report.detail,
        report.steps,
        report.place,
        hex(&report.output),
        hex(&report.errors)
    )
}
