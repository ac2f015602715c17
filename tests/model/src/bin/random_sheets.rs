//! `random_sheets SEED COUNT` writes random cases of the sheet with the model's answers as a table like
//! tests/sheets.tsv.

use model::generate::sheets::case;
use model::generate::Scale;
use model::random::Random;
use model::table::sheets::{write, Row, HEADER};
use std::io::{BufWriter, Write};
use std::process::ExitCode;

fn main() -> ExitCode {
    let numbers: Vec<Option<u64>> = std::env::args()
        .skip(1)
        .map(|argument| argument.parse().ok())
        .collect();
    let [Some(seed), Some(count)] = numbers[..] else {
        eprintln!("use: random_sheets SEED COUNT");
        return ExitCode::from(2);
    };
    match write_cases(seed, count) {
        Ok(()) => ExitCode::SUCCESS,
        Err(error) => {
            eprintln!("{error}");
            ExitCode::from(2)
        }
    }
}

fn write_cases(seed: u64, count: u64) -> std::io::Result<()> {
    let mut random = Random::new(seed);
    let mut out = BufWriter::new(std::io::stdout().lock());
    writeln!(out, "{HEADER}")?;
    for i in 1..=count {
        let row = Row {
            label: format!("s{seed}-{i}"),
            case: case(&mut random, Scale::Small),
            shows: "the model's answer".to_string(),
        };
        writeln!(out, "{}", write(&row))?;
    }
    out.flush()
}
